; The NMI enable is set for some four frames and a half and cleared for two: one NMI in each window, which begins elsewhere in
; the frame each time. Meanwhile LDIRs fill all RAMs through their mirrors, and other latches are written.
            org 0000h
            ld sp,4400h
            xor a
            ld (4000h),a
loop:       ld a,1
            ld (77F9h),a        ; a mirror of 7001
            call pause
            call pause
            xor a
            ld (7001h),a
            call pause
            ld (7002h),a        ; other latches
            ld (7000h),a
            ld a,1
            ld (7003h),a
            ld (6001h),a
            ld (6801h),a
            xor a
            ld (6801h),a
            jr loop

            defs 0066h - $
            push af
            ld a,(4000h)
            inc a
            ld (4400h),a        ; a mirror of 4000
            pop af
            retn

pause:      ld b,3
again:      push bc
            ld hl,4100h
            ld de,4501h         ; 4101 to 42FF
            ld bc,01FFh
            ld a,(4000h)
            ld (hl),a
work:       ldir
            ld hl,5000h
            ld de,5401h         ; 5001 to 53FF
            ld bc,03FFh
            ld (hl),a
video:      ldir
            ld hl,5800h
            ld de,5F01h         ; 5801 to 58FE
            ld bc,00FEh
            ld (hl),a
object:     ldir
            pop bc
            djnz again
            ret
