; Main code waits by HALT; the NMI routine clears the enable and sets it again.
            org 0000h
            ld sp,4400h
            ld a,1
            ld (7001h),a
loop:       halt
            ld a,(4001h)
            add a,17
            ld (4001h),a
            jr loop

            defs 0066h - $
            push af
            xor a
            ld (7001h),a
            ld a,(4000h)
            inc a
            ld (4000h),a
            ld a,1
            ld (7001h),a
            pop af
            retn
