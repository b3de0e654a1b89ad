; The NMI enable is set and cleared again every 49 T-states, so the blank falls into each part of the loop in turn. The NMI
; routine leaves the enable alone.
            org 0000h
            ld sp,4400h
loop:       ld a,1
            ld (7001h),a
            xor a
            ld (7001h),a
            jr loop

            defs 0066h - $
            push af
            ld a,(4000h)
            inc a
            ld (4000h),a
            pop af
            retn
