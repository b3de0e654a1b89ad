; The NMI enable is set once and never cleared: one NMI comes, and no other.
            org 0000h
            ld sp,4400h
            ld a,1
            ld (7001h),a
loop:       inc a
            ld (4001h),a
            jr loop

            defs 0066h - $
            push af
            ld a,(4000h)
            inc a
            ld (4000h),a
            pop af
            retn
