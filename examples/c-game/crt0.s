; The start of worm.c, and its NMI routine. The C library's own start is not used.
        .module crt0
        .globl  _main
        .globl  _blank
        .globl  _shadow

        .area   _HEADER (ABS)
        .org    0x0000
        xor     a
        ld      (0x7001),a      ; no NMI before the stack is there
        ld      sp,#0x4400      ;@ stack 4380..4400 ;@ nmi budget 4000
        jp      start

        .org    0x0066
        push    af
        push    bc
        push    de
        push    hl
        push    ix
        push    iy
        xor     a
        ld      (0x7001),a      ; lets the flip-flop go
        ld      a,(0x7800)      ; the watchdog
        ld      hl,#_shadow     ; rows, sprites and shots go out to the object RAM
        ld      de,#0x5800
        ld      bc,#0x0080
send:   ldir                    ;@ fact DE+BC = 5880h ;@ loop BC
        call    _blank
        ld      a,#1
        ld      (0x7001),a
        pop     iy
        pop     ix
        pop     hl
        pop     de
        pop     bc
        pop     af
        retn

        .area   _HOME
        .area   _CODE
        .area   _INITIALIZER
        .area   _GSINIT
        .area   _GSFINAL
        .area   _DATA
        .area   _INITIALIZED
        .area   _BSEG
        .area   _BSS
        .area   _HEAP

        .area   _CODE
start:  ld      hl,#0x4000      ; clears work RAM below the stack, so that C finds its variables 0
        ld      de,#0x4001
        ld      bc,#0x037f
        ld      (hl),#0
clear:  ldir                    ;@ fact DE+BC = 4380h
        call    _main
stop:   jr      stop
