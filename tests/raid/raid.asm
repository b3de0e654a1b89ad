;@ stack 43B0..4400 ;@ nmi budget 50000
; STAR RAID - Galaxian hardware. First version, written as usual, no thought of a verifier.
; z80asm -o raid.rom -L raid.asm

; --- work RAM
coinmode:   equ 4000h
coins:      equ 4001h
credits:    equ 4002h
script:     equ 4005h           ; 0 boot 1 attract 2 coin inserted 3 play 4 game over
inplay:     equ 4006h
timer1:     equ 4008h
timer2:     equ 4009h
substate:   equ 400Ah
player:     equ 400Dh
twoplay:    equ 400Eh
in0:        equ 4010h           ; port copies and their last state
in1:        equ 4011h
in2:        equ 4012h
in0old:     equ 4013h
in1old:     equ 4014h
seed:       equ 401Eh
frame:      equ 405Fh+1         ; 4060
colattr:    equ 4020h           ; 32 x (scroll, colour)
objshadow:  equ 4020h
sprites:    equ 4060h
shots:      equ 4080h
qhead:      equ 40A0h
qtail:      equ 40A1h
score1:     equ 40A2h           ; 3 bytes of BCD, low first
score2:     equ 40A5h
hiscore:    equ 40A8h
sndptr:     equ 40ACh           ; pointer to the next note
sndtim:     equ 40AEh
sndreq:     equ 40AFh
queue:      equ 40C0h           ; to 40FF
swarm:      equ 4100h           ; 6 x 16
pldata:     equ 4180h           ; data of the player on turn
shipx:      equ 4202h
shiplive:   equ 4200h
shotlive:   equ 4208h
shotx:      equ 4209h
shoty:      equ 420Ah
swarmx:     equ 420Eh
swarmdir:   equ 4210h
lives:      equ 421Dh
actors:     equ 42B0h           ; 8 x 20h
stacktop:   equ 4400h

video:      equ 5000h
objram:     equ 5800h

            org 0
            xor a
            ld (7001h),a
            ld sp,stacktop
            jp start

            defs 10h-$
            ret                 ; RST 10h: gone (fill had no one fact)

            defs 18h-$
            ret                 ; RST 18h: gone

            defs 20h-$
lookup:     add a,l             ; RST 20h: A = (HL+A)
            ld l,a
            ld a,0
            adc a,h
            ld h,a
            ld a,(hl)
            ret

            defs 28h-$ ;@ split A 0..4 until nmiend
dispatch:   add a,a             ; RST 28h: jump by the table behind the call
            pop hl
            ld e,a
            ld d,0
            jp dispatch2

            defs 30h-$
random:     ld a,(seed)         ; RST 30h
            ld c,a
            add a,a
            add a,a
            add a,c
            inc a
            ld (seed),a
            ret

dispatch2:  add hl,de
            ld e,(hl)
            inc hl
            ld d,(hl)
            ex de,hl
            jp (hl)

            defs 66h-$
nmi:        push af
            push bc
            push de
            push hl
            push ix
            push iy
            exx
            push de
            push hl
            push bc
            exx
            xor a
            ld (7001h),a
            ld hl,objshadow
            ld de,objram
            ld bc,0080h
nldir:      ldir ;@ fact DE+BC = 05880h ;@ loop BC
            ld a,(7800h)
            ; read the ports
            ld hl,(in0)
            ld (in0old),hl
            ld a,(6000h)
            ld (in0),a
            ld a,(6800h)
            ld (in1),a
            ld a,(7000h)
            ld (in2),a
            call docoins
            call dotimers
            call dosound
            call dostate
            jp nmiend
dostate:    ld a,(script)
            cp 5
            ret nc
d1:         rst 28h ;@ inline
            defw s_boot
            defw s_attract
            defw s_coin
            defw s_play
            defw s_over

nmiend:     ld a,1
            ld (7001h),a
            exx
            pop bc
            pop hl
            pop de
            exx
            pop iy
            pop ix
            pop hl
            pop de
            pop bc
            pop af
            retn

; a coin falls when bit 0 goes up
docoins:    ld a,(in0old)
            cpl
            ld b,a
            ld a,(in0)
            and b
            and 3
            ret z
            ld hl,coins
            inc (hl)
            ld a,(coinmode)
            or a
            jr z,onecoin
            ld a,(hl)
            cp 2
            ret c
onecoin:    ld (hl),0
            ld a,(credits)
            cp 99h
            ret nc
            add a,1
            daa
            ld (credits),a
            ld de,0701h         ; task 7: show the credits
            jp addtask

dotimers:   ld hl,frame+0
            ld hl,timer1
            ld a,(hl)
            or a
            jr z,dt1
            dec (hl)
dt1:        inc hl
            ld a,(hl)
            or a
            ret z
            dec (hl)
            ret

; sound: a request starts a tune, else the pointer walks on
dosound:    ld a,(sndreq)
            or a
            jr z,walk
            dec a
            add a,a
            ld e,a
            ld d,0
            ld hl,tunes
            add hl,de
            ld e,(hl)
            inc hl
            ld d,(hl)
            ld (sndptr),de
            xor a
            ld (sndreq),a
            inc a
            ld (sndtim),a
walk:       ld hl,sndtim
            ld a,(hl)
            or a
            ret z
            dec (hl)
            ret nz
            ld de,(sndptr)
            ld a,(de)
            cp 0FFh
            jr z,silence
            ld (7800h),a
            inc de
            ld a,(de)
            ld (hl),a
            inc de
            ld (sndptr),de
            ret
silence:    ld (7800h),a
            ret

; put task D with parameter E to the queue
addtask:    push hl
            ld h,40h
            ld a,(qhead)
            ld l,a
            bit 7,(hl)
            jr z,qfull
            ld (hl),d
            inc l
            ld (hl),e
            inc l
            ld a,l
            cp 0C0h
            jr nc,qok
            ld a,0C0h
qok:        ld (qhead),a
qfull:      pop hl
            ret

; ---- the states, run by the NMI

s_boot:     call sub_boot
            ret
sub_boot:   ld a,(substate)
            cp 2
            ret nc
d2:         rst 28h ;@ inline
            defw boot0
            defw boot1

boot0:      ld hl,substate
            inc (hl)
            ld a,40h
            ld (timer1),a
            ld de,0600h         ; clear the screen
            jp addtask

boot1:      ld a,(timer1)
            or a
            ret nz
            ld a,1
            ld (script),a
            xor a
            ld (substate),a
            ret

s_attract:  ld a,(credits)
            or a
            jr nz,tocoin
            call sub_att
            ret
sub_att:   ld a,(substate)
            cp 3
            ret nc
d3:         rst 28h ;@ inline
            defw att0
            defw att1
            defw att2

tocoin:     ld a,2
            ld (script),a
            xor a
            ld (substate),a
            ret

att0:       ld de,0600h
            call addtask
            ld de,0500h         ; the title
            call addtask
            ld de,0501h
            call addtask
            ld a,0F0h
            ld (timer1),a
            ld hl,substate
            inc (hl)
            ret

att1:       call movesprites
            ld a,(timer1)
            or a
            ret nz
            ld de,0502h
            call addtask
            ld a,0F0h
            ld (timer1),a
            ld hl,substate
            inc (hl)
            ret

att2:       call movesprites
            ld a,(timer1)
            or a
            ret nz
            xor a
            ld (substate),a
            ret

s_coin:     call sub_coin
            ret
sub_coin:   ld a,(substate)
            cp 2
            ret nc
d4:         rst 28h ;@ inline
            defw coin0
            defw coin1

coin0:      ld de,0600h
            call addtask
            ld de,0503h         ; push start
            call addtask
            ld hl,substate
            inc (hl)
            ret

coin1:      ld a,(in1)
            bit 0,a
            jr nz,start1
            bit 1,a
            ret z
            ld a,(credits)
            cp 2
            ret c
            sub 2
            daa
            ld (credits),a
            ld a,1
            jr starts
start1:     ld a,(credits)
            sub 1
            daa
            ld (credits),a
            xor a
starts:     ld (twoplay),a
            ld de,0600h
            call addtask
            ld de,0400h         ; clear the scores
            call addtask
            ld a,3
            ld (script),a
            ld (lives),a
            ld (inplay),a
            xor a
            ld (substate),a
            ld (player),a
            ret

s_play:     call sub_play
            ret
sub_play:   ld a,(substate)
            cp 3
            ret nc
d5:         rst 28h ;@ inline
            defw play0
            defw play1
            defw play2

; set up a wave
play0:      ld hl,swarm
            ld b,60h
            ld a,1
fillsw:     ld (hl),a ;@ loop B
            inc l
            djnz fillsw
            ld hl,actors
            ld de,actors+1
            ld bc,00FFh
            ld (hl),0
fillac:     ldir ;@ fact DE+BC = 043B0h ;@ loop BC
            ld hl,shiplive
            ld (hl),1
            ld a,80h
            ld (shipx),a
            ld hl,substate
            inc (hl)
            ret

play1:      call steer
            call moveshot
            call marching
            call launch
            call moveactors
            call hits
            call showall
            ld a,(shiplive)
            or a
            ret nz
            ld a,40h
            ld (timer1),a
            ld a,2
            ld (sndreq),a
            ld hl,substate
            inc (hl)
            ret

play2:      call moveactors
            call showall
            ld a,(timer1)
            or a
            ret nz
            ld hl,lives
            dec (hl)
            jr z,gameover
            xor a
            ld (substate),a
            ret
gameover:   ld a,4
            ld (script),a
            ld a,0A0h
            ld (timer1),a
            xor a
            ld (substate),a
            ld (inplay),a
            ld de,0504h
            jp addtask

s_over:     ld a,(timer1)
            or a
            ret nz
            ld a,1
            ld (script),a
            ret

; the ship
steer:      ld a,(in0)
            ld hl,shipx
            bit 2,a
            jr z,nleft
            ld a,(hl)
            cp 10h
            ret c
            dec (hl)
            jr tryfire
nleft:      bit 3,a
            jr z,tryfire
            ld a,(hl)
            cp 0E8h
            ret nc
            inc (hl)
tryfire:    ld a,(in0)
            bit 4,a
            ret z
            ld a,(shotlive)
            or a
            ret nz
            ld a,1
            ld (shotlive),a
            ld (sndreq),a
            ld a,(shipx)
            ld (shotx),a
            ld a,0E0h
            ld (shoty),a
            ret

moveshot:   ld hl,shotlive
            bit 0,(hl)
            ret z
            ld a,(shoty)
            sub 4
            ld (shoty),a
            cp 8
            ret nc
            ld (hl),0
            ret

marching:   ld a,(swarmdir)
            ld hl,swarmx
            or a
            jr nz,mleft
            inc (hl)
            ld a,(hl)
            cp 20h
            ret c
            ld a,1
            ld (swarmdir),a
            ret
mleft:      dec (hl)
            ret nz
            xor a
            ld (swarmdir),a
            ret

; find a free actor and launch an alien into it
launch:     ld a,(timer2)
            or a
            ret nz
            ld ix,actors
            ld de,0020h
            ld b,8
lfind:      bit 0,(ix+0) ;@ split B 1..8 until launch
            jr z,lfound
            add ix,de
            djnz lfind
            ret
lfound:     rst 30h
            and 0Fh
            ld c,a
            ld hl,swarm
lk1:        rst 20h             ; is there an alien? ;@ inline
            or a
            ret z
            ld (hl),0
            ld (ix+0),1
            ld a,c
            add a,a
            add a,a
            add a,a
            ld (ix+5),a         ; x
            ld (ix+3),30h       ; y
            ld (ix+4),0         ; fraction of y
            ld (ix+6),0
            ld hl,0140h
            ld (ix+8),l         ; speed, 8.8
            ld (ix+9),h
            ld a,30h
            ld (timer2),a
            ret

; all actors: fixed point, 8.8
moveactors: ld ix,actors
            ld de,0020h
            ld b,8
ma:         exx ;@ split B 1..8 until moveactors
            bit 0,(ix+0)
            call nz,moveone
            exx
            add ix,de
            djnz ma
            ret

moveone:    ld l,(ix+4)
            ld h,(ix+3)
            ld e,(ix+8)
            ld d,(ix+9)
            add hl,de
            ld (ix+4),l
            ld (ix+3),h
            ld a,h
            cp 0F0h
            jr c,sway
            ld (ix+0),0
            ret
sway:       inc (ix+6)
            ld a,(ix+6)
            and 1Fh
            ld hl,swaytab
            rst 20h
            add a,(ix+5)
            ld (ix+5),a
            ret

; does the shot hit an actor?
hits:       ld a,(shotlive)
            or a
            ret z
            ld ix,actors
            ld de,0020h
            ld b,8
hloop:      bit 0,(ix+0) ;@ split B 1..8 until hits
            jr z,hnext
            ld a,(shotx)
            sub (ix+5)
            add a,8
            cp 10h
            jr nc,hnext
            ld a,(shoty)
            sub (ix+3)
            add a,8
            cp 10h
            jr nc,hnext
            ld (ix+0),0
            xor a
            ld (shotlive),a
            ld a,3
            ld (sndreq),a
            push bc
            push de
            ld de,0300h         ; add points
            call addtask
            pop de
            pop bc
            ret
hnext:      add ix,de
            djnz hloop
            ret

; actors to sprites
showall:    ld ix,actors
            ld iy,sprites
            ld b,8
sh:         ld a,(ix+3) ;@ split B 1..8 until showall
            ld (iy+0),a
            ld a,(ix+6)
            rrca
            rrca
            and 0Fh
            or 10h
            ld (iy+1),a
            ld (iy+2),3
            ld a,(ix+5)
            bit 0,(ix+0)
            jr nz,sh2
            ld a,0
sh2:        ld (iy+3),a
            ld de,0020h
            add ix,de
            ld e,4
            add iy,de
            djnz sh
            ld hl,shots+1
            ld a,(shotlive)
            or a
            jr z,sh3
            ld a,(shoty)
            ld (hl),a
            inc hl
            inc hl
            ld a,(shotx)
            ld (hl),a
            ret
sh3:        ld (hl),0
            ret

; sprites fly in the attract mode
movesprites: ld hl,sprites
            ld b,8
ms:         inc (hl) ;@ loop B
            inc l
            inc l
            inc l
            inc l
            djnz ms
            ret

; ---- main

start:      ld hl,4000h
            ld de,4001h
            ld bc,03FFh
            ld (hl),0
            ldir ;@ fact DE+BC = 04400h
            call t_clear
            ld hl,queue
            ld b,40h
            ld a,0FFh
fillq:      ld (hl),a
            inc l
            djnz fillq
            ld a,0C0h
            ld (qhead),a
            ld (qtail),a
            ld hl,colours
            ld de,colattr+1
            ld b,20h
cols:       ld a,(hl) ;@ fact DE+2*B = 04061h through djnz
            ld (de),a
            inc hl
            inc de
            inc de
            djnz cols
            ld a,1
            ld (6804h),a
            ld (7001h),a

; take tasks from the queue for ever
mainloop:   ld h,40h
            ld a,(qtail)
            ld l,a
            ld a,(hl)
            bit 7,a
            jr nz,mainloop
            and 7
task:       add a,a ;@ split A 0..7 until mainloop
            ld c,a
            ld b,0
            ld (hl),0FFh
            inc l
            ld e,(hl)
            ld (hl),0FFh
            inc l
            ld a,l
            cp 0C0h
            jr nc,noc
            ld a,0C0h
noc:        ld (qtail),a
            ld a,e
            ld hl,tasks
            add hl,bc
            ld e,(hl)
            inc hl
            ld d,(hl)
            ld hl,mainloop
            push hl
            ex de,hl
            jp (hl)

tasks:      defw t_none
            defw t_none
            defw t_none
            defw t_points
            defw t_clrscore
            defw t_text
            defw t_clear
            defw t_credits

t_none:     ret

t_clear:    ld hl,video
            ld de,video+1
            ld bc,03FFh
            ld (hl),10h
clr:        ldir ;@ fact DE+BC = 05400h
            ret

t_clrscore: ld hl,score1
            ld b,6
            xor a
clrsc:      ld (hl),a
            inc l
            djnz clrsc
            jr showscore

; add the points of the table, entry A, to the score of the player
t_points:   ld c,a
            add a,a
            add a,c
            ld c,a
            ld b,0
            ld hl,points
            add hl,bc
            ex de,hl
            ld hl,score1
            ld a,(player)
            or a
            jr z,tp1
            ld hl,score2
tp1:        ld b,3
            or a
tp2:        ld a,(de)
            adc a,(hl)
            daa
            ld (hl),a
            inc de
            inc l
            djnz tp2
            ; is it the high score?
            dec hl
            ld de,hiscore+2
            ld b,3
tp3:        ld a,(de)
            cp (hl)
            jr c,newhi
            jr nz,showscore
            dec hl
            dec de
            djnz tp3
            jr showscore
newhi:      ld hl,score1
            ld a,(player)
            or a
            jr z,nh1
            ld hl,score2
nh1:        ld de,hiscore
            ld bc,3
newldir:    ldir ;@ fact DE+BC = 040ABh
showscore:  ld de,score1+2
            ld hl,5381h
            call showbcd
            ld de,hiscore+2
            ld hl,5241h
            call showbcd
            ret

t_credits:  ld de,credits
            ld hl,529Fh
            ld b,1
            jr sb1

; six digits at DE downwards, to IX to the right: a column is -20h
showbcd:    ld b,3
sb1:        ld a,(de)
            rrca
            rrca
            rrca
            rrca
            call digit
            ld a,(de)
            call digit
            dec de
            djnz sb1
            ret
digit:      and 0Fh
            ld c,a
            ld a,h              ; galcert: keep HL in video RAM
            and 3
            add a,50h
            ld h,a
            ld (hl),c
            ld a,l
            sub 20h
            ld l,a
            ret nc
            dec h
            ret

; print text A: address in video RAM, letters, 3Fh
t_text:     add a,a
            ld l,a
            ld h,0
            ld de,texts
            add hl,de
            ld e,(hl)
            inc hl
            ld d,(hl)
            ex de,hl
            ld e,(hl)
            inc hl
            ld d,(hl)
            inc hl
            ex de,hl
            ld bc,-20h
tt:         ld a,h              ; galcert: keep HL in video RAM
            and 3
            add a,50h
            ld h,a
            ld a,(de)
            cp 3Fh
            ret z
            sub 30h
            ld (hl),a
            inc de
            add hl,bc
            jr tt

texts:      defw tx0
            defw tx1
            defw tx2
            defw tx3
            defw tx4
tx0:        defw 52E6h
            defm "STAR@RAID?"
tx1:        defw 5329h
            defm "WE@ARE@THE@RAIDERS?"
tx2:        defw 532Ch
            defm "MISSION@DESTROY@THEM?"
tx3:        defw 5330h
            defm "PUSH@START@BUTTON?"
tx4:        defw 52B4h
            defm "GAME@OVER?"
points:     defb 30h,0,0
            defb 50h,0,0
            defb 80h,0,0
            defb 00h,1,0
colours:    defb 0,0,7,7,5,5,1,1,2,2,3,3,4,4,5,5
            defb 6,6,7,7,1,1,2,2,3,3,4,4,5,5,6,6
swaytab:    defb 0,1,1,2,2,2,1,1,0,-1,-1,-2,-2,-2,-1,-1
            defb 0,1,1,2,2,2,1,1,0,-1,-1,-2,-2,-2,-1,-1
tunes:      defw tune1
            defw tune2
            defw tune3
tune1:      defb 0C0h,2,0B0h,2,0A0h,2,90h,2,0FFh
tune2:      defb 40h,8,50h,8,30h,8,20h,16,0FFh
tune3:      defb 0E0h,1,0D0h,1,0E0h,1,0D0h,1,0FFh
