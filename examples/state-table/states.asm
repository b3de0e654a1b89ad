; A game: a convoy of 32 enemies marches, some of them dive, and the player's ship shoots at them. A jump table chooses what a frame
; does, by the state of the game; and each text that is printed stands behind the call that prints it.
; Assemble with z80asm: z80asm -o states.rom states.asm
;
; A place on the screen is a column, 0 to 31 from the left, and a row, 0 to 31 from the top. The monitor stands on its side, so a step
; to the right is 32 bytes down in video RAM. Tiles have their ASCII codes; 20h is blank. What moves has its place in dots, 8 a tile.

stack:      equ 4400h           ; the stack goes down from here to 43A0 ;@ stack 43A0..4400 ;@ nmi budget 4000
copy:       equ 4000h           ; what goes to the object RAM: 32 rows of 2 bytes, 8 sprites of 4 bytes, 8 shots of 4 bytes
state:      equ 4080h           ; 0 attract, 1 coin, 2 start, 3 play, 4 death, 5 game over, 6 a name for the best
fresh:      equ 4081h           ; 1 in the first frame of a state
dirty:      equ 4082h           ; 1 once the NMI routine has been there
frames:     equ 4083h           ; counts frames
seconds:    equ 4084h           ; counts down to 0, a frame a step
stick:      equ 4085h           ; what IN0 was at the last blank
pressed:    equ 4086h           ; what was pressed of it, until main code has seen it
buttons:    equ 4087h           ; the same of IN1
started:    equ 4088h
credit:     equ 4089h           ; coins, in BCD
player:     equ 408Ah           ; whose turn it is, 0 or 1
rating:     equ 408Fh           ; which of the best the player is, 0 to 4
own:        equ 4090h           ; the low byte of where the player's name stands
initial:    equ 4091h           ; which letter of it is chosen now, 0 to 2
noise:      equ 4092h           ; frames that are left of a sound, its pitch, and by how much it changes
ship:       equ 4095h           ; its place from the left
hit:        equ 4096h           ; 1 once the ship is hit
shot:       equ 4097h           ; 1 while it flies; its place from the left, its height
march:      equ 409Ah           ; by how much the convoy is shifted to the right
heading:    equ 409Bh           ; 1 or -1
face:       equ 409Eh           ; which of two pages the attract state shows, in bit 0
convoy:     equ 4100h           ; 4 ranks of 8 enemies: 1 where one is
score:      equ 4120h           ; three bytes of BCD, the lowest first
lives:      equ 4123h
wave:       equ 4124h           ; in BCD
left:       equ 4125h           ; enemies that are left, those that dive too
pace:       equ 4126h           ; frames from one dive to the next
divers:     equ 4140h           ; 4 of 8 bytes: 1 while it dives, place from the left, height, where it belongs, phase
bombs:      equ 4160h           ; 4 of 4 bytes: 1 while it falls, place from the left, height
bests:      equ 4180h           ; the best five: three bytes of BCD, the highest first, and three letters
other:      equ 41C0h           ; the same 39 bytes of the player who waits, as they stand from `convoy` on
video:      equ 5000h
objects:    equ 5800h
in0:        equ 6000h           ; coins in bits 0 and 1, left in 2, right in 3, fire in 4
in1:        equ 6800h           ; start for one in bit 0, for two in 1
loudness:   equ 6806h
enable:     equ 7001h
sky:        equ 7004h           ; the board's own stars
pitch:      equ 7800h           ; for writing
watchdog:   equ 7800h           ; for reading

            org 0000h
            ld sp,stack
            jp start

; ---- the vertical blank

            defs 0066h - $
            push af
            push bc
            push de
            push hl
            xor a
            ld (enable),a       ; lets the flip-flop go
            ld a,(watchdog)
            ld hl,copy          ; rows, sprites and shots go out to the object RAM
            ld de,objects
            ld bc,0080h
send:       ldir ;@ fact DE+BC = 5880h ;@ loop BC
            call inputs
            call sing
            ld hl,frames
            inc (hl)
            ld hl,seconds
            ld a,(hl)
            or a
            jr z,still
            dec (hl)
still:      ld a,1
            ld (dirty),a
            ld (enable),a
            pop hl
            pop de
            pop bc
            pop af
            retn

; Reads the inputs: what is set now and was not at the last blank has been pressed. Counts coins, 99 at most.
inputs:     ld a,(in1)
            ld b,a
            ld hl,buttons
            ld a,(hl)
            cpl
            and b
            ld (hl),b
            inc hl
            or (hl)
            ld (hl),a
            ld a,(in0)
            ld b,a
            ld hl,stick
            ld a,(hl)
            cpl
            and b
            ld (hl),b
            ld c,a
            inc hl
            or (hl)
            ld (hl),a
            ld a,c
            and 3
            ret z
            ld hl,credit
            ld a,(hl)
            cp 99h
            ret z
            add a,1
            daa
            ld (hl),a
            ret

; Plays the sound on by a frame, or none.
sing:       ld hl,noise
            ld a,(hl)
            or a
            ld a,0FFh
            jr z,hush
            dec (hl)
            inc hl
            ld a,(hl)
            inc hl
            add a,(hl)
            dec hl
            ld (hl),a
hush:       ld (pitch),a
            ret

; ---- main

start:      xor a
            ld (enable),a
            ld hl,4000h         ; clears work RAM up to the stack
            ld de,4001h
            ld bc,039Fh
            ld (hl),0
clear:      ldir ;@ fact DE+BC = 43A0h
            ld hl,hues          ; and gives each row its colour: the odd bytes of the copy
            ld de,copy + 1
            ld b,32
paint:      ld a,(hl) ;@ fact DE+2*B = 4041h through djnz
            ld (de),a
            inc hl
            inc de
            inc de
            djnz paint
            ld hl,founders      ; those who are to beat
            ld de,bests
            ld bc,001Eh
found_all:  ldir ;@ fact DE+BC = 419Eh
            ld a,1
            ld (fresh),a
            ld (loudness),a
            ld (sky),a
            ld (enable),a

; A turn of this loop is a frame: it waits for the NMI routine, shows what moves, and does what is to do in this state.
turn:       ld a,(dirty)
            or a
            jr z,turn
            xor a
            ld (dirty),a
            call expose
            call credits
            ld a,(state)
            cp 7
            jp nc,start         ; there is no such state
choose:     add a,a ;@ split A 0..6 until turn
            ld e,a
            ld d,0
            ld hl,states
            add hl,de
            ld e,(hl)
            inc hl
            ld d,(hl)
            ex de,hl
            jp (hl)

states:     defw at_attract
            defw at_coin
            defw at_start
            defw at_play
            defw at_death
            defw at_over
            defw at_name

; ---- the states

; Shows the title and the best players by turns, until a coin falls.
at_attract: ld a,(fresh)
            or a
            jp z,attracts
            call page
            ld a,240
            ld (seconds),a
            ld hl,face
            inc (hl)
            bit 0,(hl)
            jr nz,title
            ld a,20
            call print ;@ inline
            defb 6,8,21
            defm "THE BEST OF ALL TIMES"
            call honours
            jp turn
title:      ld a,3
            call print ;@ inline
            defb 8,5,15
            defm "STAR  CORRIDORS"
            ld a,4
            call print ;@ inline
            defb 4,10,23
            defm "- SCORE ADVANCE TABLE -"
            ld a,5
            call print ;@ inline
            defb 8,13,16
            defm "[\\  60       120"
            ld a,6
            call print ;@ inline
            defb 8,15,16
            defm "]^  50       100"
            ld a,7
            call print ;@ inline
            defb 8,17,16
            defm "_`  40        80"
            ld a,8
            call print ;@ inline
            defb 8,19,16
            defm "ab  30        60"
attracts:   ld a,(credit)
            or a
            ld a,1
            jp nz,enter
            ld a,(seconds)      ; a zero here begins the same state with its other page
            or a
            ld a,0
            jp z,enter
            ld a,(frames)
            and 20h
            jr z,dark
            ld a,9
            call print ;@ inline
            defb 9,24,13
            defm "INSERT A COIN"
            jp turn
dark:       ld a,10
            call print ;@ inline
            defb 9,24,13
            defm "             "
            jp turn

; Waits for the start button.
at_coin:    ld a,(fresh)
            or a
            jr z,waits
            call page
            ld a,11
            call print ;@ inline
            defb 8,14,15
            defm "ONE COIN EACH !"
            ld a,12
            call print ;@ inline
            defb 4,17,24
            defm "A SHIP MORE FOR 10 WAVES"
waits:      ld a,(started)
            ld c,a
            xor a
            ld (started),a
            ld a,(credit)
            bit 1,c
            jr z,alone
            cp 2
            jr c,alone
            sub 1
            daa
            ld (credit),a
            call novice
            ld hl,convoy        ; two players: the other one begins likewise
            ld de,other
            ld bc,0027h
second:     ldir ;@ fact DE+BC = 41E7h
            jr joins
alone:      bit 0,c
            jr z,beckon
            xor a               ; one player: there is no other one who has ships
            ld (other + 23h),a
joins:      ld a,(credit)
            sub 1
            daa
            ld (credit),a
            call novice
            xor a
            ld (player),a
            ld a,2
            jp enter
beckon:     ld a,(frames)
            and 10h
            jr z,faint
            ld a,13
            call print ;@ inline
            defb 8,10,17
            defm "PUSH START BUTTON"
            jp turn
faint:      ld a,14
            call print ;@ inline
            defb 8,10,17
            defm "                 "
            jp turn

; Begins a wave: musters the convoy, and says so for two seconds.
at_start:   ld a,(fresh)
            or a
            jr z,ready
            ld a,(wave)
            add a,1
            daa
            ld (wave),a
            ld hl,lives         ; a ship more for each ten waves
            and 0Fh
            jr nz,no_more
            inc (hl)
no_more:    call muster
            call quicken
            call page
            ld a,15
            call print ;@ inline
            defb 12,13,4
            defm "WAVE"
            ld bc,110Dh
            ld a,(wave)
            call pair
            ld a,16
            call print ;@ inline
            defb 12,16,7
            defm "READY !"
            ld a,120
            ld (seconds),a
            ld a,4
            call effect
ready:      ld a,(seconds)
            or a
            jp nz,turn
            ld a,3
            jp enter

; Plays a frame.
at_play:    ld a,(fresh)
            or a
            jr z,plays
            call page
            call deploy
plays:      call steer
            call fire
            call chase
            call shift
            call launch
            call dive
            call fall
            ld a,(hit)
            or a
            ld a,4
            jp nz,enter
            ld a,(left)
            or a
            ld a,2
            jp z,enter
            jp turn

; The ship bursts, and there is one less.
at_death:   ld a,(fresh)
            or a
            jr z,bursts
            xor a
            ld (fresh),a
            call recall
            ld hl,lives
            dec (hl)
            ld a,3
            call effect
            ld a,17
            call print ;@ inline
            defb 9,22,14
            defm "A SHIP IS LOST"
            ld a,90
            ld (seconds),a
bursts:     ld a,(seconds)
            or a
            jp nz,turn
            ld a,(lives)
            or a
            ld a,5
            jp z,enter
            call change
; The one whose turn it is goes on: with the convoy as it was left, or with a new one.
goes_on:    ld a,(left)
            or a
            ld a,2
            jp z,enter
            ld a,3
            jp enter

; The game is over for this player.
at_over:    ld a,(fresh)
            or a
            jr z,rests
            xor a
            ld (fresh),a
            ld a,18
            call print ;@ inline
            defb 11,18,9
            defm "GAME OVER"
            ld a,200
            ld (seconds),a
rests:      ld a,(seconds)
            or a
            jp nz,turn
            call rate
            ld (rating),a
            cp 5
            ld a,6
            jp c,enter
leave:      call change
            or a
            jr nz,goes_on
            ld a,(credit)
            or a
            jp z,enter
            ld a,1
            jp enter

; One of the best five chooses three letters, by the stick, and takes each by the button.
at_name:    ld a,(fresh)
            or a
            jr z,names
            call insert
            call page
            xor a
            ld (initial),a
            ld (pressed),a
            ld a,19
            call print ;@ inline
            defb 4,8,23
            defm "YOU ARE ONE OF THE BEST"
            ld a,21
            call print ;@ inline
            defb 3,25,26
            defm "STICK AND BUTTON: A LETTER"
            ld a,250
            ld (seconds),a
names:      call honours
            call choice
            ld a,(seconds)
            or a
            jr z,leave
            ld hl,pressed
            bit 4,(hl)
            jp z,turn
            res 4,(hl)
            ld a,250
            ld (seconds),a
            ld hl,initial
            inc (hl)
            ld a,(hl)
            cp 3
            jp c,turn
            jp leave

; Goes on to the state A.
enter:      ld (state),a
            ld a,1
            ld (fresh),a
            jp turn

; ---- places and texts

; Prints the text behind the call: there stand its column, its row, its length and its letters. Goes on behind them. A is a number that
; no other such call has.
print:      pop hl ;@ split A 0..23 until turn
            ld b,(hl)
            inc hl
            ld c,(hl)
            inc hl
            ld e,(hl)
            ld d,0
            inc hl
            push hl
            add hl,de
            ex (sp),hl          ; the stack has where to go on, and HL the first letter
letter:     ld a,(hl)
            inc hl
            push hl
            call put
            pop hl
            dec e
            jr nz,letter
            ret

; The address of a place, column B and row C, in HL. Columns and rows go round at 32, so it lies in video RAM whatever they are.
place:      ld a,c
            and 1Fh
            ld l,a
            ld a,b
            cpl
            and 1Fh             ; how many columns it is from the right
            rrca
            rrca
            rrca
            ld h,a
            and 0E0h
            or l
            ld l,a
            ld a,h
            and 3
            add a,50h
            ld h,a
            ret

; Prints a byte of BCD as two digits.
pair:       push af
            rrca
            rrca
            rrca
            rrca
            call digit
            pop af
digit:      and 0Fh
            add a,30h
; Puts A to the place of B and C, and goes on a column.
put:        push af
            call place
            pop af
            ld (hl),a
            inc b
            ret

; Fills the screen with blanks, and prints what stands on each page. What moved is taken away.
page:       xor a
            ld (fresh),a
            ld hl,video
            ld de,video + 1
            ld bc,03FFh
            ld (hl),20h
blank:      ldir ;@ fact DE+BC = 5400h
            ld hl,divers
            ld b,30h
forget:     ld (hl),a ;@ fact HL+B = 4170h through djnz
            inc hl
            djnz forget
            ld (shot),a
            ld (hit),a
            ld a,0
            call print ;@ inline
            defb 3,0,3
            defm "1UP"
            ld a,1
            call print ;@ inline
            defb 11,0,10
            defm "HIGH SCORE"
            ld a,2
            call print ;@ inline
            defb 2,31,6
            defm "CREDIT"
            ld a,22
            call print ;@ inline
            defb 25,0,3
            defm "2UP"
            ld a,23
            call print ;@ inline
            defb 12,31,6
            defm "PLAYER"
            ld bc,131Fh
            ld a,(player)
            inc a
            call digit
; Prints both scores and the best one.
scores:     ld de,score + 2
            ld a,(player)
            call own_side
            ld de,other + 22h
            ld a,(player)
            xor 1
            call own_side
            ld bc,0D01h
            ld a,(bests)
            call pair
            ld a,(bests + 1)
            call pair
            ld a,(bests + 2)
            jp pair

; Prints the score at DE, of its three bytes the last, on the side of the player A.
own_side:   ld bc,0201h
            or a
            jr z,six
            ld b,18h
six:        ld a,(de)
            call pair
            dec de
            ld a,(de)
            call pair
            dec de
            ld a,(de)
            jp pair

; Prints the coins, and a tile for each ship in reserve, of at most 8.
credits:    ld a,(frames)
            and 0Fh
            ret nz
            ld bc,091Fh
            ld a,(credit)
            call pair
            ld bc,141Fh
            ld a,(lives)
            cp 8
            jr c,few
            ld a,8
few:        ld e,a
            ld d,8
reserve:    ld a,e
            or a
            ld a,20h
            jr z,berth
            dec e
            ld a,7Eh
berth:      call put
            dec d
            jr nz,reserve
            ret

; ---- two players

; Gives a player no points, three ships, and no convoy yet.
novice:     ld hl,convoy
            ld b,27h
            xor a
bare:       ld (hl),a ;@ fact HL+B = 4127h through djnz
            inc hl
            djnz bare
            ld a,3
            ld (lives),a
            ret

; Gives the turn to the other player, if that one has ships. A is 0 if not.
change:     ld a,(other + 23h)
            or a
            ret z
            ld hl,convoy
            ld de,other
            ld b,27h
barter:     ld c,(hl) ;@ fact HL+B = 4127h through djnz ;@ fact DE+B = 41E7h through djnz
            ld a,(de)
            ld (hl),a
            ld a,c
            ld (de),a
            inc hl
            inc de
            djnz barter
            ld a,(player)
            xor 1
            ld (player),a
            ld a,1
            ret

; ---- points

; Adds what an enemy of rank C is worth.
award:      ld a,c
            and 3
            add a,a
            ld e,a
            ld d,0
            ld hl,worth
            add hl,de
            ld e,(hl)
            inc hl
            ld d,(hl)
; Adds DE, in BCD.
gain:       ld hl,score
            ld a,(hl)
            add a,e
            daa
            ld (hl),a
            inc hl
            ld a,(hl)
            adc a,d
            daa
            ld (hl),a
            inc hl
            ld a,(hl)
            adc a,0
            daa
            ld (hl),a
            jp scores

; ---- the best five

; Which of the best the score is, in A: 0 to 4, or 5 if all are above it, or as good.
rate:       ld hl,bests
            ld b,5
weigh:      push hl
            ld a,(score + 2)
            cp (hl)
            jr c,below
            jr nz,beaten
            inc hl
            ld a,(score + 1)
            cp (hl)
            jr c,below
            jr nz,beaten
            inc hl
            ld a,(score)
            cp (hl)
            jr c,below
            jr nz,beaten
below:      pop hl
            ld de,6
            add hl,de
            djnz weigh
            ld a,5
            ret
beaten:     pop hl
            ld a,5
            sub b
            ret

; Puts the score to its place among the best. All behind it move down by one, and the last is forgotten.
insert:     ld a,(rating)
            cp 5
            ret nc
            ld e,a
            ld d,0
            ld hl,behind
            add hl,de
            ld a,(hl)
            or a
            jr z,lowest
            ld b,0
            ld c,a
            push bc             ; how many bytes move
            ld hl,bests + 17h ;@ fact BC-s0 = 0
            ld de,bests + 1Dh ;@ fact BC-s0 = 0
down:       lddr ;@ fact DE-BC+s0 = 419Dh
            pop bc
lowest:     ld a,(rating)
            ld b,a
            add a,a
            add a,b
            add a,a
            add a,80h
            ld l,a
            ld h,41h
            ld a,(score + 2)
            ld (hl),a
            inc l
            ld a,(score + 1)
            ld (hl),a
            inc l
            ld a,(score)
            ld (hl),a
            inc l
            ld a,l
            ld (own),a
            ld b,3
            ld a,41h
anon:       ld (hl),a
            inc l
            djnz anon
            ret

; Prints the best five.
honours:    ld de,bests
            ld c,0Dh
honour:     ld b,7
            ld a,(de)
            inc de
            call pair
            ld a,(de)
            inc de
            call pair
            ld a,(de)
            inc de
            call pair
            ld b,12h
            ld a,(de)
            inc de
            call put
            ld a,(de)
            inc de
            call put
            ld a,(de)
            inc de
            call put
            inc c
            inc c
            ld a,c
            cp 17h
            jr nz,honour
            ret

; The stick goes through the letters, one each 8 frames, and from Z on to A.
choice:     ld a,(frames)
            and 7
            ret nz
            ld a,(initial)
            ld b,a
            ld a,(own)
            add a,b
            ld l,a
            ld h,41h
            ld a,(stick)
            ld c,a
            ld a,(hl)
            bit 2,c
            jr z,onward
            dec a
            cp 41h
            jr nc,onward
            ld a,5Ah
onward:     bit 3,c
            jr z,chosen
            inc a
            cp 5Bh
            jr c,chosen
            ld a,41h
chosen:     ld (hl),a
            ld a,c
            and 0Ch
            ret z
            ld a,250            ; who still chooses has time
            ld (seconds),a
            ret

; ---- the ship and its shot

steer:      ld a,(stick)
            ld c,a
            ld a,(ship)
            bit 2,c
            jr z,right
            sub 2
            cp 10h
            jr nc,right
            ld a,10h
right:      bit 3,c
            jr z,moved
            add a,2
            cp 0E0h
            jr c,moved
            ld a,0E0h
moved:      ld (ship),a
            ret

; Fires, if the button was pressed and no shot flies.
fire:       ld hl,pressed
            bit 4,(hl)
            ret z
            res 4,(hl)
            ld hl,shot
            ld a,(hl)
            or a
            ret nz
            ld (hl),1
            inc hl
            ld a,(ship)
            ld (hl),a
            inc hl
            ld (hl),0D0h
            xor a
            jp effect

; Moves the shot, and looks what it meets.
chase:      ld a,(shot)
            or a
            ret z
            ld a,(shot + 2)
            sub 4
            ld (shot + 2),a
            cp 10h
            jr c,spent
            call pierce
            ld a,(shot)
            or a
            ret z
            jp meet
spent:      xor a
            ld (shot),a
            ret

; Looks whether the shot meets an enemy of the convoy. The ranks stand in rows 6, 8, 10 and 12, and the files three columns apart.
pierce:     ld a,(shot + 2)
            rrca
            rrca
            rrca
            and 1Fh
            sub 6
            cp 8
            ret nc
            srl a
            ret c
            ld c,a
            ld a,(march)
            ld b,a
            ld a,(shot + 1)
            sub b
            rrca
            rrca
            rrca
            and 1Fh
            ld e,a
            ld d,0
            ld hl,files
            add hl,de
            ld a,(hl)
            cp 8
            ret nc
            ld b,a
            call station
            ld a,(hl)
            or a
            ret z
            ld (hl),0
            xor a
            ld (shot),a
            call erase
            ld hl,left
            dec (hl)
            call award
            ld a,1
            jp effect

; Looks whether the shot meets one that dives. It is worth twice what it is in the convoy.
meet:       ld hl,divers
            ld b,4
target:     push hl
            pop ix
            ld a,(ix+0)
            or a
            jr z,missed
            ld a,(shot + 1)
            sub (ix+1)
            jr nc,aside
            neg
aside:      cp 8
            jr nc,missed
            ld a,(shot + 2)
            sub (ix+2)
            jr nc,above
            neg
above:      cp 8
            jr nc,missed
            ld (ix+0),0
            xor a
            ld (shot),a
            ld hl,left
            dec (hl)
            ld a,(ix+3)
            call whose
            call award
            call award
            ld a,2
            jp effect
missed:     ld a,l
            add a,8
            ld l,a
            djnz target
            ret

; ---- the convoy

muster:     ld hl,convoy
            ld b,20h
enlist:     ld (hl),1 ;@ fact HL+B = 4120h through djnz
            inc hl
            djnz enlist
            ld a,20h
            ld (left),a
            ret

; The time from dive to dive: less for each wave.
quicken:    ld a,(wave)
            cp 10h
            jr c,slow
            ld a,0Fh
slow:       ld e,a
            ld d,0
            ld hl,paces
            add hl,de
            ld a,(hl)
            ld (pace),a
            ret

; Draws the convoy, where one is of it, and puts the ship to its place.
deploy:     ld a,78h
            ld (ship),a
            xor a
            ld (march),a
            inc a
            ld (heading),a
            ld a,(pace)
            ld (seconds),a
            ld c,0
rank:       ld b,0
file:       call station
            ld a,(hl)
            or a
            call nz,draw
            inc b
            ld a,b
            cp 8
            jr nz,file
            inc c
            ld a,c
            cp 4
            jr nz,rank
            ret

; The byte of an enemy of file B and rank C, in HL.
station:    ld a,c
            add a,a
            add a,a
            add a,a
            add a,b
            and 1Fh
            ld l,a
            ld h,41h
            ret

; The file and the rank of an enemy that belongs to the station A, in B and C.
whose:      ld c,a
            and 7
            ld b,a
            ld a,c
            rrca
            rrca
            rrca
            and 3
            ld c,a
            ret

; Draws the enemy of file B and rank C by its two tiles, or blanks.
draw:       ld a,c
            add a,a
            add a,5Bh
            ld d,a
            inc a
            ld e,a
            jr show
erase:      ld de,2020h
show:       push bc
            ld a,b
            add a,a
            add a,b
            add a,3
            ld b,a
            ld a,c
            add a,a
            add a,6
            ld c,a
            ld a,d
            call put
            ld a,e
            call put
            pop bc
            ret

; Shifts the convoy's rows, and turns at both ends.
shift:      ld a,(frames)
            and 1
            ret nz
            ld hl,march
            ld a,(heading)
            add a,(hl)
            ld (hl),a
            ld (copy + 12),a
            ld (copy + 16),a
            ld (copy + 20),a
            ld (copy + 24),a
            or a
            jr z,about
            cp 20h
            ret nz
about:      ld a,(heading)
            neg
            ld (heading),a
            ret

; ---- those that dive

; Sends an enemy off, when it is time and one of the four may: the first that is there from some station on.
launch:     ld a,(seconds)
            or a
            ret nz
            ld a,(pace)
            ld (seconds),a
            ld hl,divers
            ld b,4
vacant:     ld a,(hl)
            or a
            jr z,found
            ld a,l
            add a,8
            ld l,a
            djnz vacant
            ret
found:      push hl
            pop ix
            ld a,(frames)
            and 1Fh
            ld l,a
            ld h,41h
            ld b,20h
seek:       ld a,(hl)
            or a
            jr nz,goes
            ld a,l
            inc a
            and 1Fh
            ld l,a
            djnz seek
            ret
goes:       ld (hl),0
            ld a,l
            ld (ix+3),a
            call whose
            call erase
            ld a,b
            add a,a
            add a,b
            add a,3
            add a,a
            add a,a
            add a,a
            ld hl,march
            add a,(hl)
            ld (ix+1),a
            ld a,c
            add a,a
            add a,6
            add a,a
            add a,a
            add a,a
            ld (ix+2),a
            ld (ix+4),0
            ld (ix+0),1
            ld a,2
            jp effect

; Moves those that dive.
dive:       ld hl,divers
            ld b,4
diver:      push hl
            pop ix
            ld a,(ix+0)
            or a
            call nz,swoop
            ld a,l
            add a,8
            ld l,a
            djnz diver
            ret

; Moves the one at IX: down, and from side to side. Twice on its way it drops a bomb; behind the ship it goes back to its station.
swoop:      push bc
            push hl
            ld a,(ix+4)
            inc a
            and 3Fh
            ld (ix+4),a
            ld e,a
            ld d,0
            ld hl,sway
            add hl,de
            ld a,(hl)
            add a,(ix+1)
            ld (ix+1),a
            ld a,(ix+2)
            add a,2
            ld (ix+2),a
            cp 0F0h
            jr nc,homeward
            cp 0D0h
            call nc,ram
            ld a,(ix+4)
            and 1Fh
            cp 8
            call z,bomb
            pop hl
            pop bc
            ret
homeward:   ld (ix+0),0
            ld a,(ix+3)
            and 1Fh
            ld l,a
            ld h,41h
            ld (hl),1
            call whose
            call draw
            pop hl
            pop bc
            ret

; Calls all divers back to their stations. The next page shows them there.
recall:     ld hl,divers
            ld b,4
calls:      ld a,(hl)
            or a
            jr z,idle
            ld (hl),0
            push hl
            inc l
            inc l
            inc l
            ld a,(hl)
            and 1Fh
            ld l,a
            ld h,41h
            ld (hl),1
            pop hl
idle:       ld a,l
            add a,8
            ld l,a
            djnz calls
            ret

; Hits the ship, if the diver at IX is less than 10 dots aside of it.
ram:        ld a,(ship)
            sub (ix+1)
            jr nc,apart
            neg
apart:      cp 10
            ret nc
            ld a,1
            ld (hit),a
            ret

; Drops a bomb, if one of the four is free.
bomb:       ld hl,bombs
            ld b,4
rack:       ld a,(hl)
            or a
            jr z,drop
            ld a,l
            add a,4
            ld l,a
            djnz rack
            ret
drop:       ld (hl),1
            inc l
            ld a,(ix+1)
            ld (hl),a
            inc l
            ld a,(ix+2)
            ld (hl),a
            ret

; Moves the bombs, and looks whether one hits the ship.
fall:       ld hl,bombs
            ld b,4
falls:      ld a,(hl)
            or a
            jr z,over
            inc l
            ld c,(hl)
            inc l
            ld a,(hl)
            add a,3
            ld (hl),a
            dec l
            dec l
            cp 0F0h
            jr c,low
            ld (hl),0
            jr over
low:        cp 0D4h
            jr c,over
            ld a,(ship)
            sub c
            jr nc,beside
            neg
beside:     cp 8
            jr nc,over
            ld a,1
            ld (hit),a
over:       ld a,l
            add a,4
            ld l,a
            djnz falls
            ret

; ---- sprites and sounds

; Shows the ship, its shot, the divers and the bombs. None is seen at the height 0.
expose:     ld de,copy + 40h
            ld a,(state)
            cp 3
            jr z,aloft
            cp 4
            ld a,0
            jr nz,absent
aloft:      ld a,0D8h
absent:     ld (de),a           ; height
            inc e
            ld a,(hit)          ; form: whole, or one of four of its burst
            or a
            jr z,whole
            ld a,(seconds)
            rrca
            rrca
            and 3
            add a,20h
whole:      ld (de),a
            inc e
            ld a,7
            ld (de),a           ; colour
            inc e
            ld a,(ship)
            ld (de),a           ; place from the left
            inc e
            ld hl,divers
            ld b,4
sprite:     push hl
            pop ix
            ld a,(ix+0)
            or a
            jr z,unseen
            ld a,(ix+2)
unseen:     ld (de),a
            inc e
            ld a,(ix+4)
            rrca
            rrca
            and 7
            add a,10h
            ld (de),a
            inc e
            ld a,(ix+3)
            rrca
            rrca
            rrca
            and 3
            inc a
            ld (de),a
            inc e
            ld a,(ix+1)
            ld (de),a
            inc e
            ld a,l
            add a,8
            ld l,a
            djnz sprite
            ld de,copy + 61h    ; the shot, and behind it the bombs
            ld hl,shot
            call dot
            ld hl,bombs
            ld b,4
dots:       push hl
            call dot
            pop hl
            ld a,l
            add a,4
            ld l,a
            djnz dots
            ret

; Shows what flies by the three bytes at HL, in the copy's shot at DE.
dot:        ld a,(hl)
            or a
            inc hl
            ld c,(hl)
            inc hl
            jr z,gone
            ld a,(hl)
gone:       ld (de),a
            inc e
            inc e
            ld a,c
            ld (de),a
            inc e
            inc e
            ret

; Begins the sound A.
effect:     add a,a
            add a,a
            ld e,a
            ld d,0
            ld hl,effects
            add hl,de
            ld de,noise
            ld bc,0003h
tone:       ldir ;@ fact DE+BC = 4095h
            ret

; ---- tables

; How long each sound is, its first pitch, and by how much it changes a frame.
effects:    defb 16,0C0h,-4,0   ; a shot
            defb 12,60h,5,0     ; an enemy is hit
            defb 24,0E0h,-3,0   ; one dives
            defb 60,0A0h,-2,0   ; the ship bursts
            defb 40,40h,3,0     ; a wave begins

; What an enemy of each rank is worth, in BCD.
worth:      defw 0060h,0050h,0040h,0030h

; The time between dives, by the wave.
paces:      defb 120,110,100,92,84,76,70,64,58,52,46,42,38,34,30,28

; How many bytes of the best stand behind each of them but the last.
behind:     defb 18h,12h,0Ch,6,0

; The best five to begin with.
founders:   defb 00h,10h,00h
            defm "ADA"
            defb 00h,08h,00h
            defm "KAY"
            defb 00h,06h,00h
            defm "TOM"
            defb 00h,04h,00h
            defm "EVA"
            defb 00h,02h,00h
            defm "IDA"

; Which file stands in each of the 32 columns; 255 is none.
files:      defb 255,255,255,0,0,255,1,1,255,2,2,255,3,3,255,4
            defb 4,255,5,5,255,6,6,255,7,7,255,255,255,255,255,255

; By how much a diver moves to the side, in each of 64 frames.
sway:       defb 0,1,1,1,1,2,2,2,2,2,2,2,1,1,1,1
            defb 0,-1,-1,-1,-1,-2,-2,-2,-2,-2,-2,-2,-1,-1,-1,-1
            defb 0,-1,-1,-1,-1,-2,-2,-2,-2,-2,-2,-2,-1,-1,-1,-1
            defb 0,1,1,1,1,2,2,2,2,2,2,2,1,1,1,1

; A colour a row.
hues:       defb 7,5,0,3,3,3,1,1,2,2,3,3,4,4,5,5
            defb 6,6,7,7,1,1,2,2,3,3,7,7,7,7,5,5
