; A game: stones rain on a town, and the ship that flies over it shoots them. The NMI routine plays the game and never draws: it posts
; tasks to a ring, and main code takes them from there and draws. RST 28h goes on by a number and the table behind it.
; Assemble with z80asm: z80asm -o stones.rom stones.asm
;
; A place on the screen is a column, 0 to 31 from the left, and a row, 0 to 31 from the top. The monitor stands on its side, so a step
; to the right is 32 bytes down in video RAM. Tiles have their ASCII codes; 20h is blank. What moves has its place in dots, 8 a tile.

stack:      equ 4400h           ; the stack goes down from here ;@ stack 43A0..4400 ;@ nmi budget 20000
copy:       equ 4000h           ; what goes to the object RAM: 32 rows of 2 bytes, 8 sprites of 4 bytes, 8 shots of 4 bytes
state:      equ 4080h           ; 0 attract, 1 coin, 2 ready, 3 play, 4 lost, 5 over
fresh:      equ 4081h           ; 1 in the first frame of a state
frames:     equ 4082h           ; counts frames
timer:      equ 4083h           ; counts down to 0, a frame a step
stick:      equ 4084h           ; what IN0 was at the last blank
pressed:    equ 4085h           ; what was pressed of it in this frame
starts:     equ 4086h           ; what IN1 was at the last blank
started:    equ 4087h           ; what was pressed of it in this frame
credit:     equ 4088h           ; coins, in BCD
seed:       equ 4089h
head:       equ 408Ah           ; where the next task is put, 0 to 31
tail:       equ 408Bh           ; where main code takes the next one, 0 to 31
noise:      equ 408Ch           ; frames that are left of a sound, its pitch, and by how much it changes
ship:       equ 4090h           ; its place from the left
hit:        equ 4091h           ; 1 once the ship is hit
lives:      equ 4092h
wave:       equ 4093h           ; in BCD
left:       equ 4094h           ; stones that are still to come in this wave
pace:       equ 4095h           ; frames from one stone to the next
pause:      equ 4096h           ; frames until the next one
storeys:    equ 4097h           ; how many the town has
saucer:     equ 4098h           ; its place from the left; 0 if none flies
face:       equ 4099h           ; which of two pages the attract state shows, in bit 0
score:      equ 40A0h           ; three bytes of BCD, the lowest first
best:       equ 40A3h
ring:       equ 40C0h           ; 32 tasks of 2 bytes, a number and a parameter. The number FFh is no task
stones:     equ 4100h           ; 7 of 8 bytes: 1 while it falls, place from the left, height, kind, phase, speed
shots:      equ 4140h           ; 2 of 4 bytes: 1 while it flies, place from the left, height
town:       equ 4180h           ; storeys of each of 16 houses, 2 columns a house
video:      equ 5000h
objects:    equ 5800h
in0:        equ 6000h           ; coins in bits 0 and 1, left in 2, right in 3, fire in 4
in1:        equ 6800h           ; start in bits 0 and 1
loudness:   equ 6806h
enable:     equ 7001h
sky:        equ 7004h           ; the board's own stars
pitch:      equ 7800h           ; for writing
watchdog:   equ 7800h           ; for reading

            org 0000h
            xor a
            ld (enable),a
            jp begin

            defs 0008h - $
            jp post             ; RST 08h posts the task D with the parameter E

begin:      ld sp,stack
            jp start

            defs 0020h - $
lookup:     ld e,a              ; RST 20h: the byte number A of the table at HL, in A
            ld d,0
            add hl,de
            ld a,(hl)
            ret

            defs 0028h - $
dispatch:   pop hl              ; RST 28h goes on at the address number A of the table behind it ;@ split A 0..9 until tables
            add a,a
            ld e,a
            ld d,0
            add hl,de
            ld a,(hl)
            inc hl
            ld h,(hl)
            ld l,a
            jp (hl)

; ---- the vertical blank

            defs 0066h - $
            push af
            push bc
            push de
            push hl
            push ix
            xor a
            ld (enable),a       ; lets the flip-flop go
            ld a,(watchdog)
            ld hl,copy          ; rows, sprites and shots go out to the object RAM
            ld de,objects
            ld bc,0080h
send:       ldir ;@ fact DE+BC = 5880h ;@ loop BC
            call inputs
            call clocks
            call sing
            call run
            call expose
            ld a,1
            ld (enable),a
            pop ix
            pop hl
            pop de
            pop bc
            pop af
            retn

; Reads the inputs: what is set now and was not at the last blank has been pressed. Counts coins, 99 at most.
inputs:     ld a,(in1)
            ld b,a
            ld hl,starts
            ld a,(hl)
            cpl
            and b
            ld (hl),b
            inc hl
            ld (hl),a
            ld a,(in0)
            ld b,a
            ld hl,stick
            ld a,(hl)
            cpl
            and b
            ld (hl),b
            inc hl
            ld (hl),a
            and 3
            ret z
            ld a,(credit)
            cp 99h
            ret z
            add a,1
            daa
            ld (credit),a
            ld de,0700h
            jp post

; Counts frames, counts the timer down, and shifts the clouds.
clocks:     ld hl,frames
            inc (hl)
            inc hl
            ld a,(hl)
            or a
            jr z,drift
            dec (hl)
drift:      ld a,(frames)
            and 3
            ret nz
            ld hl,copy + 6
            inc (hl)
            ld hl,copy + 8
            dec (hl)
            ret

; Plays the sound on by a frame, or none.
sing:       ld hl,noise
            ld a,(hl)
            or a
            ld a,0FFh
            jr z,hush
            dec (hl)
            inc hl
            ld a,(hl)
            inc hl
            add a,(hl)
            dec hl
            ld (hl),a
hush:       ld (pitch),a
            ret

; Begins a sound of B frames, the pitch C and the change D.
effect:     ld hl,noise
            ld (hl),b
            inc hl
            ld (hl),c
            inc hl
            ld (hl),d
            ret

; Posts the task D with the parameter E, if the ring has room. Each index is a number, and is clamped right before the store.
post:       push hl
            ld a,(head)
            and 1Fh
            add a,a
            add a,0C0h
            ld l,a
            ld h,40h
            ld a,(hl)
            inc a
            jr nz,full          ; main code has not taken the task that is there
            ld (hl),d
            inc l
            ld (hl),e
            ld a,(head)
            inc a
            and 1Fh
            ld (head),a
full:       pop hl
            ret

; A number that nobody foresees.
random:     ld a,(seed)
            ld c,a
            add a,a
            add a,a
            add a,c
            inc a
            ld (seed),a
            rrca
            rrca
            rrca
            ld c,a
            ld a,(frames)
            xor c
            ret

; ---- the states. Each runs once a frame, in the NMI routine

run:        ld a,(state)
            cp 6
            ret nc              ; there is no such state
            rst 28h ;@ inline
            defw at_attract
            defw at_coin
            defw at_ready
            defw at_play
            defw at_lost
            defw at_over

; Goes on to the state A.
enter:      ld (state),a
            ld a,1
            ld (fresh),a
            ret

; Shows the title and the values by turns, while stones rain on a town that nobody keeps, until a coin falls.
at_attract: ld a,(fresh)
            or a
            jr z,rains
            xor a
            ld (fresh),a
            call tidy
            call build
            call scene
            ld a,250
            ld (timer),a
            ld (left),a
            ld a,24
            ld (pace),a
            ld hl,face
            inc (hl)
            bit 0,(hl)
            jr z,values
            ld de,0100h         ; the title
            rst 08h
            ld de,0101h
            rst 08h
            jr coins
values:     ld de,0102h
            rst 08h
            ld de,0103h
            rst 08h
            ld de,0104h
            rst 08h
            ld de,0105h
            rst 08h
coins:      ld de,0106h
            rst 08h
rains:      call launch
            call fall
            ld a,(credit)
            or a
            ld a,1
            jr nz,enter
            ld a,(timer)
            or a
            ld a,0
            jr z,enter
            ret

; Waits for the start button.
at_coin:    ld a,(fresh)
            or a
            jr z,waits
            xor a
            ld (fresh),a
            call tidy
            call build
            call scene
            ld de,0107h
            rst 08h
            ld de,0108h
            rst 08h
waits:      ld a,(frames)
            and 1Fh
            jr nz,steady
            ld a,(frames)       ; "push start" comes and goes
            and 20h
            ld d,1
            jr z,comes
            ld d,8
comes:      ld e,7
            rst 08h
steady:     ld a,(started)
            and 3
            ret z
            ld a,(credit)
            sub 1
            daa
            ld (credit),a
            xor a
            ld (score),a
            ld (score + 1),a
            ld (score + 2),a
            ld a,3
            ld (lives),a
            ld a,1
            ld (wave),a
            call build
            call muster
            ld a,2
            jp enter

; Says which wave comes.
at_ready:   ld a,(fresh)
            or a
            jr z,readies
            xor a
            ld (fresh),a
            ld (hit),a
            ld a,74h
            ld (ship),a
            ld a,100
            ld (timer),a
            call tidy
            call scene
            ld de,0500h
            rst 08h
            ld de,0600h
            rst 08h
            ld de,0109h
            rst 08h
            ld de,0402h
            rst 08h
            ld b,40
            ld c,40h
            ld d,3
            jp effect
readies:    call steer
            ld a,(timer)
            or a
            ret nz
            ld de,0809h
            rst 08h
            ld a,3
            jp enter

; Plays a frame.
at_play:    call steer
            call fire
            ld ix,shots
            call chase
            ld ix,shots + 4
            call chase
            call launch
            call fall
            call cruise
            ld a,(hit)
            or a
            ld a,4
            jp nz,enter
            ld a,(storeys)
            or a
            ld a,5
            jp z,enter
            ld a,(left)
            or a
            ret nz
            ld hl,stones
            ld b,7
any:        ld a,(hl) ;@ loop B
            or a
            ret nz
            ld a,l
            add a,8
            ld l,a
            djnz any
            ld a,(wave)
            add a,1
            daa
            ld (wave),a
            call muster
            ld a,2
            jp enter

; The ship bursts, and there is one less.
at_lost:    ld a,(fresh)
            or a
            jr z,bursts
            xor a
            ld (fresh),a
            ld (shots),a
            ld (shots + 4),a
            ld a,90
            ld (timer),a
            ld a,(lives)
            or a
            jr z,none_left
            dec a
            ld (lives),a
none_left:  ld de,0601h
            rst 08h
            ld de,0500h
            rst 08h
            ld b,60
            ld c,0A0h
            ld d,-2
            jp effect
bursts:     call fall
            ld a,(timer)
            or a
            ret nz
            ld a,(lives)
            or a
            ld a,2
            jp nz,enter
            ld a,5
            jp enter

; The game is over. A score above the best one is the best from now on.
at_over:    ld a,(fresh)
            or a
            jr z,rests
            xor a
            ld (fresh),a
            ld a,220
            ld (timer),a
            ld de,0602h
            rst 08h
            ld de,010Ah
            rst 08h
            ld hl,(score + 1)
            ld de,(best + 1)
            or a
            sbc hl,de
            jr c,rests
            jr nz,beaten
            ld a,(best)
            ld b,a
            ld a,(score)
            cp b
            jr c,rests
beaten:     ld hl,score
            ld de,best
            ld bc,0003h
keep:       ldir ;@ fact DE+BC = 40A6h ;@ loop BC
            ld de,0401h
            rst 08h
rests:      ld a,(timer)
            or a
            ret nz
            jp enter

; ---- the ship and its shots

steer:      ld a,(stick)
            ld c,a
            ld a,(ship)
            bit 2,c
            jr z,right
            sub 2
            cp 10h
            jr nc,right
            ld a,10h
right:      bit 3,c
            jr z,moved
            add a,2
            cp 0D8h
            jr c,moved
            ld a,0D8h
moved:      ld (ship),a
            ret

; Fires, if the button was pressed and one of the two shots is at hand.
fire:       ld a,(pressed)
            and 10h
            ret z
            ld hl,shots
            ld a,(hl)
            or a
            jr z,loaded
            ld hl,shots + 4
            ld a,(hl)
            or a
            ret nz
loaded:     ld (hl),1
            inc hl
            ld a,(ship)
            add a,12
            ld (hl),a
            inc hl
            ld (hl),0B4h
            ld b,10
            ld c,0C0h
            ld d,-5
            jp effect

; Moves the shot at IX, and looks what it meets.
chase:      ld a,(ix+0)
            or a
            ret z
            ld a,(ix+2)
            sub 5
            ld (ix+2),a
            cp 18h
            jr c,spent
            ld hl,stones
            ld b,7
meet:       ld c,l ;@ loop B
            ld a,(hl)
            or a
            jr z,pass
            inc l
            ld a,(ix+1)
            sub (hl)
            cp 16
            jr nc,pass
            inc l
            ld a,(ix+2)
            sub (hl)
            cp 16
            jr nc,pass
            inc l
            ld a,(hl)
            ld l,c
            ld (hl),0
            ld (ix+0),0
            call award
            ld b,12
            ld c,60h
            ld d,5
            jp effect
pass:       ld a,c
            add a,8
            ld l,a
            djnz meet
            ld a,(ix+2)         ; the saucer flies in row 5
            sub 28h
            cp 8
            ret nc
            ld a,(saucer)
            or a
            ret z
            ld b,a
            ld a,(ix+1)
            sub b
            cp 40
            ret nc
            xor a
            ld (saucer),a
            ld a,3
            call award
            ld de,0901h
            rst 08h
            ld b,30
            ld c,20h
            ld d,6
            call effect
spent:      ld (ix+0),0
            ret

; The player gets what the kind A is worth.
award:      and 3
            add a,a
            ld e,a
            ld d,0
            ld hl,worth
            add hl,de
            ld e,(hl)
            inc hl
            ld d,(hl)
            ld hl,score
            ld a,(hl)
            add a,e
            daa
            ld (hl),a
            inc hl
            ld a,(hl)
            adc a,d
            daa
            ld (hl),a
            inc hl
            ld a,(hl)
            adc a,0
            daa
            ld (hl),a
            ld de,0400h
            jp post

; ---- the stones

; How many stones a wave has, and how fast they come.
muster:     ld a,(wave)
            cp 8
            jr c,early
            ld a,8
early:      ld b,a
            ld hl,counts
            rst 20h
            ld (left),a
            ld a,b
            ld hl,paces
            rst 20h
            ld (pace),a
            ret

; Lets a stone go, when it is time and one of the seven may.
launch:     ld a,(pause)
            or a
            jr z,due
            dec a
            ld (pause),a
            ret
due:        ld a,(left)
            or a
            ret z
            ld hl,stones
            ld b,7
vacant:     ld a,(hl) ;@ loop B
            or a
            jr z,found
            ld a,l
            add a,8
            ld l,a
            djnz vacant
            ret
found:      ld (hl),1
            push hl
            pop ix
            ld hl,left
            dec (hl)
            ld a,(pace)
            ld (pause),a
            call random
            and 7Fh
            ld b,a
            call random
            and 3Fh
            add a,b
            add a,16
            ld (ix+1),a
            ld (ix+2),10h
            call random
            and 0Fh
            ld hl,kinds
            rst 20h
            ld (ix+3),a
            ld (ix+4),0
            call random
            and 1
            inc a
            ld (ix+5),a
            ret

; Moves all stones.
fall:       ld hl,stones
            ld b,7
falls:      push bc ;@ loop B
            push hl
            push hl
            pop ix
            ld a,(ix+0)
            or a
            call nz,behave
            pop hl
            pop bc
            ld a,l
            add a,8
            ld l,a
            djnz falls
            ret

; Moves the stone at IX by its kind.
behave:     ld a,(ix+3)
            cp 3
            ret nc
            rst 28h ;@ inline
            defw sink
            defw sways
            defw hunts

; One that goes from side to side.
sways:      ld a,(ix+4)
            inc a
            and 3Fh
            ld (ix+4),a
            ld hl,sway
            rst 20h
            add a,(ix+1)
            ld (ix+1),a
            jr sink

; One that seeks the ship.
hunts:      ld a,(frames)
            and 1
            jr z,sink
            ld a,(ship)
            add a,4
            cp (ix+1)
            jr z,sink
            jr c,leftward
            inc (ix+1)
            jr sink
leftward:   dec (ix+1)

; A stone goes down: to the ship or to the roof of the house that it comes upon.
sink:       ld a,(ix+2)
            add a,(ix+5)
            ld (ix+2),a
            ld a,(ix+1)
            add a,8
            rrca
            rrca
            rrca
            rrca
            and 0Fh
            ld c,a
            add a,80h
            ld l,a
            ld h,41h
            ld a,(hl)
            and 3
            add a,a
            add a,a
            add a,a
            add a,(ix+2)
            cp 0E0h
            jr nc,lands
            ld a,(ix+2)         ; the ship flies in rows 23 and 24
            sub 0ACh
            cp 18h
            ret nc
            ld a,(state)
            cp 3
            ret nz
            ld a,(ship)
            add a,4
            sub (ix+1)
            jr nc,aside
            neg
aside:      cp 15
            ret nc
            ld (ix+0),0
            ld a,1
            ld (hit),a
            ret

; A stone breaks, and a storey of the house C at HL with it.
lands:      ld (ix+0),0
            ld a,(hl)
            and 3
            ret z
            dec a
            ld (hl),a
            ld e,c
            ld d,3
            rst 08h
            ld hl,storeys
            dec (hl)
            ld b,8
            ld c,30h
            ld d,-4
            jp effect

; Moves the saucer, or lets one come.
cruise:     ld a,(saucer)
            or a
            jr z,comes_one
            add a,1
            cp 0E0h
            jr nc,leaves
            ld (saucer),a
            ret
leaves:     xor a
            ld (saucer),a
            ld de,0901h
            jp post
comes_one:  ld a,(frames)
            or a
            ret nz
            call random
            and 3
            ret nz
            ld a,8
            ld (saucer),a
            ld de,0900h
            jp post

; Takes all stones and shots away.
tidy:       ld hl,stones
            ld b,50h
forget:     ld (hl),0 ;@ loop B
            inc l
            djnz forget
            xor a
            ld (saucer),a
            ld (pause),a
            ret

; Builds the town.
build:      ld hl,plan
            ld de,town
            ld bc,0010h
raise:      ldir ;@ fact DE+BC = 4190h ;@ loop BC
            ld a,28
            ld (storeys),a
            ret

; Has the screen drawn: blank, then what is always there.
scene:      ld de,0000h
            rst 08h
            ld de,0200h
            rst 08h
            ld de,0400h
            rst 08h
            ld de,0401h
            rst 08h
            ld de,0700h
            jp post

; Shows the stones, the shots, the ship and the saucer. What stands in the leftmost column is not seen.
expose:     ld hl,stones
            ld de,copy + 44h
            ld b,7
sprite:     ld c,l ;@ loop B
            ld a,(hl)
            inc l
            or a
            jr z,unseen
            ld a,(hl)
unseen:     ld (de),a           ; place from the left
            inc e
            inc l
            inc l
            ld a,(frames)       ; form: two of each kind, by turns
            rrca
            rrca
            rrca
            and 1
            add a,(hl)
            add a,(hl)
            inc a
            ld (de),a
            inc e
            ld a,(hl)           ; colour
            and 3
            add a,2
            ld (de),a
            inc e
            dec l
            ld a,(hl)           ; height
            ld (de),a
            inc e
            ld a,c
            add a,8
            ld l,a
            djnz sprite
            ld hl,shots
            ld de,copy + 61h
            call dot
            ld hl,shots + 4
            ld de,copy + 65h
            call dot
            ld a,(ship)         ; rows 23 and 24 have the ship, row 5 the saucer
            ld (copy + 46),a
            ld (copy + 48),a
            ld a,(saucer)
            ld (copy + 10),a
            ret

; Shows the shot at HL, in the copy's shot at DE: its place from the left, and its height from below.
dot:        ld a,(hl)
            or a
            inc hl
            jr z,gone
            ld a,(hl)
gone:       ld (de),a
            inc hl
            inc de
            inc de
            ld a,(hl)
            cpl
            ld (de),a
            ret

; ---- main

start:      ld hl,4000h         ; clears work RAM below the stack
            ld de,4001h
            ld bc,02FFh
            ld (hl),0
clear:      ldir ;@ fact DE+BC = 4300h
            ld hl,ring          ; no task is there
            ld b,40h
empty:      ld (hl),0FFh
            inc l
            djnz empty
            ld hl,hues          ; each row has its colour: the odd bytes of the copy
            ld de,copy + 1
            ld b,32
paint:      ld a,(hl)
            ld (de),a
            inc hl
            inc e
            inc e
            djnz paint
            ld a,10h
            ld (best + 1),a
            ld a,1
            ld (fresh),a
            ld (loudness),a
            ld (sky),a
            ld (enable),a

; Takes the next task, and performs it.
turn:       ld a,(tail)
            and 1Fh
            add a,a
            add a,0C0h
            ld l,a
            ld h,40h
            ld a,(hl)
            cp 0FFh
            jr z,turn
            inc l
            ld c,(hl)           ; its parameter
            dec l
            ld (hl),0FFh        ; its place is free again
            ld b,a
            ld a,(tail)
            inc a
            and 1Fh
            ld (tail),a
            ld a,b
            call perform
            jr turn

perform:    cp 10
            ret nc              ; there is no such task
            rst 28h ;@ inline
            defw wipe           ; 0 clears the screen
            defw write          ; 1 prints the text of this number
            defw draw_town      ; 2 draws all houses
            defw draw           ; 3 draws one of them
            defw figures        ; 4 prints the score, the best one or the wave
            defw ships          ; 5 shows how many ships are left
            defw draw_ship      ; 6 draws the ship: whole, burst or not at all
            defw coin_box       ; 7 prints how many coins are there
            defw unwrite        ; 8 takes a text away
            defw draw_disc      ; 9 draws the saucer, or takes it away

; Clears the screen, and prints what each picture has.
wipe:       ld hl,video
            ld de,video + 1
            ld bc,03FFh
            ld (hl),20h
blank:      ldir ;@ fact DE+BC = 5400h
            ld c,11
            call write
            ld c,12
            call write
            ld c,13
            call write
            ld c,14
            jp write

; The address of a place, column B and row C, in HL. Columns and rows go round at 32, so it lies in video RAM whatever they are.
place:      ld a,c
            and 1Fh
            ld l,a
            ld a,b
            cpl
            and 1Fh             ; how many columns it is from the right
            rrca
            rrca
            rrca
            ld h,a
            and 0E0h
            or l
            ld l,a
            ld a,h
            and 3
            add a,50h
            ld h,a
            ret

; Prints a byte of BCD as two digits.
pair:       push af
            rrca
            rrca
            rrca
            rrca
            call digit
            pop af
digit:      and 0Fh
            add a,30h
; Puts A to the place of B and C, and goes on a column.
put:        push hl
            push af
            call place
            pop af
            ld (hl),a
            pop hl
            inc b
            ret

; Prints the text number C, or blanks in its place. A text has its column, its row, its letters and a zero.
unwrite:    ld d,20h
            jr text
write:      ld d,0
text:       ld a,c
            cp 15
            ret nc
            add a,a
            ld c,a
            ld b,0
            ld hl,texts
            add hl,bc
            ld a,(hl)
            inc hl
            ld h,(hl)
            ld l,a
            ld b,(hl)
            inc hl
            ld c,(hl)
            inc hl
letter:     ld a,(hl)
            or a
            ret z
            inc hl
            inc d
            dec d
            jr z,inked
            ld a,d
inked:      call put
            jr letter

; Draws all houses.
draw_town:  ld c,0Eh
houses:     push bc
            call draw
            pop bc
            dec c
            jr nz,houses
            ret

; Draws the house number C: a roof on as many storeys as it has, and the sky above.
draw:       ld a,c
            and 0Fh
            ld c,a
            add a,80h
            ld l,a
            ld h,41h
            ld a,(hl)
            and 3
            ld d,a
            ld a,c
            add a,a
            ld b,a
            ld c,29
            ld e,3
storey:     ld a,d
            or a
            jr z,bare
            dec d
            jr z,roof
            ld hl,5D5Bh         ; two windows
            jr tiles
roof:       ld hl,5C2Fh         ; the two sides of a roof
            jr tiles
bare:       ld hl,2020h
tiles:      ld a,l
            call put
            ld a,h
            call put
            dec b
            dec b
            dec c
            dec e
            jr nz,storey
            ret

; Prints a number: 0 the score, 1 the best score, 2 the wave.
figures:    ld a,c
            or a
            ld hl,score + 2
            ld bc,0301h
            jr z,six
            dec a
            ld hl,best + 2
            ld bc,1501h
            jr z,six
            ld bc,120Eh
            ld a,(wave)
            jp pair
six:        ld d,3
            ld c,2
digits:     ld a,(hl)
            dec hl
            call pair
            dec d
            jr nz,digits
            ret

; Shows how many ships are left, in row 31.
ships:      ld bc,021Fh
            ld a,(lives)
            and 7
            ld d,a
            ld e,7
each:       ld a,d
            or a
            ld a,20h
            jr z,no_ship
            dec d
            ld a,"A"
no_ship:    call put
            dec e
            jr nz,each
            ret

; Draws the ship in the first columns of rows 23 and 24; the shift of these rows has its place.
draw_ship:  ld a,c
            cp 3
            ret nc
            add a,a
            ld e,a
            add a,a
            add a,e
            ld e,a
            ld d,0
            ld hl,hulls
            add hl,de
            ld bc,0017h
            call three
            ld bc,0018h
three:      ld d,3
part:       ld a,(hl)
            inc hl
            call put
            dec d
            jr nz,part
            ret

; Draws the saucer in the first columns of row 5, or blanks.
draw_disc:  ld a,c
            or a
            ld hl,disc
            jr z,seen
            ld hl,no_disc
seen:       ld bc,0005h
            ld d,5
            jp part

; Prints the coins.
coin_box:   ld bc,1B1Fh
            ld a,(credit)
            jp pair

; ---- tables

tables:
; What a stone of each kind is worth, and the saucer, in BCD.
worth:      defw 0050h,0080h,0120h,0500h

; How many stones each wave has, and the frames between them.
counts:     defb 14,14,18,22,26,30,34,40,50
paces:      defb 36,36,32,28,25,22,20,18,16

; Which kind comes, by a number of 0 to 15.
kinds:      defb 0,0,1,0,2,0,1,0,0,1,0,2,0,1,0,2

; By how much one that sways moves, in each of 64 frames.
sway:       defb 0,1,1,1,1,2,2,2,2,2,2,2,1,1,1,1
            defb 0,-1,-1,-1,-1,-2,-2,-2,-2,-2,-2,-2,-1,-1,-1,-1
            defb 0,-1,-1,-1,-1,-2,-2,-2,-2,-2,-2,-2,-1,-1,-1,-1
            defb 0,1,1,1,1,2,2,2,2,2,2,2,1,1,1,1

; The storeys of the houses to begin with: 28 of them are seen.
plan:       defb 0,1,2,3,1,2,1,3,3,2,1,2,3,2,2,0

; The ship whole, burst and gone: three tiles above, three below.
hulls:      defm " ^ /#"
            defb 5Ch
            defm "* '+*,"
            defm "      "
disc:       defm "<=O=>"
no_disc:    defm "     "

texts:      defw t_title
            defw t_keep
            defw t_values
            defw t_falls
            defw t_sways
            defw t_hunts
            defw t_coin
            defw t_push
            defw t_one
            defw t_wave
            defw t_over
            defw t_names
            defw t_high
            defw t_low
            defw t_ground
t_title:    defb 9,8
            defm "S T O N E S"
            defb 0
t_keep:     defb 9,12
            defm "KEEP THE TOWN"
            defb 0
t_values:   defb 9,8
            defm "WHAT COMES DOWN"
            defb 0
t_falls:    defb 8,11
            defm "IT FALLS ....  50"
            defb 0
t_sways:    defb 8,13
            defm "IT SWAYS ....  80"
            defb 0
t_hunts:    defb 8,15
            defm "IT HUNTS .... 120"
            defb 0
t_coin:     defb 9,18
            defm "INSERT A COIN"
            defb 0
t_push:     defb 8,12
            defm "PUSH START BUTTON"
            defb 0
t_one:      defb 8,15
            defm "ONE COIN ONE GAME"
            defb 0
t_wave:     defb 11,14
            defm "WAVE     "
            defb 0
t_over:     defb 11,14
            defm "GAME OVER"
            defb 0
t_names:    defb 3,1
            defm "SCORE             BEST"
            defb 0
t_high:     defb 0,3
            defm "  (~~~)        (~~)      (~~~~) "
            defb 0
t_low:      defb 0,4
            defm "      (~~)        (~~~~)        "
            defb 0
t_ground:   defb 0,30
            defm "================================"
            defb 0

; A colour a row.
hues:       defb 7,5,7,6,6,3,1,1,1,1,2,2,2,2,3,3
            defb 4,4,5,5,5,5,5,7,7,5,5,1,2,3,2,5
