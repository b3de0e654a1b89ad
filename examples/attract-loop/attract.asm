; The attract loop of a game: what a cabinet shows while nobody plays. A script draws a title in tall letters, tells a story letter by
; letter, shows what each enemy is worth and who played best, and sends sprites along their paths over it all.
; Assemble with z80asm: z80asm -o attract.rom attract.asm
;
; A place on the screen is a column, 0 to 31 from the left, and a row, 0 to 31 from the top. The monitor stands on its side, so a step
; to the right is 32 bytes down in video RAM. Tiles have their ASCII codes; 20h is blank.

stack:      equ 4400h           ; the stack goes down from here to 4380
copy:       equ 4000h           ; what goes to the object RAM: 32 rows of 2 bytes, 8 sprites of 4 bytes, 8 shots of 4 bytes
sprites:    equ 4040h           ; height, form, colour, place from the left
shots:      equ 4060h           ; likewise, but only height and place count
frames:     equ 4080h           ; counts frames
dirty:      equ 4081h           ; 1 once the NMI routine has been there
scene:      equ 4082h           ; the script's next command
waits:      equ 4084h           ; frames that the script still waits
typing:     equ 4085h           ; 1 while a text is typed
letters:    equ 4086h           ; the next letter of that text
column:     equ 4088h           ; and where it will stand
row:        equ 4089h
tune:       equ 408Ah           ; the next note
note:       equ 408Ch           ; frames that are left of this one
hum:        equ 408Dh           ; how the background hums: four bits
coin:       equ 408Eh           ; what IN0 was at the last blank
credit:     equ 408Fh           ; coins, in BCD
timers:     equ 4090h           ; eight bytes that count frames, each from a start of its own
wide:       equ 4098h           ; how many columns a picture has
actors:     equ 4100h           ; 8 actors of 8 bytes: steps, across, down, by across, by down, form, path
stars:      equ 4140h           ; 32 stars of 2 bytes: column, row
video:      equ 5000h
objects:    equ 5800h
in0:        equ 6000h
drone:      equ 6004h           ; four latches of one bit
start_lamp: equ 6000h
loudness:   equ 6806h           ; two latches
enable:     equ 7001h
sky:        equ 7004h           ; the board's own stars
pitch:      equ 7800h           ; for writing
watchdog:   equ 7800h           ; for reading

            org 0000h
            ld sp,stack
            jp start

; ---- the vertical blank

            defs 0066h - $
            push af
            push bc
            push de
            push hl
            xor a
            ld (enable),a       ; lets the flip-flop go
            ld a,(watchdog)
            ld hl,copy          ; rows, sprites and shots go out to the object RAM
            ld de,objects
            ld bc,0080h
send:       ldir
            ld hl,timers        ; and each timer counts on
            ld b,8
count:      inc (hl)
            inc hl
            djnz count
            call play
            call drum
            call slot
            ld hl,frames
            inc (hl)
            ld a,1
            ld (dirty),a
            ld (enable),a
            pop hl
            pop de
            pop bc
            pop af
            retn

; Plays the tune: when a note is over its next one goes to the sound, from the beginning again behind the last.
play:       ld hl,note
            dec (hl)
            ret nz
            ld hl,(tune)
            ld a,(hl)
            or a
            jr nz,sound
            ld hl,melody
            ld a,(hl)
sound:      ld (pitch),a
            inc hl
            ld a,(hl)
            ld (note),a
            inc hl
            ld (tune),hl
            ret

; Sends the four bits of the hum to their latches. Each takes bit 0 of a byte.
drum:       ld a,(hum)
            ld hl,drone
            ld b,4
bits:       ld (hl),a
            rrca
            inc l
            djnz bits
            ld a,(timers)       ; the hum goes up by one each 16 frames
            and 0Fh
            ret nz
            ld hl,hum
            inc (hl)
            ret

; Counts a coin when it falls in: when the bit of IN0 is set that was not. There are 99 at most.
slot:       ld a,(in0)
            and 1
            ld b,a
            ld a,(coin)
            cpl
            and b
            ld c,a
            ld a,b
            ld (coin),a
            ld a,c
            or a
            ret z
            ld hl,credit
            ld a,(hl)
            cp 99h
            ret z
            add a,1
            daa
            ld (hl),a
            ld a,1
            ld (start_lamp),a
            ret

; ---- main

start:      xor a
            ld (enable),a
            ld (start_lamp),a
            ld hl,4000h         ; clears work RAM up to the stack
            ld de,4001h
            ld bc,037Fh
            ld (hl),0
clear:      ldir
            call wipe
            ld hl,sowed         ; sows the stars
            ld de,stars
            ld bc,0040h
sow:        ldir
            ld hl,hues          ; and gives each row its colour: the odd bytes of the copy
            ld de,copy + 1
            ld b,32
paint:      ld a,(hl)
            ld (de),a
            inc hl
            inc de
            inc de
            djnz paint
            ld hl,timers        ; the timers begin 32 frames apart
            ld b,8
            xor a
stagger:    ld (hl),a
            inc hl
            add a,20h
            djnz stagger
            ld hl,script
            ld (scene),hl
            ld hl,melody
            ld (tune),hl
            ld a,1
            ld (note),a
            ld (loudness),a
            ld (sky),a
            ld (enable),a

; A turn of this loop is a frame: it waits for the NMI routine, and then all moves on by one.
turn:       ld a,(dirty)
            or a
            jr z,turn
            xor a
            ld (dirty),a
            call twinkle
            call fly
            call meteors
            call rainbow
            call type
            call credits
            call follow
            jr turn

; ---- places and texts

; The address of a place, column B and row C, in HL. Columns and rows go round at 32, so it lies in video RAM whatever they are.
place:      ld a,c
            and 1Fh
            ld l,a
            ld a,b
            cpl
            and 1Fh             ; how many columns it is from the right
            rrca
            rrca
            rrca
            ld h,a
            and 0E0h
            or l
            ld l,a
            ld a,h
            and 3
            add a,50h
            ld h,a
            ret

; Prints the text at DE, which a zero ends, from B and C on.
print:      ld a,(de)
            or a
            ret z
            inc de
            call put
            jr print

; Prints a byte of BCD as two digits.
pair:       push af
            rrca
            rrca
            rrca
            rrca
            call digit
            pop af
digit:      and 0Fh
            add a,30h
; Puts A to the place of B and C, and goes on a column.
put:        push af
            call place
            pop af
            ld (hl),a
            inc b
            ret

; Prints tall letters: each byte at DE is a column of five tiles, its lowest bit the uppermost, and FF ends them.
tall:       ld a,(de)
            cp 0FFh
            ret z
            inc de
            push bc
            push de
            ld d,a
            ld e,5
brick:      rr d
            jr nc,hole
            call place
            ld (hl),23h
hole:       inc c
            dec e
            jr nz,brick
            pop de
            pop bc
            inc b
            jr tall

; Fills the screen with blanks.
wipe:       ld hl,video
            ld de,video + 1
            ld bc,03FFh
            ld (hl),20h
blank:      ldir
            ret

; Prints how many coins there are.
credits:    ld a,(frames)
            and 0Fh
            ret nz
            ld de,credit_text
            ld bc,021Fh
            call print
            ld a,(credit)
            jp pair

; Types the text that is being typed: a letter each four frames.
type:       ld a,(typing)
            or a
            ret z
            ld a,(frames)
            and 3
            ret nz
            ld hl,(letters)
            ld a,(hl)
            or a
            jr z,typed
            inc hl
            ld (letters),hl
            ld d,a
            ld a,(row)
            ld c,a
            ld a,(column)
            ld b,a
            inc a
            ld (column),a
            ld a,d
            jp put
typed:      ld (typing),a
            ret

; ---- what moves

; One star a frame goes down by a row. It never covers anything but a blank, and leaves nothing but a blank.
twinkle:    ld a,(frames)
            and 1Fh
            add a,a
            add a,40h
            ld l,a              ; the star's two bytes: 4140 to 417F
            ld h,41h
            ld b,(hl)
            inc l
            ld c,(hl)
            push hl
            ld de,2E20h
            call replace
            pop hl
            ld a,c
            inc a
            and 1Fh
            ld c,a
            ld (hl),a
            ld de,202Eh
; Puts E where D stands.
replace:    call place
            ld a,(hl)
            cp d
            ret nz
            ld (hl),e
            ret

; The tall letters' rows change colour, each 8 frames; in the copy the odd bytes of rows 3 to 14.
rainbow:    ld a,(timers + 1)
            and 7
            ret nz
            ld hl,copy + 7
            ld b,12
hue:        ld a,(hl)
            inc a
            and 7
            ld (hl),a
            inc hl
            inc hl
            djnz hue
            ret

; The eight shots are meteors here. Each falls at a speed of its own, and comes again further to the right.
meteors:    ld hl,shots + 1
            ld b,8
meteor:     ld a,b
            add a,(hl)
            ld (hl),a
            inc hl
            inc hl
            jr nc,falls
            ld a,(hl)
            add a,35h
            ld (hl),a
falls:      inc hl
            inc hl
            djnz meteor
            ret

; Moves each actor, and shows it as a sprite.
fly:        ld ix,actors
            ld hl,sprites
            ld b,8
actor:      call steer
            ld a,(ix+2)
            ld (hl),a           ; height
            inc hl
            ld a,(ix+5)
            ld (hl),a           ; form
            inc hl
            ld a,b
            and 7
            ld (hl),a           ; colour
            inc hl
            ld a,(ix+1)
            ld (hl),a           ; place from the left
            inc hl
            ld de,8
            add ix,de
            djnz actor
flown:      ret

; Moves the actor at IX by a step of its path. A leg of a path is how many steps it has, by how much each goes across and down, and the
; form; 0 and an address go on elsewhere, and 0 and the address 0 end it.
steer:      ld a,(ix+0)
            or a
            ret z
            ld a,(ix+1)
            add a,(ix+3)
            ld (ix+1),a
            ld a,(ix+2)
            add a,(ix+4)
            ld (ix+2),a
            dec (ix+0)
            ret nz
            push hl
            ld l,(ix+6)
            ld h,(ix+7)
bend:       ld a,(hl)
            inc hl
            or a
            jr nz,leg
            ld a,(hl)
            inc hl
            ld h,(hl)
            ld l,a
            or h
            jr nz,bend
            ld (ix+1),0         ; gone: it waits at the edge, where it is not seen
            ld (ix+2),0
            pop hl
            ret
leg:        ld (ix+0),a
            ld a,(hl)
            inc hl
            ld (ix+3),a
            ld a,(hl)
            inc hl
            ld (ix+4),a
            ld a,(hl)
            inc hl
            ld (ix+5),a
            ld (ix+6),l
            ld (ix+7),h
            pop hl
            ret

; ---- the script

; Does the next command of the script, unless it waits or a text is being typed: a command a frame.
follow:     ld a,(typing)
            or a
            ret nz
            ld hl,waits
            ld a,(hl)
            or a
            jr z,command
            dec (hl)
            ret
command:    ld hl,(scene)
            ld a,(hl)
            inc hl
            or a
            jr z,again
            dec a
            jp z,do_wait
            dec a
            jp z,do_wipe
            dec a
            jp z,do_type
            dec a
            jp z,do_print
            dec a
            jp z,do_tall
            dec a
            jp z,do_start
            dec a
            jp z,do_ranks
            dec a
            jp z,do_best
            dec a
            jp z,do_top
            dec a
            jp z,do_picture
again:      ld hl,script
            ld (scene),hl
            ret

do_wait:    ld a,(hl)
            inc hl
            ld (waits),a
            ld (scene),hl
            ret

do_wipe:    ld (scene),hl
            jp wipe

do_type:    ld a,(hl)
            inc hl
            ld (column),a
            ld a,(hl)
            inc hl
            ld (row),a
            ld e,(hl)
            inc hl
            ld d,(hl)
            inc hl
            ld (letters),de
            ld (scene),hl
            ld a,1
            ld (typing),a
            ret

do_print:   call words
            jp print

do_tall:    call words
            jp tall

; Reads where a text goes, to B and C, and where it stands, to DE.
words:      ld b,(hl)
            inc hl
            ld c,(hl)
            inc hl
            ld e,(hl)
            inc hl
            ld d,(hl)
            inc hl
            ld (scene),hl
            ret

; Starts an actor: its number, where it begins, and its path.
do_start:   ld a,(hl)
            inc hl
            and 7
            add a,a
            add a,a
            add a,a
            ld e,a              ; its eight bytes: 4100 to 413F
            ld d,41h
            ld a,1
            ld (de),a
            inc e
            ld a,(hl)
            inc hl
            ld (de),a
            inc e
            ld a,(hl)
            inc hl
            ld (de),a
            inc e
            xor a
            ld (de),a
            inc e
            ld (de),a
            inc e
            inc e
            ld a,(hl)
            inc hl
            ld (de),a
            inc e
            ld a,(hl)
            inc hl
            ld (de),a
            ld (scene),hl
            ret

; Draws a picture: its width, its height, and its tiles a row after the other.
do_picture: call words
            ld a,(de)
            inc de
            ld (wide),a
            ld a,(de)
            inc de
lines:      push af
            push bc
            ld a,(wide)
tiles:      push af
            ld a,(de)
            inc de
            call put
            pop af
            dec a
            jr nz,tiles
            pop bc
            inc c
            pop af
            dec a
            jr nz,lines
            ret

; Shows what each enemy is worth, in the convoy and when it charges.
do_ranks:   ld (scene),hl
            ld de,ranks
            ld b,4
rank:       push bc
            ld a,(de)
            inc de
            ld c,a
            ld b,5
            ld a,(de)
            inc de
            call put
            ld a,(de)
            inc de
            call put
            ld b,11
            call worth
            ld b,20
            call worth
            pop bc
            djnz rank
            ret

worth:      ld a,(de)
            inc de
            call pair
            ld a,(de)
            inc de
            call pair
            push de
            ld de,points
            call print
            pop de
            ret

; Shows the five best players: their three letters, and six digits.
do_best:    ld (scene),hl
            ld de,best
            ld bc,050Ah
player:     push bc
            ld b,8
            call three
            ld b,16
            ld a,(de)
            inc de
            call pair
            ld a,(de)
            inc de
            call pair
            ld a,(de)
            inc de
            call pair
            pop bc
            inc c
            inc c
            djnz player
            ret

three:      ld a,(de)
            inc de
            call put
            ld a,(de)
            inc de
            call put
            ld a,(de)
            inc de
            jp put

; Shows the two scores, which are none yet, and the best.
do_top:     ld (scene),hl
            ld de,top_text
            ld bc,0200h
            call print
            ld de,zero_text
            ld bc,0201h
            call print
            ld de,zero_text
            ld bc,1901h
            call print
            ld de,best + 3
            ld bc,0B01h
            ld a,(de)
            inc de
            call pair
            ld a,(de)
            inc de
            call pair
            ld a,(de)
            jp pair

; ---- the script: 1 waits, 2 wipes, 3 types, 4 prints, 5 prints in tall letters, 6 starts an actor, 7 shows the ranks, 8 the best players,
; 9 the scores, 10 draws a picture, and 0 begins again

script:     defb 2
            defb 9
            defb 5,8,3
            defw star
            defb 5,2,10
            defw corridor
            defb 1,60
            defb 6,0,8,16
            defw path_weave
            defb 6,1,40,16
            defw path_weave
            defb 6,2,72,16
            defw path_weave
            defb 4,6,18
            defw maker_text
            defb 4,6,20
            defw year_text
            defb 1,120
            defb 6,3,240,32
            defw path_swoop
            defb 4,9,25
            defw coin_text
            defb 1,20
            defb 6,4,240,32
            defw path_swoop
            defb 1,20
            defb 6,5,240,32
            defw path_swoop
            defb 1,200
            defb 4,9,25
            defw gap_text
            defb 1,30
            defb 4,9,25
            defw coin_text
            defb 1,240
            defb 2
            defb 9
            defb 10,9,21
            defw planet
            defb 3,4,6
            defw story_1
            defb 3,2,9
            defw story_2
            defb 3,2,11
            defw story_3
            defb 6,6,120,240
            defw path_rise
            defb 3,2,14
            defw story_4
            defb 3,2,16
            defw story_5
            defb 6,0,16,40
            defw path_loop
            defb 6,1,16,60
            defw path_loop
            defb 3,2,19
            defw story_6
            defb 1,180
            defb 2
            defb 9
            defb 4,3,5
            defw convoy_text
            defb 10,4,9
            defw swarm
            defb 10,14,24
            defw ship
            defb 6,7,120,0
            defw path_dive
            defb 1,60
            defb 6,6,40,0
            defw path_dive
            defb 4,3,28
            defw last_text
            defb 1,150
            defb 2
            defb 9
            defb 4,4,6
            defw ranks_text
            defb 4,9,9
            defw kinds_text
            defb 7
            defb 6,2,0,100
            defw path_loop
            defb 6,3,0,120
            defw path_loop
            defb 6,7,200,0
            defw path_dive
            defb 4,9,25
            defw coin_text
            defb 1,240
            defb 6,4,40,0
            defw path_dive
            defb 1,120
            defb 2
            defb 9
            defb 4,7,6
            defw best_text
            defb 8
            defb 6,5,0,200
            defw path_swoop
            defb 4,6,24
            defw how_1
            defb 4,6,26
            defw how_2
            defb 1,240
            defb 0

; ---- paths

path_weave: defb 16,2,1,11h
            defb 8,2,0,12h
            defb 16,2,255,13h
            defb 8,2,0,12h
            defb 16,2,2,11h
            defb 16,1,2,14h
            defb 16,255,2,15h
            defb 16,254,2,16h
            defb 20,254,0,17h
            defb 16,254,254,16h
            defb 0
            defw path_dive

path_swoop: defb 20,254,1,21h
            defb 10,254,2,22h
            defb 10,255,2,23h
            defb 10,0,2,24h
            defb 10,1,2,23h
            defb 10,2,1,22h
            defb 30,2,0,21h
            defb 10,2,255,22h
            defb 10,1,254,23h
            defb 20,0,254,24h
            defb 40,254,255,22h
            defb 0
            defw path_away

path_loop:  defb 40,2,0,11h
            defb 6,2,2,12h
            defb 6,0,2,13h
            defb 6,254,2,14h
            defb 6,254,254,15h
            defb 6,0,254,16h
            defb 6,2,254,17h
            defb 40,2,0,11h
            defb 0
            defw path_away

path_rise:  defb 30,0,255,31h
            defb 10,0,0,32h
            defb 30,0,255,31h
            defb 20,1,255,31h
            defb 20,255,255,31h
            defb 60,0,254,31h
            defb 0
            defw path_away

path_dive:  defb 12,0,3,18h
            defb 10,1,3,19h
            defb 10,2,3,1Ah
            defb 10,1,3,19h
            defb 10,255,3,1Bh
            defb 10,254,3,1Ch
            defb 10,255,3,1Bh
            defb 8,0,3,18h
            defb 0
            defw 0

path_away:  defb 16,3,253,1Dh
            defb 24,3,254,1Eh
            defb 12,3,255,1Fh
            defb 0
            defw 0

; ---- the tune: pitches and how many frames they last

melody:     defb 68h,8,80h,8,8Dh,8,9Ah,16,8Dh,8,80h,8,68h,16
            defb 70h,8,84h,8,90h,8,9Dh,16,90h,8,84h,8,70h,16
            defb 80h,8,8Dh,8,9Ah,8,0A6h,16,9Ah,8,8Dh,8,80h,16
            defb 9Ah,6,0A0h,6,0A6h,6,0ACh,6,0B3h,6,0B8h,6,0BCh,24
            defb 0B3h,6,0ACh,6,0A6h,6,0A0h,6,9Ah,6,90h,6,84h,24
            defb 68h,12,0FFh,4,68h,12,0FFh,4,74h,12,0FFh,4,80h,32
            defb 0FFh,120,0

; ---- tables

; A colour a row.
hues:       defb 1,1,0,2,2,3,3,4,4,5,5,6,6,7,7,7
            defb 2,2,3,3,4,4,5,5,6,6,7,7,1,1,0,5

; Where the stars begin: columns and rows.
sowed:      defb 3,1,9,30,14,7,22,19,28,4,1,24,6,13,18,27
            defb 11,2,25,16,30,9,4,21,16,29,20,11,8,5,27,23
            defb 2,17,13,26,24,3,10,20,31,14,5,8,19,31,15,12
            defb 0,28,23,6,29,18,7,25,12,15,17,0,21,22,26,10

; A rank's row, its two tiles, and its points in the convoy and when it charges.
ranks:      defb 12,5Bh,5Ch,00h,60h,03h,00h
            defb 14,5Dh,5Eh,00h,50h,01h,00h
            defb 16,5Fh,60h,00h,40h,00h,80h
            defb 18,61h,62h,00h,30h,00h,60h

; The best players and their scores.
best:       defm "ADA"
            defb 05h,00h,00h
            defm "KAY"
            defb 04h,20h,60h
            defm "TOM"
            defb 03h,15h,40h
            defm "EVA"
            defb 02h,08h,30h
            defm "IDA"
            defb 01h,00h,90h

; Tall letters, three columns a letter and a gap.
star:       defb 17h,15h,1Dh,0
            defb 01h,1Fh,01h,0
            defb 1Fh,05h,1Fh,0
            defb 1Fh,05h,1Ah,0FFh
corridor:   defb 1Fh,11h,0          ; of two columns, and the I of one: the word has 28, as many as are seen
            defb 1Fh,11h,1Fh,0
            defb 1Fh,05h,1Ah,0
            defb 1Fh,05h,1Ah,0
            defb 1Fh,0
            defb 1Fh,11h,0Eh,0
            defb 1Fh,11h,1Fh,0
            defb 1Fh,05h,1Ah,0FFh

; ---- pictures: width, height, tiles

planet:     defb 13,9
            defm "    -===-    "
            defm "  /       \\  "
            defm " /  ~~     \\ "
            defm "|  ~~~  o   |"
            defm "|   ~~   ~~ |"
            defm "|  o    ~~~~|"
            defm " \\   o    ~/ "
            defm "  \\       /  "
            defm "    -===-    "

swarm:      defb 23,9
            defm "      [\\       [\\      "
            defm "                       "
            defm "   ]^ ]^ ]^ ]^ ]^ ]^   "
            defm "                       "
            defm "_` _` _` _` _` _` _` _`"
            defm "                       "
            defm "ab ab ab ab ab ab ab ab"
            defm "                       "
            defm "ab ab ab ab ab ab ab ab"

ship:       defb 4,3
            defm " /\\ "
            defm "|##|"
            defm "/''\\"

; ---- texts

top_text:   defm "1UP     HIGH SCORE     2UP"
            defb 0
zero_text:  defm "00"
            defb 0
maker_text: defm "FOR ONE OR TWO PLAYERS"
            defb 0
year_text:  defm "ONE SHIP FOR ALL STARS"
            defb 0
coin_text:  defm "INSERT A COIN"
            defb 0
gap_text:   defm "             "
            defb 0
credit_text:
            defm "CREDIT "
            defb 0
story_1:    defm "WE ARE THE CORRIDOR GUARD"
            defb 0
story_2:    defm "OUR CONVOYS CROSS THE DARK"
            defb 0
story_3:    defm "FROM STAR TO STAR IN A LINE"
            defb 0
story_4:    defm "BUT RAIDERS WAIT IN SWARMS"
            defb 0
story_5:    defm "AND DIVE ON ALL WHO PASS"
            defb 0
story_6:    defm "YOUR SHIP IS THE LAST ONE"
            defb 0
convoy_text:
            defm "THEY COME IN RANKS OF EIGHT"
            defb 0
last_text:  defm "AND YOU ARE ALL THAT STANDS"
            defb 0
ranks_text: defm "- SCORE ADVANCE TABLE -"
            defb 0
kinds_text: defm "CONVOY   CHARGER"
            defb 0
points:     defm " PTS"
            defb 0
best_text:  defm "THE BEST OF TODAY"
            defb 0
how_1:      defm "STICK MOVES THE SHIP"
            defb 0
how_2:      defm "BUTTON FIRES A SHOT"
            defb 0
