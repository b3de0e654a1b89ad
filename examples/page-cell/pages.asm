; A light show on the raised board. The screen is four panels of 8 columns, a page of video RAM each, and six shows take turns in them.
; Some of the board's ports can't be read back, so what was last sent to each is kept in a cell of work RAM, its shadow. The latch
; A000 lights the lamp of the panel that plays: its shadow is the page of video RAM that is drawn to.
; Assemble with z80asm: z80asm -o pages.rom pages.asm
;
; In a panel a place is 32 times its column from the right, and its row from the top. Tiles have their ASCII codes; 20h is blank.

stack:      equ 8400h           ; the stack goes down from here to 83C0
page:       equ 8000h           ; what the latch has: 90 to 93, a page of video RAM
back:       equ 8001h           ; the list of what moves that is written now: page 81 or 82; the other one is shown
drone:      equ 8002h           ; what the four latches of the drone have: 0 to 15
tone:       equ 8003h           ; what the pitch is: 60 to BF
show:       equ 8004h           ; which show plays: 0 to 5
seed:       equ 8010h
blanks:     equ 8011h           ; counts vertical blanks
dirty:      equ 8012h           ; 1 once the NMI routine has been there
rest:       equ 8013h           ; frames that are left of this show, by fours
stick:      equ 8014h           ; what IN0 was at the last blank
shift:      equ 8015h           ; by how much the player has shifted the pitch
beat:       equ 8016h           ; the tune's next note
line:       equ 8017h           ; the row that a show is at
news_at:    equ 8018h           ; the next line of the news
ball:       equ 801Ah           ; its column and row, and by how much they change
spot:       equ 801Eh           ; the next place of a poster
which:      equ 801Fh           ; which poster it is, in bit 0
drops:      equ 8180h           ; the rows of eight drops, behind the first list
faults:     equ 8380h           ; how many bytes of work, video and object RAM were found bad, up to 255
video:      equ 9000h
rows:       equ 9800h           ; of 32 rows, shift and colour
objects:    equ 9840h           ; 8 sprites and 8 shots, of 4 bytes each
in0:        equ 0A000h          ; for reading: left in bit 2, right in 3, fire in 4
latch:      equ 0A000h          ; for writing
drones:     equ 0A004h          ; four latches of one bit
loudness:   equ 0A806h
enable:     equ 0B001h
pitch:      equ 0B800h          ; for writing
watchdog:   equ 0B800h          ; for reading

            org 0000h
            ld sp,stack
            jp start

; ---- the vertical blank

; Sends all ports what their shadows say, and the list that is not being written to the object RAM.
            defs 0066h - $
            push af
            push bc
            push de
            push hl
            xor a
            ld (enable),a       ; lets the flip-flop go
            ld a,(watchdog)
            ld a,(page)
            ld (latch),a
            ld h,a
            ld l,0E0h           ; a sign of life before the show's name: a star or a cross
            ld a,(blanks)
            rrca
            rrca
            rrca
            and 1
            add a,2Ah
            ld (hl),a
            ld a,(tone)
            ld (pitch),a
            call hum
            ld a,(back)
            cpl
            add a,4             ; 81 for 82, and 82 for 81
            ld h,a
            ld l,0
            ld de,objects
            ld bc,0040h
send:       ldir
            ld a,(in0)
            ld (stick),a
            call next
            ld hl,blanks
            inc (hl)
            ld a,1
            ld (dirty),a
            ld (enable),a
            pop hl
            pop de
            pop bc
            pop af
            retn

; Sends the four bits of the drone to their latches. Each takes bit 0 of a byte.
hum:        ld a,(drone)
            ld hl,drones
            ld b,4
bits:       ld (hl),a
            rrca
            inc l
            djnz bits
            ret

; The next number at random, in A: five times the seed and one.
next:       ld a,(seed)
            ld b,a
            add a,a
            add a,a
            add a,b
            inc a
            ld (seed),a
            ret

; ---- main

start:      xor a
            ld (enable),a

; First the RAM is tested: of work RAM the three pages of 256 bytes below the stack's, and then all of video RAM and of object RAM.
; D counts the bytes that are bad, up to 255.
            ld d,0
            ld h,80h
            ld l,d
            ld b,3
work:       ld (hl),55h
            ld a,(hl)
            cp 55h
            jr nz,poor
            ld (hl),0AAh
            ld a,(hl)
            cp 0AAh
            jr z,fine
poor:       inc d
            jr nz,fine
            dec d
fine:       inc l
            jr nz,work
            inc h
            djnz work
            ld a,d
            ld (faults),a
            ld d,0
            ld c,90h
            ld b,4
videos:     ld h,c
            call test
            inc c
            djnz videos
            ld a,d
            ld (faults + 1),a
            ld d,0
            ld h,98h
            call test
            ld a,d
            ld (faults + 2),a

            ld hl,8000h         ; clears work RAM up to the numbers of faults
            ld de,8001h
            ld bc,037Fh
            ld (hl),0
clear:      ldir
            ld a,90h            ; each shadow has its first byte before any NMI comes, from the lowest on
            ld (page),a
            ld (latch),a
            ld a,81h
            ld (back),a
            xor a
            ld (drone),a
            ld a,60h
            ld (tone),a
            ld a,5
            ld (show),a
            call black
            call colour
            ld hl,drops         ; the drops begin in rows 1 to 8
            ld b,8
sow:        ld (hl),b
            inc l
            djnz sow
            ld hl,0503h         ; the ball begins at column 3 and row 5
            ld (ball),hl
            ld hl,0101h         ; and goes by a column and a row a step
            ld (ball + 2),hl
            ld hl,news
            ld (news_at),hl
            ld a,1
            ld (loudness),a
            ld (enable),a

; Tells what the test found, for four seconds.
            ld de,test_text
            ld bc,0A06h
            call print
            ld de,work_text
            ld bc,060Ah
            ld hl,faults
            call report
            ld de,video_text
            ld bc,060Ch
            ld hl,faults + 1
            call report
            ld de,object_text
            ld bc,060Eh
            ld hl,faults + 2
            call report
            ld de,then_text
            ld bc,0514h
            call print
pause:      ld a,(blanks)
            cp 240
            jr nz,pause
            call black
            call begin

; A turn of this loop is a frame.
turn:       ld a,(dirty)
            or a
            jr z,turn
            xor a
            ld (dirty),a
            call orbit
            call flip
            call hear
            call play
            ld a,(show)
choose:     add a,a
            ld e,a
            ld d,0
            ld hl,shows
            add hl,de
            ld e,(hl)
            inc hl
            ld d,(hl)
            ex de,hl
            jp (hl)

shows:      defw rain
            defw bars
            defw tell
            defw bounce
            defw hang
            defw weave

; A frame of the show is over. After some hundred of them, or with the fire button, the next one plays in the next panel.
done:       ld a,(stick)
            and 10h
            jr nz,change
            ld a,(blanks)
            and 3
            jr nz,turn
            ld hl,rest
            dec (hl)
            jr nz,turn
change:     call begin
            jr turn

; Goes on to the next panel and the next show: clears the panel, and writes the show's name into it.
begin:      ld a,(page)
            inc a
            and 3
            add a,90h
            ld (page),a
            ld (latch),a
            ld a,(show)
            inc a
            cp 6
            jr c,known
            xor a
known:      ld (show),a
            ld a,80
            ld (rest),a
            xor a
            ld (line),a
            ld (spot),a
            ld hl,which
            inc (hl)
            call wipe
; Writes the show's name into the panel's first row.
headline:   ld a,(show)
            add a,a
            add a,a
            add a,a
            ld e,a
            ld d,0
            ld hl,names
            add hl,de
            ld c,0
; Writes 8 letters from HL to row C.
letters:    ld b,8
letter:     dec b
            ld a,(hl)
            call dab
            inc hl
            ld a,b
            or a
            jr nz,letter
            ret

; Clears the panel.
wipe:       ld a,(page)
            ld h,a
            ld l,0
blank:      ld (hl),20h
            inc l
            jr nz,blank
            ret

; Clears the whole screen.
black:      ld hl,video
            ld de,video + 1
            ld bc,03FFh
            ld (hl),20h
dark:       ldir
            ret

; Gives each row a colour, and no shift.
colour:     ld hl,rows
            ld b,20h
            ld c,0
hue:        ld (hl),0
            inc l
            ld a,c
            rrca
            rrca
            and 7
            ld (hl),a
            inc l
            inc c
            djnz hue
            ret

; Tests the page H of video or object RAM.
test:       ld l,0
probe:      ld (hl),55h
            ld a,(hl)
            cp 55h
            jr nz,bad
            ld (hl),0AAh
            ld a,(hl)
            cp 0AAh
            jr z,good
bad:        inc d
            jr nz,good
            dec d
good:       inc l
            jr nz,probe
            ret

; Prints the text at DE, and whether the RAM with this number of faults at HL is good.
report:     push hl
            call print
            pop hl
            ld a,(hl)
            or a
            ld de,good_text
            jr z,print
            ld de,bad_text
; Prints the text at DE, which a zero ends, from column B, counted from the left of the screen, and row C on.
print:      ld a,(de)
            or a
            ret z
            inc de
            push af
            ld a,c
            and 1Fh
            ld l,a
            ld a,b
            cpl
            and 1Fh
            rrca
            rrca
            rrca
            ld h,a
            and 0E0h
            or l
            ld l,a
            ld a,h
            and 3
            add a,90h
            ld h,a
            pop af
            ld (hl),a
            inc b
            jr print

; Puts A to column B and row C of the panel.
dab:        push hl
            ld e,a
            ld a,c
            and 1Fh
            ld l,a
            ld a,b
            and 7
            rrca
            rrca
            rrca
            or l
            ld l,a
            ld a,(page)
            ld h,a
            ld (hl),e
            pop hl
            ret

; ---- what plays beside the shows

; Writes the list of what moves: sixteen bodies on a curve.
orbit:      ld a,(back)
            ld h,a
            ld l,0
            ld b,10h
body:       ld a,b
            rlca
            rlca
            ld c,a
            ld a,(blanks)
            add a,c
            call sine
            ld (hl),a           ; height
            inc l
            ld a,b
            and 7
            add a,10h
            ld (hl),a           ; form
            inc l
            ld a,b
            and 7
            ld (hl),a           ; colour
            inc l
            ld a,(blanks)
            add a,a
            add a,c
            add a,10h
            call sine
            ld (hl),a           ; place from the left
            inc l
            djnz body
            ret

; The lists change their parts: the one that was written is shown. 81 becomes 82, and 82 becomes 81.
flip:       ld a,(back)
            cpl
            add a,4
            ld (back),a
            ret

; A sine of A, of 64 steps a turn: 20 to E0.
sine:       and 3Fh
            ld e,a
            ld d,0
            push hl
            ld hl,sines
            add hl,de
            ld a,(hl)
            pop hl
            ret

; The player shifts the pitch down and up, by at most 1F.
hear:       ld a,(blanks)
            and 3
            ret nz
            ld a,(stick)
            ld b,a
            ld a,(shift)
            bit 2,b
            jr z,higher
            or a
            jr z,higher
            dec a
higher:     bit 3,b
            jr z,heard
            cp 1Fh
            jr nc,heard
            inc a
heard:      ld (shift),a
            ret

; Plays the tune, a note each 8 frames, and changes the drone with each bar of 16.
play:       ld a,(blanks)
            and 7
            ret nz
            ld hl,beat
            ld a,(hl)
            inc (hl)
            and 3Fh
            ld e,a
            ld d,0
            ld hl,notes
            add hl,de
            ld b,(hl)           ; 60 to A0, as the notes are
            ld a,(shift)
            and 1Fh
            add a,b
            ld (tone),a
            ld a,e
            and 0Fh
            ret nz
            ld a,(drone)
            add a,3
            and 0Fh
            ld (drone),a
            ret

; ---- the shows

; Eight drops fall, a column each.
rain:       ld hl,drops
            ld b,8
drop:       ld c,(hl)
            ld a,20h
            call dab
            ld a,b
            and 3
            inc a
            ld d,a
            ld a,(blanks)
            and d
            jr nz,hangs         ; some fall in each frame, some in a few
            inc c
            ld a,c
            and 1Fh
            ld c,a
            jr nz,hangs
            push bc
            call next
            pop bc
            and 0Fh
            inc a
            ld c,a
hangs:      ld (hl),c
            ld a,7Ch
            call dab
            inc l
            djnz drop
            jp done

; Eight bars go up and down, one a frame.
bars:       ld a,(blanks)
            and 7
            ld b,a
            rlca
            rlca
            rlca
            ld c,a
            ld a,(blanks)
            rrca
            rrca
            add a,c
            call sine
            rrca
            rrca
            rrca
            and 1Fh
            ld d,a              ; the bar begins at this row
            ld c,1
bar:        ld a,c
            cp d
            ld a,20h
            jr c,above
            ld a,23h
above:      call dab
            inc c
            ld a,c
            cp 1Fh
            jr nz,bar
            jp done

; Tells the news: each 8 frames all goes up a row, and a line more stands at the foot.
tell:       ld a,(blanks)
            and 7
            jp nz,done
            ld a,(page)
            ld h,a
            ld l,1
up:         ld a,(hl)
            dec l
            ld (hl),a
            inc l
            inc l
            jr nz,up
            ld hl,(news_at)
            ld a,(hl)
            or a
            jr nz,more
            ld hl,news
more:       ld c,1Fh
            call letters
            ld (news_at),hl
            call headline
            jp done

; A ball bounces, and leaves a trace.
bounce:     ld a,(blanks)
            and 1
            jp nz,done
            ld hl,ball
            ld b,(hl)
            inc hl
            ld c,(hl)
            inc hl
            ld a,2Eh
            call dab
            ld a,b
            add a,(hl)
            and 7
            ld b,a
            jr z,aside
            cp 7
            jr nz,along
aside:      ld a,(hl)
            neg
            ld (hl),a
along:      inc hl
            ld a,c
            add a,(hl)
            and 1Fh
            ld c,a
            cp 1
            jr z,upright
            cp 1Eh
            jr nz,free
upright:    ld a,(hl)
            neg
            ld (hl),a
free:       ld a,b
            ld (ball),a
            ld a,c
            ld (ball + 1),a
            ld a,4Fh
            call dab
            jp done

; Hangs a poster, two tiles a frame.
hang:       call tack
            call tack
            jp done

tack:       ld hl,spot
            ld a,(hl)
            cp 0F8h             ; its last row is not drawn
            ret nc
            inc (hl)
            ld e,a
            ld d,0
            ld hl,which
            bit 0,(hl)
            ld hl,rocket
            jr z,tacks
            ld hl,tower
tacks:      add hl,de
            ld d,(hl)
            cpl
            and 7
            ld b,a              ; its columns from the left are those of the panel from the right
            ld a,e
            rrca
            rrca
            rrca
            and 1Fh
            ld c,a
            ld a,d
            jp dab

; Weaves a cloth: each tile of a row is made of two above it, and one is made at random.
weave:      ld a,(blanks)
            and 3
            jp nz,done
            ld a,(page)
            ld h,a
            ld a,(line)
            ld d,a
            inc a
            and 1Fh
            ld (line),a
            ld e,0
            ld b,8
thread:     ld a,e
            sub 20h
            or d
            ld l,a
            ld c,(hl)
            ld a,e
            add a,20h
            or d
            ld l,a
            ld a,(hl)
            xor c
            and 1
            ld c,a
            add a,a
            add a,c
            add a,20h
            ld c,a              ; 23, or a blank
            ld a,(line)
            or e
            ld l,a
            ld (hl),c
            ld a,e
            add a,20h
            ld e,a
            djnz thread
            call next
            and 0E0h
            ld e,a
            ld a,(line)
            or e
            ld l,a
            ld (hl),23h
            jp done

; ---- tables

sines:      defb 80h,89h,93h,9Ch,0A5h,0ADh,0B5h,0BDh,0C4h,0CAh,0D0h,0D5h,0D9h,0DCh,0DEh,0DFh
            defb 0E0h,0DFh,0DEh,0DCh,0D9h,0D5h,0D0h,0CAh,0C4h,0BDh,0B5h,0ADh,0A5h,9Ch,93h,89h
            defb 80h,77h,6Dh,64h,5Bh,53h,4Bh,43h,3Ch,36h,30h,2Bh,27h,24h,22h,21h
            defb 20h,21h,22h,24h,27h,2Bh,30h,36h,3Ch,43h,4Bh,53h,5Bh,64h,6Dh,77h

; The tune, of 64 notes.
notes:      defb 60h,60h,70h,70h,80h,80h,70h,70h,60h,60h,78h,78h,88h,88h,78h,78h
            defb 68h,68h,78h,78h,88h,88h,78h,78h,68h,68h,80h,80h,90h,90h,80h,80h
            defb 70h,70h,80h,80h,90h,90h,98h,98h,0A0h,0A0h,98h,98h,90h,90h,80h,80h
            defb 78h,78h,70h,70h,68h,68h,60h,60h,80h,70h,60h,70h,80h,90h,0A0h,0A0h

test_text:  defm "BOARD TEST"
            defb 0
work_text:  defm "WORK RAM     "
            defb 0
video_text: defm "VIDEO RAM    "
            defb 0
object_text:
            defm "OBJECT RAM   "
            defb 0
good_text:  defm "GOOD"
            defb 0
bad_text:   defm "BAD"
            defb 0
then_text:  defm "THE LIGHTS COME NEXT"
            defb 0

names:      defm "  RAIN  "
            defm "  BARS  "
            defm "  NEWS  "
            defm "  BALL  "
            defm "  WALL  "
            defm "  WEFT  "

; The news, of lines of 8 letters.
news:       defm "TONIGHT "
            defm "IN TOWN "
            defm "        "
            defm "A SHOW  "
            defm "OF LIGHT"
            defm "AND OF  "
            defm "SOUND ON"
            defm "FOUR    "
            defm "PANELS. "
            defm "        "
            defm "MOVE THE"
            defm "STICK TO"
            defm "THE LEFT"
            defm "AND THE "
            defm "TONE IS "
            defm "LOW; AND"
            defm "TO THE  "
            defm "RIGHT IT"
            defm "IS HIGH."
            defm "        "
            defm "PRESS   "
            defm "FIRE AND"
            defm "THE NEXT"
            defm "SHOW    "
            defm "BEGINS. "
            defm "        "
            defm "WEATHER:"
            defm "RAIN IN "
            defm "THE WEST"
            defm "STARS IN"
            defm "THE EAST"
            defm "        "
            defm "SPORTS: "
            defm "A BALL  "
            defm "WAS SEEN"
            defm "TO GO UP"
            defm "AND DOWN"
            defm "        "
            defm "- - - - "
            defm "        "
            defb 0

; Two posters, of 31 rows of 8 tiles.
rocket:     defm "  SHIP  "
            defm "        "
            defm " .    . "
            defm "   /\\   "
            defm "   ||   "
            defm "  /  \\  "
            defm "  |  | ."
            defm "  |GC|  "
            defm "  |  |  "
            defm ". |  |  "
            defm "  |()|  "
            defm "  |  |  "
            defm "  |  |  "
            defm "  |()|  "
            defm " .|  |  "
            defm "  |  | ."
            defm " /|  |\\ "
            defm "/ |  | \\"
            defm "| |  | |"
            defm "| |  | |"
            defm "|/|--|\\|"
            defm "  /__\\  "
            defm "   ##   "
            defm "  ####  "
            defm "   ##   "
            defm ".  ##  ."
            defm "   ''   "
            defm "   '    "
            defm " .    . "
            defm "TO  THE "
            defm "  MOON !"

tower:      defm "  SHOW  "
            defm "        "
            defm "   ||   "
            defm "  .||.  "
            defm "   /\\   "
            defm "  /__\\  "
            defm "  |::|  "
            defm "  |()|  "
            defm "  |::|  "
            defm " /|__|\\ "
            defm " |::::| "
            defm " |:[]:| "
            defm " |::::| "
            defm " |:[]:| "
            defm " |::::| "
            defm "/|____|\\"
            defm "|::::::|"
            defm "|:[]:[]|"
            defm "|::::::|"
            defm "|:[]:[]|"
            defm "|::::::|"
            defm "|:[]:[]|"
            defm "|::::::|"
            defm "|______|"
            defm "  |##|  "
            defm "  |##|  "
            defm "--------"
            defm "THE OLD "
            defm "  CLOCK "
            defm "  TOWER "
            defm "        "
