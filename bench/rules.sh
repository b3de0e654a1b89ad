#!/bin/sh
# Times how the program judges certificates by the rules, and how much memory it takes for that.
#
# usage: bench/rules.sh [PROGRAM]        PROGRAM is ./galcert where none is named
#
# It makes ROMs with certificates that are accepted: straight-line code of 65,529 rows in procedures with a time, and of half as many;
# 10,000 calls of 1,022 procedures; 65,535 rows at two addresses, where the row that covers is the last one; and certificates that are made to take
# long, where 5 s are the aim (docs/CHECKER.md, "How long judging takes"): 2,700 calls of a procedure of 8,200 exits that leave the same, without times and
# with them; 32,000 rows at a call of a procedure with as many exits, each of which leaves something else, likewise; as many rows at a call of a procedure
# of as many rows without an exit; 65,535 rows at two addresses, with pairs and shapes, where each is covered by another: in order, and at random; 65,024
# rows at one DJNZ at random; 32,000 rows that pay to as many; and 65,000 rows where states are told apart: by a row that covers all, and by 256 rows at
# random. Four more are made at four sizes each, of which twice the size should take at most three times as long: calls of a procedure of as many exits that
# come back to a split, to rows that cover once facts have tightened the state; rows with facts and flag parts that come to a split, to 256 rows that cover a
# value each; rows that come to rows which cover once tightened; and the same with flag parts at a split. Each is handed to `PROGRAM verify` up to three times, and as often for a ROM of another length, which is refused at once: what is told are the
# least processor time and the greatest memory beyond those of reading.
set -eu
cd "$(dirname "$0")/.."
exec python3 - "${1:-./galcert}" <<'PYTHON'
import os
import random
import subprocess
import sys
import tempfile

PROGRAM = os.path.abspath(sys.argv[1])
ANY = "* " * 10
OWN = "*@AF *@BC *@DE *@HL *@IX *@IY *@AF' *@BC' *@DE' *@HL' "


def text(rom, procs, rows, splits=()):
    """A certificate of version 1 without an NMI routine."""
    head = f"galcert 1\nrom {len(rom)}\nstack 4380 4400\nbudget -\n"
    lists = (("proc", procs), ("split", splits), ("row", rows))
    return head + "".join(f"{name} {line}\n" for name, lines in lists for line in lines) + "end\n"


def word(value):
    return bytes([value % 256, value // 256])


def straight(nops):
    """Main is a loop; four procedures of one code, each entered at another of its NOPs."""
    rom = b"\x18\xFE" + bytes(nops) + b"\xC9"
    time = 4 * nops + 10
    procs = ["main 0000 1 0 -"] + [f"sub {2 + i:04X} 0 2 {time}" for i in range(4)]
    rows = [f"0 0000 u {ANY}- - - -"]
    for proc in range(1, 5):
        rows += [f"{proc} {2 + at:04X} s *@AF 0{proc}00-08FF:0{proc}-08:00-FF *@DE *@HL *@IX *@IY * * * * zB - - {time - 4 * at}"
                 for at in range(nops + 1)]
    return rom, text(rom, procs, rows)


def calls(places, callees):
    """Half of the calls in main, and once more in a procedure of the same code; each callee is one RET."""
    first = 3 + 3 * places // 2 + 3
    rom = b"\x31\x00\x44"
    rom += b"".join(b"\xCD" + word(first + i % callees) for i in range(places // 2))
    rom += b"\xC3\x03\x00" + b"\xC9" * callees
    procs = ["main 0000 2 4 -", "sub 0003 1 4 -"] + [f"sub {first + i:04X} 0 2 -" for i in range(callees)]
    rows = [f"0 0000 u {ANY}- - - -"]
    for proc in range(2):
        rows += [f"{proc} {3 + 3 * i:04X} s {ANY}- - - -" for i in range(places // 2 + 1)]
    rows += [f"{2 + i} {first + i:04X} s {OWN}- - - -" for i in range(callees)]
    return rom, text(rom, procs, rows)


# NOP and a jump back: the two addresses of the rows.
TWO = b"\x00\xC3\x00\x00"


def many_last(count):
    """Each row at 0000 leads to rows of which the last alone covers."""
    half = count // 2
    rows = [f"0 0000 u {ANY}- - - -"]
    rows += [f"0 0000 u * * {number:04X}-FFFF:00-FF:00-FF * * * * * * * - - - -" for number in range(1, half)]
    rows += [f"0 0001 s * * {number:04X}-FFFF:00-FF:00-FF * * * * * * * - - - -" for number in range(1, count - half)]
    rows += [f"0 0001 u {ANY}- - - -"]
    return TWO, text(TWO, ["main 0000 0 0 -"], rows)


def many_each(count, at_random):
    """Each row leads to rows of which another one alone covers, by the word in DE: the later a row stands, the earlier that, or at random."""
    half = (count - 2) // 2
    known = [f"{number:04X}-{number:04X}:{number // 256:02X}-{number // 256:02X}:{number % 256:02X}-{number % 256:02X}"
             for number in range(half)]
    if at_random:
        random.Random(1).shuffle(known)
    rows = [f"0 0000 u {ANY}- - - -"]
    rows += [f"0 0000 s * * {pair} * * * * * * * - - *@BC,{pair} -" for pair in known]
    rows += [f"0 0001 u {ANY}- - - -"]
    if at_random:
        random.Random(2).shuffle(known)
    rows += [f"0 0001 s * * {pair} * * * * * * * - - *@BC,{pair} -" for pair in reversed(known)]
    return TWO, text(TWO, ["main 0000 0 4 -"], rows)


def exits(places, count, timed):
    """Calls, one behind another, of a procedure that is made of RET NZ."""
    first = 2 + 3 * places + 1
    rom = b"\x18\xFE" + (b"\xCD" + word(first)) * places + b"\xC9" + b"\xC0" * count + b"\xC9"
    took = 5 * count + 10
    whole = places * (17 + took) + 10
    times = (str(whole), str(took)) if timed else ("-", "-")
    procs = ["main 0000 2 0 -", f"sub 0002 1 4 {times[0]}", f"sub {first:04X} 0 2 {times[1]}"]
    rows = [f"0 0000 u {ANY}- - - -"]
    rows += [f"1 {2 + 3 * i:04X} s {OWN}- - - {whole - i * (17 + took) if timed else '-'}" for i in range(places + 1)]
    rows += [f"2 {first + i:04X} s {OWN}- - - {took - 5 * i if timed else '-'}" for i in range(count + 1)]
    return rom, text(rom, procs, rows)


def one(number):
    """A pair that holds one word."""
    return f"{number:04X}-{number:04X}:{number // 256:02X}-{number // 256:02X}:{number % 256:02X}-{number % 256:02X}"


def shuffled(things, seed):
    things = list(things)
    random.Random(seed).shuffle(things)
    return things


def different_exits(count, timed):
    """So many rows at one call, told apart by DE, of a procedure with as many exits, told apart by BC."""
    rom = b"\x18\xFE\xCD\x0A\x00\xC9\x00\x00\x00\x00\x00\xC9"
    time = (lambda number: number) if timed else (lambda _: "-")
    procs = ["main 0000 2 0 -", f"sub 0002 1 4 {time(41)}", f"sub 000A 0 2 {time(14)}"]
    rows = [f"0 0000 u {ANY}- - - -"]
    rows += [f"1 0002 s * * {one(number)} {'* ' * 7}- - - {time(41)}" for number in range(count)]
    rows += [f"1 0005 s {ANY}- - - {time(10)}", f"2 000A s {ANY}- - - {time(14)}", f"2 000B s {ANY}- - - {time(10)}"]
    rows += [f"2 000B s * {one(number)} {'* ' * 8}- - - {time(10)}" for number in shuffled(range(count), 3)]
    return rom, text(rom, procs, rows)


def endless(count):
    """So many rows at one call of a procedure of as many rows that never ends."""
    rom = b"\x18\xFE\xCD\x0A\x00\xC9\x00\x00\x00\x00\x18\xFE"
    rows = [f"0 0000 u {ANY}- - - -"]
    rows += [f"1 0002 s * * {one(number)} {'* ' * 7}- - - -" for number in range(count)]
    rows += [f"2 000A s {ANY}- - - -"] * count
    return rom, text(rom, ["main 0000 2 0 -", "sub 0002 1 4 -", "sub 000A 0 2 -"], rows)


def djnz(each):
    """Rows at one DJNZ, at random: 256 values of B with each of so many of DE."""
    rows = [f"0 0000 u {ANY}- - - -"]
    rows += [f"0 0000 s * {b:02X}00-{b:02X}FF:{b:02X}-{b:02X}:00-FF {one(de)} {'* ' * 7}- - * -"
             for b, de in shuffled([(b, de) for b in range(256) for de in range(each)], 7)]
    rows += [f"0 0002 u {ANY}- - - -", f"0 0002 s {ANY}- - * -"]
    return b"\x10\xFE\x18\xFE", text(b"\x10\xFE\x18\xFE", ["main 0000 0 2 -"], rows)


def all_meet(count):
    """So many rows of a timed procedure at a NOP, each of which meets each of as many at a RET."""
    rows = [f"0 0000 u {ANY}- - - -"]
    rows += [f"1 0002 s {ANY}- - - 90000000"] * count
    rows += [f"1 0003 s {ANY}- - - {10 + number}" for number in range(count)]
    return b"\x18\xFE\x00\xC9", text(b"\x18\xFE\x00\xC9", ["main 0000 2 0 -", "sub 0002 1 4 100000000"], rows)


def told_apart(count, by_one):
    """Rows that lead to an address where states are told apart by B: to rows that cover each value, or to 256 rows among others at random."""
    rows = [f"0 0000 u {ANY}- - - -"]
    if by_one:
        rows += [f"0 0000 s * * {one(number)} {'* ' * 7}- - - -" for number in range(count // 2)]
        rows += [f"0 0001 u {ANY}- - - -"]
        rows += [f"0 0001 s * * {one(number)} {'* ' * 7}- - - -" for number in range(count // 2)]
        return TWO, text(TWO, ["main 0000 0 0 -"], rows, ["0 0000 B", "0 0001 B"])
    values = [f"{b:02X}00-{b:02X}FF:{b:02X}-{b:02X}:00-FF" for b in range(256)]
    rows += [f"0 0000 s {ANY}- - - -"] * (count // 2)
    rows += shuffled([f"0 0001 u * {value} {'* ' * 8}- - - -" for value in values]
                     + [f"0 0001 u * {value} {one(number)} {'* ' * 7}- - - -" for number in range(count // 512) for value in values], 4)
    return b"\x00\x18\xFE", text(b"\x00\x18\xFE", ["main 0000 0 0 -"], rows, ["0 0001 B"])


def two(number):
    """A pair that holds one of two words: 2 * number, and the next."""
    low, high = 2 * number, 2 * number + 1
    return f"{low:04X}-{high:04X}:{low // 256:02X}-{high // 256:02X}:{low % 256:02X}-{high % 256:02X}"


def text3(rom, procs, rows, splits):
    """A certificate of version 3 without an NMI routine and without cells. The rows are written without their number of cells."""
    def with_cells(row):
        fields = row.split(" ")
        return " ".join(fields[:3] + ["0"] + fields[3:])

    head = f"galcert 3\nrom {len(rom)}\nmap galaxian\nstack 4380 4400\nbudget -\n"
    lists = (("proc", procs), ("split", splits), ("row", [with_cells(row) for row in rows]))
    return head + "".join(f"{name} {line}\n" for name, lines in lists for line in lines) + "end\n"


PARTS = ",".join(["z0+1*A-1*B+1*C", "s-5+1*D-1*E+1*H", "c7-1*A-1*D+1*L", "b100+1*A-1*B-1*C"] * 2)
FACTS = "0+1*A-1*D+1*E,0+1*D-1*E+1*H,0+1*A-1*E+1*L,0+1*D+1*H-1*L"


def call_splits(count):
    """So many rows at one call of a procedure of as many different exits, back at a split, to rows that cover once facts tightened the state."""
    rom = b"\x18\xFE\xCD\x0A\x00\x18\xFE\x00\x00\x00\x00\xC9"
    facts = "0+1*DE-1*HL,0+1*D-1*H,0+1*E-1*L"
    own = OWN.split(" ")
    rows = [f"0 0000 u {ANY}- - - -"]
    rows += [f"1 0002 s * * * {two(i)} {'* ' * 6}- {facts} - -" for i in shuffled(range(count), 1)]
    rows += [f"1 0005 s * * {two(i)} {two(i)} {'* ' * 6}- {facts} - -" for i in shuffled(range(count), 2)]
    rows += [f"2 000A s {OWN}- - - -", f"2 000B s {OWN}- - - -"]
    rows += [f"2 000B s {own[0]} {one(i)} {' '.join(own[2:-1])} - - - -" for i in range(count)]
    return rom, text3(rom, ["main 0000 2 0 -", "sub 0002 1 4 -", "sub 000A 0 2 -"], rows, ["1 0005 A"])


def part_rows(count):
    """So many rows with facts and flag parts that come to a split, where 256 rows with the same ones cover a value each."""
    rom = b"\x18\xFE\x00\x18\xFD"
    rows = [f"0 0000 u {ANY}- - - -"] + [f"1 0002 s {ANY}{PARTS} {FACTS} - -"] * count
    rows += [f"1 0003 s * {b:02X}00-{b:02X}FF:{b:02X}-{b:02X}:00-FF {'* ' * 8}{PARTS} {FACTS} - -" for b in shuffled(range(256), 4)]
    return rom, text3(rom, ["main 0000 1 0 -", "sub 0002 0 2 -"], rows, ["1 0003 B"])


def tightened(count, parts, facts):
    """So many rows that come to as many at a split, each of which covers once its facts have tightened DE."""
    rom = b"\x18\xFE\x00\x18\xFE"
    rows = [f"0 0000 u {ANY}- - - -"]
    rows += [f"1 0002 s * * * {two(i)} {'* ' * 6}{parts} {facts} - -" for i in shuffled(range(count), 1)]
    rows += [f"1 0003 s * * {two(i)} {two(i)} {'* ' * 6}{parts} {facts} - -" for i in shuffled(range(count), 2)]
    return rom, text3(rom, ["main 0000 1 0 -", "sub 0002 0 2 -"], rows, ["1 0003 B"])


def tell_sizes(folder, what, made, count):
    """The same at four sizes: a half of `count`, `count`, and two and four times as many."""
    for size in (count // 2, count, 2 * count, 4 * count):
        tell(folder, f"{what}, {size}", lambda: made(size))


def run(rom, cert):
    """The processor time in seconds, the greatest memory in KB and the first line of the answer of one run."""
    child = subprocess.Popen([PROGRAM, "verify", rom, cert], stdout=subprocess.PIPE, stderr=subprocess.STDOUT)
    out = child.stdout.read().decode()
    _, _, usage = os.wait4(child.pid, 0)
    child.returncode = 0
    return usage.ru_utime + usage.ru_stime, usage.ru_maxrss, out.split("\n")[0]


def write(made, paths):
    """Writes a ROM, its certificate and another ROM, in a process of its own, since what a child begins with counts as its memory."""
    child = os.fork()
    if child == 0:
        rom, cert = made()
        for path, content in zip(paths, (rom, cert.encode(), b"\x00")):
            with open(path, "wb") as file:
                file.write(content)
        os._exit(0)
    if os.waitpid(child, 0)[1] != 0:
        sys.exit("no files were made")


def tell(folder, what, made, times=3):
    """The processor time that the rules take, in seconds."""
    paths = [os.path.join(folder, name) for name in ("rom", "cert", "other")]
    write(made, paths)
    read = min(run(paths[2], paths[1]) for _ in range(times))
    runs = [run(paths[0], paths[1]) for _ in range(times)]
    seconds, memory = min(runs)[0] - read[0], max(r[1] for r in runs) - read[1]
    print(f"{what:48} {seconds:7.3f} s {memory:8} KB   {runs[0][2]}", flush=True)
    return seconds


with tempfile.TemporaryDirectory() as folder:
    tell(folder, "one row", lambda: (b"\x18\xFE", text(b"\x18\xFE", ["main 0000 0 0 -"], [f"0 0000 u {ANY}- - - -"])))
    half = tell(folder, "32,765 rows of straight-line code", lambda: straight(8190))
    whole = tell(folder, "65,529 rows of straight-line code", lambda: straight(16381))
    print(f"twice the rows: {whole / half:.2f} times as long")
    tell(folder, "10,000 calls of 1,022 procedures", lambda: calls(10000, 1022))
    tell(folder, "65,535 rows at two addresses, the last covers", lambda: many_last(65535))
    tell(folder, "2,700 calls of a procedure of 8,200 exits", lambda: exits(2700, 8200, False))
    tell(folder, "the same with times", lambda: exits(2700, 8200, True))
    tell(folder, "32,000 calls of one of 32,000 different exits", lambda: different_exits(32000, False))
    tell(folder, "the same with times", lambda: different_exits(32000, True))
    tell(folder, "32,000 calls of one of 32,000 rows that never ends", lambda: endless(32000))
    tell(folder, "65,535 rows at two addresses, each covers once", lambda: many_each(65535, False))
    tell(folder, "8,192 rows of these at random", lambda: many_each(8192, True))
    tell(folder, "65,535 rows of these at random", lambda: many_each(65535, True))
    tell(folder, "65,024 rows at one DJNZ at random", lambda: djnz(254))
    tell(folder, "32,000 rows that pay to 32,000", lambda: all_meet(32000))
    tell(folder, "65,000 rows where B is told apart, one covers", lambda: told_apart(65000, True))
    tell(folder, "the same, 256 rows at random cover", lambda: told_apart(65000, False), 1)
    tell_sizes(folder, "calls times exits at a split", call_splits, 105)
    tell_sizes(folder, "rows with claims, 256 cover a value each", part_rows, 1000)
    tell_sizes(folder, "rows that cover once tightened", lambda count: tightened(count, "-", "0+1*DE-1*HL"), 200)
    facts = "0+1*DE-1*HL,0+1*A-1*E+1*L,0+1*A-1*B+1*C"
    tell_sizes(folder, "the same with flag parts", lambda count: tightened(count, PARTS, facts), 60)
PYTHON
