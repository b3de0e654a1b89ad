#!/bin/sh
# Times what is shown of accepted certificates with many rows, and how much memory it takes.
#
# usage: bench/ways.sh [PROGRAM [ROWS]..]      PROGRAM is ./galcert where none is named; ROWS are 4000 16000 65000
#
# It makes ROMs with certificates that are accepted, of about so many rows: an NMI routine of two addresses where each row meets each; procedures where
# each meets every other one, and where each meets one; calls of a procedure with many exits, each at its address or all at one; a loop of rows that lead
# to one another; straight-line code; and rows told apart at each address. `PROGRAM verify`, `longest`, `longest --rows`, `list` and `report` are each run
# once. What is told are the processor time and the greatest memory of each, and the first item of the way (docs/LONGEST.md).
set -eu
cd "$(dirname "$0")/.."
program=${1:-./galcert}
[ $# -gt 0 ] && shift
exec python3 - "$program" "${@:-4000 16000 65000}" <<'PYTHON'
import os
import random
import subprocess
import sys
import tempfile

PROGRAM = os.path.abspath(sys.argv[1])
SIZES = [int(word) for words in sys.argv[2:] for word in words.split()]
ANY = "* " * 10
OWN = "*@AF *@BC *@DE *@HL *@IX *@IY *@AF' *@BC' *@DE' *@HL' "
COMMANDS = (["verify"], ["longest"], ["longest", "--rows"], ["list"], ["report"])


def text(rom, procs, rows, budget="-"):
    """A certificate of version 1."""
    head = f"galcert 1\nrom {len(rom)}\nstack 4380 4400\nbudget {budget}\n"
    return head + "".join(f"proc {line}\n" for line in procs) + "".join(f"row {line}\n" for line in rows) + "end\n"


def word(value):
    return bytes([value % 256, value // 256])


def one(number):
    """A pair that holds one word."""
    return f"{number:04X}-{number:04X}:{number // 256:02X}-{number // 256:02X}:{number % 256:02X}-{number % 256:02X}"


def shuffled(things):
    things = list(things)
    random.Random(1).shuffle(things)
    return things


# The row of main, which jumps to itself; and a ROM with such a main, up to the NMI routine.
MAIN = f"0 0000 u {ANY}- - - -"
ROM = b"\x18\xFE".ljust(0x66, b"\0")


def routine(code, time, rows):
    """A ROM and a certificate with an NMI routine."""
    procs = ["main 0000 0 0 -", f"nmi 0066 0 2 {time + 11}"]
    return ROM + code, text(ROM + code, procs, [MAIN, *rows], "50665")


def each_meets_each(count):
    half = count // 2
    rows = [f"1 0066 n {OWN}- - - 50000"] * half + [f"1 0067 n {OWN}- - - {14 + i}" for i in range(half)]
    return routine(b"\x00\xED\x45", 50000, rows)


def every_other(count):
    """Rows at a NOP where A is below 128, and rows at the RET with any A, each before one where A is from 128 on."""
    half = count // 2
    rows = [f"1 0002 s 0000-7FFF:00-7F:00-FF {'* ' * 9}- - - 14"] * half
    rows += [f"1 0003 s {('*', '8000-FFFF:80-FF:00-FF')[i % 2]} {'* ' * 9}- - - 10" for i in range(half)]
    rom = b"\x18\xFE\x00\xC9"
    return rom, text(rom, ["main 0000 2 0 -", "sub 0002 1 4 14"], [MAIN, *rows])


def each_meets_one(count):
    half = count // 2
    rows = [f"1 0002 s * * {one(i)} {'* ' * 7}- - - 14" for i in range(half)]
    rows += [f"1 0003 s * * {one(i)} {'* ' * 7}- - - 10" for i in shuffled(range(half))]
    rom = b"\x18\xFE\x00\xC9"
    return rom, text(rom, ["main 0000 2 0 -", "sub 0002 1 4 14"], [MAIN, *rows])


def exits(count):
    """Calls, one behind another, of a procedure that is made of RET NZ."""
    places = min(count // 4, 2700)
    count = min(count - places, 8200)
    first = 2 + 3 * places + 1
    rom = b"\x18\xFE" + (b"\xCD" + word(first)) * places + b"\xC9" + b"\xC0" * count + b"\xC9"
    took = 5 * count + 10
    whole = places * (17 + took) + 10
    rows = [f"1 {2 + 3 * i:04X} s {OWN}- - - {whole - i * (17 + took)}" for i in range(places + 1)]
    rows += [f"2 {first + i:04X} s {OWN}- - - {took - 5 * i}" for i in range(count + 1)]
    return rom, text(rom, ["main 0000 2 0 -", f"sub 0002 1 4 {whole}", f"sub {first:04X} 0 2 {took}"], [MAIN, *rows])


def exits_at_one(count):
    """A third of the rows at a call, a third at the return of its callee, and a third after the call."""
    third = count // 3
    rows = [f"1 0002 s {ANY}- - - 41"] * third + [f"1 0005 s {ANY}- - - 10"] * third + [f"2 000A s {ANY}- - - 14"]
    rows += [f"2 000B s {ANY}- - - 10"] * third
    rom = b"\x18\xFE\xCD\x0A\x00\xC9\x00\x00\x00\x00\x00\xC9"
    return rom, text(rom, ["main 0000 2 0 -", "sub 0002 1 4 41", "sub 000A 0 2 14"], [MAIN, *rows])


def one_loop(count):
    """LD B,8, rows at a NOP, and one row at the DJNZ to it."""
    b = "0100-08FF:01-08:00-FF"
    rows = [f"1 0002 s {ANY}- - - 148"] + [f"1 0004 s * {b} {'* ' * 8}- - - 5+17*B"] * (count - 3)
    rows += [f"1 0005 s * {b} {'* ' * 8}- - - 1+17*B", f"1 0007 s {ANY}- - - 10"]
    rom = b"\x18\xFE\x06\x08\x00\x10\xFD\xC9"
    return rom, text(rom, ["main 0000 2 0 -", "sub 0002 1 4 148"], [MAIN, *rows])


def straight(count):
    """Four procedures of one code, each entered at another of its NOPs."""
    nops = min(count // 4, 16381)
    rom = b"\x18\xFE" + bytes(nops) + b"\xC9"
    time = 4 * nops + 10
    rows = [f"{proc} {2 + at:04X} s {OWN}- - - {time - 4 * at}" for proc in range(1, 5) for at in range(nops + 1) if at >= proc - 1]
    procs = ["main 0000 1 0 -"] + [f"sub {2 + i:04X} 0 2 {time - 4 * i}" for i in range(4)]
    return rom, text(rom, procs, [MAIN, *rows])


def told_apart(count):
    """Four rows at each of many addresses, told apart by what they know of A and HL."""
    each = min(count // 4, 16380)
    rom = b"\x7D" * each + b"\x18\xFE"
    rows = [f"0 {at:04X} u * * * {pair} {'* ' * 6}- - - -" for at in range(each + 1) for pair in ("*", *(one(256 * at % 65536 + i) for i in range(3)))]
    return rom, text(rom, ["main 0000 0 0 -"], rows)


def run(words):
    """The processor time in seconds, the greatest memory in KB and the output of one run."""
    with tempfile.TemporaryFile() as out:
        child = subprocess.Popen(words, stdout=out, stderr=subprocess.STDOUT)
        _, _, usage = os.wait4(child.pid, 0)
        child.returncode = 0
        out.seek(0)
        return usage.ru_utime + usage.ru_stime, usage.ru_maxrss, out.read(2000).decode("utf8", "replace")


def write(made, count, paths):
    """Writes a ROM and its certificate, in a process of its own, since what a child begins with counts as its memory."""
    child = os.fork()
    if child == 0:
        rom, cert = made(count)
        for path, content in zip(paths, (rom, cert.encode())):
            with open(path, "wb") as file:
                file.write(content)
        os._exit(0)
    if os.waitpid(child, 0)[1] != 0:
        sys.exit("no files were made")


SHAPES = (
    ("each row meets each", each_meets_each, []),
    ("each row meets every other one", every_other, ["0002"]),
    ("each row meets one", each_meets_one, ["0002"]),
    ("calls of a procedure of many exits", exits, ["0002"]),
    ("rows at a call, of as many exits", exits_at_one, ["0002"]),
    ("rows of one loop", one_loop, ["0002"]),
    ("straight-line code", straight, ["0002"]),
    ("rows told apart at each address", told_apart, ["main"]),
)
with tempfile.TemporaryDirectory() as folder:
    paths = [os.path.join(folder, name) for name in ("rom", "cert")]
    for what, made, entry in SHAPES:
        for count in SIZES:
            write(made, count, paths)
            print(f"{what}, {count} rows", flush=True)
            for command in COMMANDS:
                words = [PROGRAM, command[0], *paths, *(entry if command[0] == "longest" else []), *command[1:]]
                seconds, memory, out = run(words)
                lines = [line for line in out.split("\n") if line.strip()]
                told = " ".join((lines[0] if command[0] != "longest" or len(lines) < 3 else lines[2]).split())
                print(f"  {' '.join(command):16} {seconds:8.2f} s {memory:8} KB   {told[:70]}", flush=True)
PYTHON
