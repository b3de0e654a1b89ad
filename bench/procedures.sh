#!/bin/sh
# Times `check` over a full ROM: 16,384 bytes with some 600 procedures. The NMI routine calls a part of them, with loops.
#
# usage: bench/procedures.sh [PROGRAM [FOLDER]]        PROGRAM is ./galcert where none is named; the ROM and its annotations stay in FOLDER
#
# The ROM is made anew each time, always the same. It is checked five times; the least processor time and the greatest memory are told, and
# then those of `verify` over the certificate.
set -eu
cd "$(dirname "$0")/.."
exec python3 - "${1:-./galcert}" "${2:-}" <<'PYTHON'
import os
import random
import subprocess
import sys
import tempfile

PROGRAM, KEPT = os.path.abspath(sys.argv[1]), sys.argv[2]
PROCEDURES, TIMED, BRANCHES = 600, 90, 3
ROM_LEN = 16384
draw = random.Random(600)


def low_high(word):
    return [word % 256, word // 256]


def children(number, first, count):
    """The procedures that one of a tree of so many calls, its first being `first`."""
    at = number - first
    return [first + child for child in range(at * BRANCHES + 1, at * BRANCHES + BRANCHES + 1) if child < count]


def some_code(room):
    """Straight code of so many bytes at most: loads, arithmetic, stores to work RAM and to video RAM, and a jump over a part of it."""
    code = []
    while True:
        address = draw.choice([0x4000, 0x5000]) + draw.randrange(0x380)
        piece = draw.choice([
            [0x3A] + low_high(address),                                  # LD A,(nn)
            [0x32] + low_high(address),                                  # LD (nn),A
            [0x21] + low_high(address) + [0x7E],                         # LD HL,nn; LD A,(HL)
            [0x21] + low_high(address) + [0x34],                         # LD HL,nn; INC (HL)
            [0x3A, 0x00, 0x60, 0xE6, draw.randrange(1, 256)],            # LD A,(6000); AND n
            [0xC6, draw.randrange(256), 0x47],                           # ADD A,n; LD B,A
            [0xFE, draw.randrange(1, 256), 0x38, 0x01, 0x3C],            # CP n; JR C; INC A
            [0xB7, 0x28, 0x03, 0x32] + low_high(address),                # OR A; JR Z; LD (nn),A
        ])
        if len(code) + len(piece) > room:
            return code + [0x00] * (room - len(code))
        code += piece


def procedure(calls, loop, room):
    """A procedure of so many bytes: PUSH BC, the calls, perhaps a loop by DJNZ, other code, POP BC, RET. The loop's place is told."""
    code = [0xC5]
    for address in calls:
        code += [0xCD] + low_high(address)
    place = None
    if loop:
        code += [0x06, draw.randrange(3, 9)]
        place = len(code)
        code += [0x10, 0xFE]
    return code + some_code(room - len(code) - 2) + [0xC1, 0xC9], place


def rom_and_annotations():
    """Main calls a tree of procedures for ever; the NMI routine calls another one, of which every third has a loop."""
    main = [0x31, 0x00, 0x44, 0x3E, 0x01, 0x32, 0x01, 0x70, 0xCD, 0, 0, 0x18, 0xFB]
    nmi = [0xF5, 0xC5, 0xD5, 0xE5, 0xAF, 0x32, 0x01, 0x70, 0xCD, 0, 0, 0x3E, 0x01, 0x32, 0x01, 0x70, 0xE1, 0xD1, 0xC1, 0xF1, 0xED, 0x45]
    begin = 0x66 + len(nmi)
    room = (ROM_LEN - begin) // PROCEDURES
    entry = [begin + room * number for number in range(PROCEDURES)]
    main[9:11] = low_high(entry[0])
    nmi[9:11] = low_high(entry[PROCEDURES - TIMED])
    rom, loops = main + [0] * (0x66 - len(main)) + nmi, []
    for number in range(PROCEDURES):
        timed = number >= PROCEDURES - TIMED
        first, count = (PROCEDURES - TIMED, TIMED) if timed else (0, PROCEDURES - TIMED)
        calls = [entry[child] for child in children(number, first, count)]
        code, place = procedure(calls, timed and number % 3 == 0, room)
        if place is not None:
            loops.append(entry[number] + place)
        rom += code
    said = "low = 0x4380\ntop = 0x4400\nnmi = true\nbudget = 50665\n"
    said += "".join(f'[[loop]]\nat = 0x{place:04X}\ncounter = "B"\n' for place in loops)
    return bytes(rom + [0] * (ROM_LEN - len(rom))), said


def run(*words):
    """The least processor time in seconds of five runs, the greatest memory in MB and the last answer."""
    times, most = [], 0
    for _ in range(5):
        with tempfile.TemporaryFile() as answer:
            child = subprocess.Popen([PROGRAM, *words], stdout=answer, stderr=subprocess.STDOUT)
            _, status, used = os.wait4(child.pid, 0)
            child.returncode = os.waitstatus_to_exitcode(status)
            answer.seek(0)
            text = answer.read().decode()
        times.append(used.ru_utime + used.ru_stime)
        most = max(most, used.ru_maxrss / 1024)
    return min(times), most, text


with tempfile.TemporaryDirectory() as folder:
    folder = KEPT or folder
    rom, said = rom_and_annotations()
    names = [os.path.join(folder, name) for name in ("full.rom", "full.toml", "full.cert")]
    open(names[0], "wb").write(rom)
    open(names[1], "w").write(said)
    seconds, most, text = run("check", names[0], names[1], "--cert", names[2])
    lines = text.splitlines()
    print(f"check: {seconds:.2f} s, {most:.0f} MB; {lines[0]}, {sum(line.startswith('sub') for line in lines)} procedures, {lines[-1]}")
    if lines[0] == "accepted":
        rows = sum(line.startswith("row") for line in open(names[2]))
        seconds, most, text = run("verify", names[0], names[2])
        print(f"verify: {seconds:.2f} s, {most:.0f} MB; {rows} rows")
PYTHON
