#!/usr/bin/env python3
"""Writes ROMs that bench/run.sh times, each with its certificate, and the input of a run: roms.py FOLDER.

Each ROM goes round for ever: six bytes, a mixed loop of loads, adds, calls, DJNZ and (IX+d) accesses, an LDIR fill, 16 KB of NOPs, and
16 KB of instructions at random that change registers only. In the input all that a reset leaves open, and all that a run takes from
outside, is 0."""
import random
import sys

STATE = ["af", "bc", "de", "hl", "ix", "iy", "af'", "bc'", "de'", "hl'"]


def row(proc, at, mode, fact="-", **pairs):
    """A row that knows these pairs, of AF BC DE HL IX IY and the other set."""
    known = " ".join(pairs.get(name, "*") for name in STATE)
    return f"row {proc} {at:04X} {mode} {known} - {fact} - -\n"


def word(value):
    """A pair of one value."""
    return f"{value:04X}-{value:04X}:{value >> 8:02X}-{value >> 8:02X}:{value & 255:02X}-{value & 255:02X}"


def certificate(rom, procs, rows):
    """The text of a certificate without interrupts."""
    return f"galcert 1\nrom {len(rom)}\nstack 4380 4400\nbudget -\n{procs}{''.join(rows)}end\n"


MAIN = "proc main 0000 0 0 -\n"


def six():
    """LD SP,4400; and a jump to itself."""
    rom = bytes.fromhex("310044C30300")
    return rom, certificate(rom, MAIN, [row(0, 0, "u"), row(0, 3, "s")])


def mixed():
    """LD SP,4400; LD IX,4000; LD B,0; then LD A,(IX+5); ADD A,3; LD (IX+5),A; LD HL,4010; ADD A,(HL); LD (HL),A; LD C,A; CALL 0020; DJNZ back;
    JR to LD B,0. At 0020: INC A; ADD A,B; RET."""
    rom = bytes.fromhex("310044DD2100400600DD7E05C603DD770521104086774FCD200010ED18E900003C80C9")
    ix, hl = word(0x4000), word(0x4010)
    rows = [row(0, 0, "u"), row(0, 3, "s")]
    rows += [row(0, at, "s", ix=ix) for at in (0x07, 0x09, 0x0C, 0x0E, 0x11)]
    rows += [row(0, at, "s", ix=ix, hl=hl) for at in (0x14, 0x15, 0x16, 0x17)]
    rows += [row(0, at, "s", ix=ix) for at in (0x1A, 0x1C)]
    kept = {name: f"*@{name.upper()}" for name in STATE[1:]}
    rows += [row(1, at, "s", **kept) for at in (0x20, 0x21, 0x22)]
    return rom, certificate(rom, "proc main 0000 1 2 -\nproc sub 0020 0 2 -\n", rows)


def fill():
    """LD SP,4400; LD HL,4000; LD DE,4001; LD BC,03FF; LD (HL),0; LDIR; JR to LD HL,4000."""
    rom = bytes.fromhex("31004421004011014001FF033600EDB018F1")
    hl, de, bc = word(0x4000), word(0x4001), word(0x03FF)
    rows = [
        row(0, 0x00, "u"), row(0, 0x03, "s"), row(0, 0x06, "s", hl=hl), row(0, 0x09, "s", hl=hl, de=de),
        row(0, 0x0C, "s", hl=hl, de=de, bc=bc),
        row(0, 0x0E, "s", "-17408+1*BC+1*DE", bc="0001-03FF:00-03:00-FF", de="4001-43FF:40-43:00-FF"),
        row(0, 0x10, "s"),
    ]
    return rom, certificate(rom, MAIN, rows)


def straight(instructions):
    """These instructions over and over in 16 KB, and a jump to 0000."""
    code, starts = b"", []
    for instruction in instructions:
        if len(code) + len(instruction) > 0x3FFD:
            break
        starts.append(len(code))
        code += instruction
    starts.append(len(code))
    rom = code + b"\xC3\0\0"
    return rom, certificate(rom, MAIN, [row(0, at, "u") for at in starts])


def nops():
    """NOPs."""
    return straight([b"\0"] * 0x4000)


def at_random():
    """Loads, increments and sums of registers at random, always the same."""
    numbers = random.Random(1)
    registers = [0, 1, 2, 3, 4, 5, 7]

    def one():
        to, by, byte = numbers.choice(registers), numbers.choice(registers), numbers.randrange(256)
        return numbers.choice([
            bytes([0x40 + 8 * to + by]), bytes([0x06 + 8 * to, byte]), bytes([0x04 + 8 * to]), bytes([0x05 + 8 * to]),
            bytes([0x80 + 8 * numbers.randrange(8) + by]), bytes([0xC6 + 8 * numbers.randrange(8), byte]),
            bytes([0x03 + 16 * numbers.randrange(3)]), bytes([0x0B + 16 * numbers.randrange(3)]), bytes([0x2F]),
            bytes([0xCB, 8 * numbers.choice([0, 1, 2, 3, 4, 5, 7]) + by]), bytes([0x01 + 16 * numbers.randrange(3), byte, to]),
        ])
    return straight([one() for _ in range(0x4000)])


ROMS = {"six": six, "mixed": mixed, "fill": fill, "nops": nops, "random": at_random}

folder = sys.argv[1]
for name, make in ROMS.items():
    rom, text = make()
    with open(f"{folder}/{name}.rom", "wb") as file:
        file.write(rom)
    with open(f"{folder}/{name}.cert", "w") as file:
        file.write(text)
with open(f"{folder}/input", "w") as file:
    file.write("reset 0 00\n4294967295 00 00 00 00 00 00 0\n")
