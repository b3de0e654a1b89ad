#!/usr/bin/env python3
"""Writes a program that executes nearly all documented codes, over and over: all_codes.py ROM ANNOT

Each block of the program loads registers and flags from 4010 to 4017, executes an instruction, and calls `save`, which
folds what came out into these eight bytes. So each block begins with other values, and one wrong flag changes all that
follows. The address of `save` is printed, in hexadecimal: a comparison there is one after each block.

Left out are HALT and RST 0, which halt.asm and restart.asm have; what galcert refuses: the instructions of input and
output, and every write of SP but LD SP,4400; and nothing else."""

import pathlib
import sys

FROM, OUT, CELLS, TOP = 0x4010, 0x4020, 0x4140, 0x4400  # the values, what came out, cells to work on, the stack's top
FIRST = 0x0076  # the first address after those of RST and of the NMI
INC_C, INC_D, RET = 0x0C, 0x14, 0xC9

# Opcodes that need no operand, and whose registers may have any value.
PLAIN = [
    0x00, 0x07, 0x0F, 0x17, 0x1F, 0x27, 0x2F, 0x37, 0x3F, 0x08, 0xD9, 0xEB, 0xF3, 0xFB,
    0x03, 0x0B, 0x13, 0x1B, 0x23, 0x2B, 0x09, 0x19, 0x29, 0x39,
]
BLOCKS = [0xA0, 0xA1, 0xA8, 0xA9, 0xB0, 0xB1, 0xB8, 0xB9]


def word(number):
    return [number & 0xFF, number >> 8]


LD_HL = [0x21, *word(CELLS)]


class Program:
    """Bytes from 0000 on, and the annotations that they need."""

    def __init__(self):
        self.rom = bytearray(b"\xFF" * 0x4000)
        self.end = FIRST
        self.facts = []
        for number in range(1, 8):
            self.rom[8 * number:8 * number + 2] = bytes([INC_D if number % 2 else INC_C, RET])
        self.load = self.procedure(
            0x2A, *word(FROM + 6), 0xE5, 0xF1,                                      # AF by PUSH HL and POP AF
            0xED, 0x4B, *word(FROM), 0xED, 0x5B, *word(FROM + 2), 0x2A, *word(FROM + 4),  # BC, DE, HL
        )
        self.save = self.procedure(
            0xF5, 0x22, *word(OUT + 4), 0xED, 0x43, *word(OUT), 0xED, 0x53, *word(OUT + 2), 0xE1, 0x22, *word(OUT + 6),
            *(byte for number in range(4) for byte in self.folded(number)),
        )
        self.returns = {opcodes: self.procedure(*opcodes, ret=False) for opcodes in [(0xED, 0x4D), (0xED, 0x45)]}
        for condition in range(8):
            opcodes = (0xC0 + 8 * condition, INC_D)
            self.returns[opcodes] = self.procedure(*opcodes)
        self.returns[(RET,)] = self.procedure()

    def put(self, *code):
        self.rom[self.end:self.end + len(code)] = bytes(code)
        self.end += len(code)

    def procedure(self, *code, ret=True):
        at = self.end
        self.put(*code, *([RET] if ret else []))
        return at

    @staticmethod
    def folded(number):
        """word = (5 * word + what came out + a constant) XOR the word before it"""
        at, before = FROM + 2 * number, FROM + 2 * ((number + 3) % 4)
        return [
            0x2A, *word(at), 0x54, 0x5D, 0x29, 0x29, 0x19, 0xED, 0x5B, *word(OUT + 2 * number), 0x19,
            0x11, *word(0x3711 + 0x1234 * number), 0x19, 0xED, 0x5B, *word(before), 0x7A, 0xAC, 0x67, 0x7B, 0xAD, 0x6F,
            0x22, *word(at),
        ]

    def block(self, *instruction, before=(), after=()):
        """Loads, executes `before`, the instruction and `after`, and saves."""
        self.put(0xCD, *word(self.load), *before)
        self.put(*instruction, *after, 0xCD, *word(self.save))

    def block_of_turns(self, opcode, turns):
        """A block instruction, from CELLS + 10 to CELLS + 20, with so many turns for a repeating one."""
        self.put(0xCD, *word(self.load), *[0x21, *word(CELLS + 0x10), 0x11, *word(CELLS + 0x20), 0x01, *word(turns)])
        for repeating, sign in ((0xB0, 1), (0xB8, -1)):
            if opcode == repeating and turns > 2:
                sum_is = CELLS + 0x20 + sign * turns
                self.facts.append(f'{{ at = {self.end}, sum = [["DE", 1], ["BC", {sign}]], is = {sum_is} }}')
        self.put(0xED, opcode, 0xCD, *word(self.save))

    def jump_block(self, *opcode):
        """A jump to the instruction after the next."""
        self.put(0xCD, *word(self.load))
        self.put(*opcode, *word(self.end + len(opcode) + 3), INC_D, 0xCD, *word(self.save))

    def jump_to_block(self, *prefix):
        """JP (HL), JP (IX) or JP (IY), to the instruction after the next."""
        self.put(0xCD, *word(self.load))
        self.put(*prefix, 0x21, *word(self.end + 2 * len(prefix) + 5), *prefix, 0xE9, INC_C, 0xCD, *word(self.save))


def unprefixed(program):
    for opcode in range(0x40, 0xC0):
        uses_hl = opcode & 7 == 6 or opcode & 0xF8 == 0x70
        if opcode != 0x76:
            program.block(opcode, before=LD_HL if uses_hl else [])
    for register in range(8):
        before = LD_HL if register == 6 else []
        program.block(0x04 + 8 * register, before=before)
        program.block(0x05 + 8 * register, before=before)
        program.block(0x06 + 8 * register, 0x35 * register + 7 & 0xFF, before=before)
        program.block(0xC6 + 8 * register, 0x5B * register + 0x13 & 0xFF)
    for opcode in PLAIN:
        program.block(opcode)
    for before in (0x80, 0x90, 0x88):
        program.block(0x27, before=[before])  # DAA after ADD, SUB and ADC
    for opcode, number in ((0x01, 0x1234), (0x11, 0x4567), (0x21, 0x89AB)):
        program.block(opcode, *word(number))
    for load_pair, cell, opcodes in ((0x01, 1, (0x02, 0x0A)), (0x11, 2, (0x12, 0x1A))):
        for opcode in opcodes:
            program.block(opcode, before=[load_pair, *word(CELLS + cell)])
    for opcode, cell in ((0x32, 3), (0x3A, 3), (0x22, 4), (0x2A, 4)):
        program.block(opcode, *word(CELLS + cell))
    for pair in range(4):  # PUSH of each pair, and POP of the next
        program.block(0xC5 + 16 * pair, 0xC1 + 16 * ((pair + 1) % 4))
    program.block(0xE3, before=[0xD5], after=[0xD1])  # EX (SP),HL


def jumps(program):
    program.block(0x10, 0xFE, before=[0x06, 3])  # DJNZ to itself
    program.block(0x10, 0x01, INC_C)
    program.block(0x18, 0x01, INC_C)
    program.jump_block(0xC3)
    for condition in range(4):
        program.block(0x20 + 8 * condition, 0x01, INC_D)
    for condition in range(8):
        program.jump_block(0xC2 + 8 * condition)
        program.block(0xC4 + 8 * condition, *word(program.returns[RET,]))
    for prefix in ([], [0xDD], [0xFD]):
        program.jump_to_block(*prefix)
    for at in program.returns.values():
        program.block(0xCD, *word(at))
    for number in range(1, 8):
        program.block(0xC7 + 8 * number)


def prefixed(program):
    for opcode in range(256):
        if opcode >> 3 != 6:
            program.block(0xCB, opcode, before=LD_HL if opcode & 7 == 6 else [])
    for pair in range(4):
        program.block(0xED, 0x42 + 16 * pair)
        program.block(0xED, 0x4A + 16 * pair)
        program.block(0xED, 0x43 + 16 * pair, *word(CELLS + 6))
        if pair < 3:
            program.block(0xED, 0x4B + 16 * pair, *word(CELLS + 6))
    for opcode in (0x44, 0x46, 0x56, 0x5E, 0x47, 0x4F, 0x57, 0x5F):
        program.block(0xED, opcode)
    for opcode in (0x67, 0x6F):
        program.block(0xED, opcode, before=LD_HL)
    for opcode in BLOCKS:
        for turns in (1, 5, 7):
            program.block_of_turns(opcode, turns)


def indexed(program, prefix):
    """The codes of IX or IY. What becomes of the register itself is copied to HL."""
    load = [prefix, 0x21, *word(CELLS + 0x18)]
    to_hl = [prefix, 0xE5, 0xE1]
    for opcode in (0x09, 0x19, 0x29, 0x39, 0x23, 0x2B):
        program.block(prefix, opcode, before=load, after=to_hl)
    program.block(prefix, 0x21, *word(0x5A3C), after=to_hl)
    program.block(prefix, 0x22, *word(CELLS + 8), before=load)
    program.block(prefix, 0x2A, *word(CELLS + 8), before=load, after=to_hl)
    program.block(prefix, 0x34, 0xF4, before=load)
    program.block(prefix, 0x35, 0xF5, before=load)
    program.block(prefix, 0x36, 0x05, 0xC3, before=load)
    for register in range(8):
        if register != 6:
            offset = register * 29 + 0xEC & 0x1F if register % 2 else 0xFF - register
            program.block(prefix, 0x46 + 8 * register, offset, before=load)
            program.block(prefix, 0x70 + register, register, before=load)
        program.block(prefix, 0x86 + 8 * register, register * 2, before=load)
    program.block(prefix, 0xE5, 0xD1, before=load)
    program.block(prefix, 0xE1, before=[0xD5], after=to_hl)
    program.block(prefix, 0xE3, before=[*load, 0xD5], after=[0xD1, *to_hl])
    for opcode in range(0x06, 0x100, 8):
        if opcode != 0x36:
            offset = opcode >> 3 & 0x0F if opcode & 0x40 else 0xFF - (opcode >> 3)
            program.block(prefix, 0xCB, offset, opcode, before=load)


def main():
    program = Program()
    program.rom[0:3] = bytes([0xC3, *word(program.end)])
    program.put(0x31, *word(TOP))
    again = program.end
    unprefixed(program)
    jumps(program)
    prefixed(program)
    indexed(program, 0xDD)
    indexed(program, 0xFD)
    program.put(0xC3, *word(again))
    pathlib.Path(sys.argv[1]).write_bytes(program.rom[:program.end])
    facts = "".join(f"    {fact},\n" for fact in program.facts)
    pathlib.Path(sys.argv[2]).write_text(f"low = 0x4380\ntop = 0x{TOP:X}\nfact = [\n{facts}]\n")
    print(f"{program.save:04X}")


main()
