#!/usr/bin/env python3
"""Measures in MAME the T-states of each documented code.

usage: costs.py make ROM             writes a program that executes each code, both ways where it has a condition
       costs.py judge TRACE FILE     reads MAME's trace of it (follow.py says what a line is), and compares each cost with
                                     the definition, Costs.antt. FILE gets the tables of docs/INSTRUCTIONS.md

An instruction is *taken* where MAME does not come to the address after it: at a jump, and at a turn of a block instruction
that repeats. The status of `judge` is 1 if a cost differs, or was not measured in each way."""

import pathlib
import sys

import codes

TOP, FLAG = 0x4400, 0x4300  # the stack's top; a byte that says whether the program was there before
CELLS, TARGET, IX, IY, WORD = 0x4100, 0x4200, 0x4120, 0x4140, 0x4180  # what the instructions work on
ENABLE = 0x7001
OPERANDS = {"": [], "n": [0x55], "d": [0x05], "dn": [0x05, 0x55], "e": [0x01], "nn": [WORD & 0xFF, WORD >> 8]}
CONDITIONAL = ("JumpIf", "JumpRelativeIf", "CallIf", "ReturnIf")
RETURNS = ("Return", "ReturnIf", "ReturnFromInterrupt", "ReturnFromNonMaskable")
LD_HL = {(): [0x21], (0xDD,): [0xDD, 0x21], (0xFD,): [0xFD, 0x21]}
RST_0, HALT = 0xC7, 0x76


def word(number):
    return [number & 0xFF, number >> 8]


class Program:
    """The program, and where in it each code is measured. Jumps go to the address after the next one."""

    def __init__(self):
        self.rom = bytearray(b"\xFF" * 0x4000)
        self.measured = {}  # by address: the code and the length of its instruction
        for number in range(1, 8):
            self.rom[8 * number] = 0xC9
        self.end = 0x0066
        self.put(0xAF, 0x32, *word(ENABLE), 0xED, 0x45)  # the NMI routine
        self.prepare = {flags: self.preparation(flags) for flags in (0x00, 0xFF)}
        self.rom[0:3] = bytes([0xC3, *word(self.end)])
        self.put(0x3A, *word(FLAG), 0xB7, 0xCA)  # LD A,(FLAG); OR A; JP Z over the jump to `last`
        self.put(*word(self.end + 5), 0xC3)
        to_last = self.end
        self.put(0, 0, 0x3E, 0x01, 0x32, *word(FLAG))
        every = list(codes.documented())
        for code in every:
            if (code.prefix, code.opcode) not in (((), RST_0), ((), HALT)):
                for flags in (0x00, 0xFF) if code.constructor in CONDITIONAL else (0x00,):
                    self.measure(code, flags)
        by_key = {(code.prefix, code.opcode): code for code in every}
        self.measure(by_key[(), RST_0], 0x00)
        self.rom[to_last:to_last + 2] = bytes(word(self.end))
        self.put(0x31, *word(TOP), 0x3E, 0x01, 0x32, *word(ENABLE))
        self.put_measured(by_key[(), HALT], [HALT])
        self.put(0x18, 0xFE)

    def put(self, *code):
        self.rom[self.end:self.end + len(code)] = bytes(code)
        self.end += len(code)

    def preparation(self, flags):
        """A procedure that sets the registers: A to 5A, F to the flags, the pairs to addresses of cells, B to 2."""
        at = self.end
        self.put(0x21, flags, 0x5A, 0xE5, 0xF1, 0x01, 0x02, 0x02, 0x11, *word(TARGET), 0x21, *word(CELLS))
        self.put(0xDD, 0x21, *word(IX), 0xFD, 0x21, *word(IY), 0xC9)
        return at

    def put_measured(self, code, instruction):
        self.measured[self.end] = code, len(instruction)
        self.put(*instruction)

    def measure(self, code, flags):
        name = code.constructor
        self.put(0x31, *word(TOP), 0xCD, *word(self.prepare[flags]))
        operands = OPERANDS[code.operands]
        if name == "DecrementJump":
            self.put_measured(code, [code.opcode, 0x01])
            self.put(0x00, 0x06, 0x01)  # LD B,1
        elif name in ("JumpTo", *RETURNS):
            load = LD_HL[code.prefix if name == "JumpTo" else ()]
            push = [0xE5] if name in RETURNS else []
            length = len(code.spelled(operands))
            self.put(*load, *word(self.end + len(load) + 2 + len(push) + length + 1), *push)
        elif name in ("Jump", "JumpIf", "Call", "CallIf"):
            operands = word(self.end + 4)
        elif (name, code.operand) in (("BlockLoad", "repeat"), ("BlockCompare", "repeat")):
            self.put(0x01, 0x02, 0x00)  # LD BC,2: two turns
        self.put_measured(code, code.spelled(operands))
        self.put(0x00)


def judge(trace):
    """By code: the T-states, by whether it was taken. Also those of an acceptance."""
    measured = Program().measured
    found, acceptance, before, idle = {}, None, None, None
    for line in trace:
        if line.count(" ") < 12 or "|" not in line:
            continue
        time, pc = line.split(" ")[:2]
        time, pc = int(time), int(pc, 16)
        if before and before[1] in measured:
            code, length = measured[before[1]]
            ways = found.setdefault(code, {})
            taken = pc != before[1] + length
            if ways.setdefault(taken, time - before[0]) != time - before[0]:
                sys.exit(f"{code} takes {ways[taken]} T-states, and {time - before[0]}")
        if pc == 0x0066:
            acceptance = time - before[0] - idle  # the NMI ended the HALT, after one more idle turn
        idle = before and time - before[0]
        before = time, pc
    return found, acceptance


def faults(found):
    """Where MAME and the definition differ, and what was not measured."""
    defined = codes.costs()
    for code in codes.documented():
        ways, cost = found.get(code, {}), defined[code.constructor, code.operand]
        both = len(cost) == 2 or code.constructor in CONDITIONAL
        if not ways or both and len(ways) < 2:
            yield f"{code}: not measured in each way"
        for taken, number in ways.items():
            wanted = cost[0 if taken else -1]
            if number != wanted:
                way = ("" if taken else " not") + " taken" if both else ""
                yield f"{code}{way}: {number} T-states in MAME, {wanted} in Costs.antt"


def cell(ways):
    numbers = [str(ways[taken]) for taken in (True, False) if taken in ways]
    return "/".join(dict.fromkeys(numbers))


def grid(figures, rows, columns, opcode):
    """A table of Markdown; `opcode` gives the opcode of a row and a column."""
    head = ["", *(f"{column:X}" for column in columns)]
    lines = [head, ["---"] * len(head)]
    lines += [[row[0], *(figures.get(opcode(row[1], column), "") for column in columns)] for row in rows]
    return "".join("| " + " | ".join(line) + " |\n" for line in lines)


def tables(found):
    """The tables, a page of codes each. DD and FD are one, and so are DD CB and FD CB."""
    pages = {}
    for code, ways in found.items():
        name = tuple("DD" if byte == 0xFD else f"{byte:02X}" for byte in code.prefix)
        page = pages.setdefault(" ".join(name), {})
        if page.setdefault(code.opcode, cell(ways)) != cell(ways):
            sys.exit(f"{code} differs from the code with the other prefix")
    titles = {
        "": "Without a prefix:", "CB": "After CB:", "ED": "After ED:", "DD": "After DD, and after FD:",
        "DD CB": "After DD CB d, and after FD CB d. The columns are the first digits, the rows the second ones:",
    }
    for prefix, title in titles.items():
        figures = pages[prefix]
        if prefix == "DD CB":
            rows = [(f"**{low:X}**", low) for low in (0x6, 0xE)]
            table = grid(figures, rows, range(16), lambda low, high: 16 * high + low)
        else:
            highs = sorted({opcode >> 4 for opcode in figures})
            rows = [(f"**{high:X}**", high) for high in highs]
            table = grid(figures, rows, range(16), lambda high, low: 16 * high + low)
        yield f"{title}\n\n{table}"


def main():
    if sys.argv[1] == "make":
        program = Program()
        pathlib.Path(sys.argv[2]).write_bytes(program.rom[:program.end])
        return
    with open(sys.argv[2], errors="replace") as trace:
        found, acceptance = judge(trace)
    wrong = list(faults(found))
    for fault in wrong[:20]:
        print(fault)
    if acceptance != 11:
        wrong.append("acceptance")
    pathlib.Path(sys.argv[3]).write_text("\n".join(tables(found)))
    print(
        f"T-states: {len(found)} codes, {sum(map(len, found.values()))} costs, an acceptance of {acceptance}:",
        f"{len(wrong)} DIFFERENCES" if wrong else "all as in Costs.antt",
    )
    sys.exit(bool(wrong))


main()
