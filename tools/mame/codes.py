"""The documented codes of the Z80, as docs/INSTRUCTIONS.md has them, and the T-states that Costs.antt gives each."""

import pathlib
import re
from typing import NamedTuple

COSTS = pathlib.Path(__file__).resolve().parents[2] / "crates/t_states/specs/Costs.antt"

# The words of Costs.antt that choose a cost by the operand, with the operands in their order.
BY_OPERAND = {
    "by_place": ("register", "hl", "index"),
    "by_memory": ("hl", "index"),
    "by_pointer": ("hl", "index"),
    "by_pair": ("pair", "index"),
    "by_stack_pair": ("pair", "index"),
    "by_address": ("pair", "direct"),
    "by_direct": ("short", "prefixed"),
}


class Code(NamedTuple):
    """A code: its prefixes, its opcode, and the operand bytes, a letter for each: d, n, e, or nn. After the prefixes
    DD CB and FD CB the displacement stands before the opcode. `constructor` and `operand` say which line of Costs.antt
    it is."""

    prefix: tuple
    opcode: int
    operands: str
    constructor: str
    operand: str = ""

    def __str__(self):
        return " ".join([*(f"{byte:02X}" for byte in self.prefix), f"{self.opcode:02X}"])

    def spelled(self, operands):
        """Its bytes with these operand bytes."""
        if len(self.prefix) == 2:
            return [*self.prefix, *operands, self.opcode]
        return [*self.prefix, self.opcode, *operands]


def place(code):
    return "hl" if code == 6 else "register"


def unprefixed(opcode):
    high, middle, low = opcode >> 6, opcode >> 3 & 7, opcode & 7
    second = middle % 2  # a pair's opcode has one of two forms
    if high == 0:
        return [
            [("", "Nop"), ("", "ExchangeAf"), ("e", "DecrementJump"), ("e", "JumpRelative"), *[("e", "JumpRelativeIf")] * 4][middle],
            ("", "AddHl") if second else ("nn", "LoadPair", "pair"),
            [
                ("", "StoreA", "pair"), ("", "LoadA", "pair"), ("", "StoreA", "pair"), ("", "LoadA", "pair"),
                ("nn", "StorePairDirect", "short"), ("nn", "LoadPairDirect", "short"),
                ("nn", "StoreA", "direct"), ("nn", "LoadA", "direct"),
            ][middle],
            ("", "DecrementPair" if second else "IncrementPair", "pair"),
            ("", "Increment", place(middle)),
            ("", "Decrement", place(middle)),
            ("n", "LoadImmediate", place(middle)),
            ("", [*["RotateA"] * 4, "DecimalAdjust", "Complement", "SetCarry", "ComplementCarry"][middle]),
        ][low]
    if high == 1:
        if opcode == 0x76:
            return "", "Halt"
        return ("", "Store", "hl") if middle == 6 else ("", "LoadRegister", place(low))
    if high == 2:
        return "", "Arithmetic Place", place(low)
    return [
        ("", "ReturnIf"),
        [("", "Return"), ("", "ExchangeSets"), ("", "JumpTo", "hl"), ("", "LoadSp", "hl")][middle // 2] if second
        else ("", "Pop", "pair"),
        ("nn", "JumpIf"),
        [
            ("nn", "Jump"), None, ("n", "OutputImmediate"), ("n", "InputImmediate"),
            ("", "ExchangeStack", "hl"), ("", "ExchangeDeHl"), ("", "DisableInterrupts"), ("", "EnableInterrupts"),
        ][middle],
        ("nn", "CallIf"),
        [("nn", "Call"), None, None, None][middle // 2] if second else ("", "Push", "pair"),
        ("n", "Arithmetic Immediate"),
        ("", "Restart"),
    ][low]


def bits(opcode, operand):
    """A code of the page CB, with a register, (HL) or an indexed byte for its operand."""
    if opcode >> 3 == 6:
        return None
    return "", ["Shift", "TestBit", "ResetBit", "SetBit"][opcode >> 6], operand


def extended(opcode):
    high, middle, low = opcode >> 6, opcode >> 3 & 7, opcode & 7
    if high == 2 and middle >= 4 and low < 4:
        return "", ["BlockLoad", "BlockCompare", "BlockInput", "BlockOutput"][low], "repeat" if middle >= 6 else "once"
    if high == 1 and low in (0, 1) and middle != 6:
        return "", ["InputRegister", "OutputRegister"][low]
    if high == 1 and low == 2:
        return "", ["SbcHl", "AdcHl"][middle % 2]
    if high == 1 and low == 3:
        return "nn", ["StorePairDirect", "LoadPairDirect"][middle % 2], "prefixed"
    names = {
        0x44: "Negate", 0x45: "ReturnFromNonMaskable", 0x4D: "ReturnFromInterrupt",
        0x46: "InterruptMode", 0x56: "InterruptMode", 0x5E: "InterruptMode",
        0x47: "StoreASpecial", 0x4F: "StoreASpecial", 0x57: "LoadASpecial", 0x5F: "LoadASpecial",
        0x67: "RotateDigitsRight", 0x6F: "RotateDigitsLeft",
    }
    return ("", names[opcode]) if opcode in names else None


def indexed(opcode):
    """A code after DD or FD."""
    high, middle, low = opcode >> 6, opcode >> 3 & 7, opcode & 7
    if opcode & 0xCF == 0x09:
        return "", "AddIndex"
    whole = {
        0x21: ("nn", "LoadPair", "index"), 0x22: ("nn", "StorePairDirect", "prefixed"),
        0x2A: ("nn", "LoadPairDirect", "prefixed"), 0x23: ("", "IncrementPair", "index"),
        0x2B: ("", "DecrementPair", "index"), 0x34: ("d", "Increment", "index"), 0x35: ("d", "Decrement", "index"),
        0x36: ("dn", "LoadImmediate", "index"), 0xE1: ("", "Pop", "index"), 0xE3: ("", "ExchangeStack", "index"),
        0xE5: ("", "Push", "index"), 0xE9: ("", "JumpTo", "index"), 0xF9: ("", "LoadSp", "index"),
    }
    if opcode in whole:
        return whole[opcode]
    if opcode == 0x76:
        return None
    if high == 1 and low == 6:
        return "d", "LoadRegister", "index"
    if high == 1 and middle == 6:
        return "d", "Store", "index"
    return ("d", "Arithmetic Place", "index") if high == 2 and low == 6 else None


def documented():
    """All the codes, page by page."""
    pages = [((), unprefixed), ((0xCB,), lambda opcode: bits(opcode, place(opcode & 7))), ((0xED,), extended)]
    for prefix in (0xDD, 0xFD):
        pages.append(((prefix,), indexed))
        pages.append(((prefix, 0xCB), lambda opcode: bits(opcode, "index") if opcode & 7 == 6 else None))
    for prefix, page in pages:
        for opcode in range(256):
            said = page(opcode)
            if said:
                operands, *line = said
                yield Code(prefix, opcode, "d" if len(prefix) == 2 else operands, *line)


def key_at(rom, at):
    """The prefixes and the opcode of the instruction at an address, as `Code` has them."""
    first, second = rom[at], rom[at + 1] if at + 1 < len(rom) else 0xFF
    if first in (0xDD, 0xFD):
        return ((first, 0xCB), rom[at + 3]) if second == 0xCB else ((first,), second)
    return ((first,), second) if first in (0xCB, 0xED) else ((), first)


def costs():
    """What Costs.antt says: the T-states of each constructor and operand, taken before not taken."""
    table = {}
    blocks = {}
    text = COSTS.read_text()
    for kind, cost in re.findall(r"^by_block blocks\.(\w+) goes_on = (.+)$", text, re.M):
        blocks["repeat" if kind.endswith("Repeat") else "once"] = one_cost(cost)
    for said, cost in re.findall(r"^cost_of (.+) taken = (.+)$", text, re.M):
        name = re.match(r"\(?(\w+)", said).group(1)
        kind = re.search(r"operands\.(\w+)", said)
        name = f"{name} {kind.group(1)}" if kind else name
        word, *rest = cost.split()
        if word == "by_block":
            for operand, numbers in blocks.items():
                table[name, operand] = numbers
        elif word in BY_OPERAND:
            for operand, number in zip(BY_OPERAND[word], rest[1:], strict=True):
                table[name, operand] = (int(number),)
        else:
            table[name, ""] = one_cost(cost)
    return table


def one_cost(text):
    """`4` gives (4,); `if taken then 12 else 7` gives (12, 7)."""
    return tuple(int(number) for number in re.findall(r"\d+", text))


if __name__ == "__main__":
    table = costs()
    codes = list(documented())
    print(len(codes), "codes,", len({(code.constructor, code.operand) for code in codes} ^ set(table)), "lines unmatched")
