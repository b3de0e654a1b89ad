#!/usr/bin/env python3
"""Assembles the texts in the tables of the tests of `disassembly` with Debian's z80asm, and compares the bytes.

usage: tools/spellings.py

Each text is assembled alone, at 1000h. A text may come once only, so that the texts of any two codes differ. The status
is 1 if a text comes twice, is refused, or gives other bytes than its table has."""

import pathlib
import re
import subprocess
import sys

TABLES = pathlib.Path(__file__).resolve().parent.parent / "crates/z80_tests/src/code_texts.rt"
CODE = re.compile(r"(?:^ +|\\n)([0-9A-F]{2}(?: [0-9A-F]{2})*): (.+?)(?=\\n)", re.M)


def codes():
    """Each text of the tables with its bytes."""
    for digits, text in CODE.findall(TABLES.read_text()):
        yield text, bytes.fromhex(digits)


def assembled(text):
    """The bytes to which z80asm assembles a text, or None if it refuses the text."""
    source = f"\torg 1000h\n\t{text}\n".encode()
    ran = subprocess.run(["z80asm", "-o", "/dev/stdout"], input=source, capture_output=True)
    return None if ran.returncode or ran.stderr else ran.stdout


def main():
    seen, wrong = set(), 0
    for text, wanted in codes():
        found = assembled(text)
        if text in seen:
            print(f"{text}: twice")
            wrong += 1
        if found != wanted:
            print(f"{text}: {wanted.hex(' ')} in the table, {found.hex(' ') if found else 'refused'} by z80asm")
            wrong += 1
        seen.add(text)
    print(f"{len(seen)} texts, {wrong} wrong")
    return 1 if wrong else 0


if __name__ == "__main__":
    sys.exit(main())
