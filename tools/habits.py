#!/usr/bin/env python3
"""Whether the cases of docs/HABITS.md have the bytes of its sources: tools/habits.py

z80asm assembles each source of the page. Its bytes have to be those of a ROM in tests/cases/habits.toml, and the ROM of each
case of a habit has to stand in the page, with what `check` answers to it. Where an explanation of
tests/cases/explanations.toml says by which habit to rewrite a program, the page has to have such a program: refused for this
reason, and accepted as it is written otherwise."""
import os
import re
import subprocess
import sys
import tempfile
import tomllib

HERE = os.path.dirname(os.path.dirname(os.path.abspath(__file__)))
PAGE = open(os.path.join(HERE, "docs/HABITS.md")).read()


def suite(name):
    """The cases of a file, and its shared files."""
    said = tomllib.loads(open(os.path.join(HERE, "tests/cases", name)).read())
    return said["case"], said["files"]


def bytes_of(file, shared):
    """A ROM's bytes, as tools/cases.py reads them."""
    made = bytearray()
    for word in (shared[file] if isinstance(file, str) else file)["hex"].split():
        made += bytes(int(word[1:], 16) - len(made)) if word.startswith("@") else bytes.fromhex(word)
    return bytes(made)


def assembled(source):
    """The bytes of a source."""
    with tempfile.TemporaryDirectory() as folder:
        name, rom = os.path.join(folder, "habit.asm"), os.path.join(folder, "habit.rom")
        open(name, "w").write(source)
        subprocess.run(["z80asm", "-o", rom, name], check=True)
        return open(rom, "rb").read()


def is_refused_so(first, told):
    """Whether the first line of `check` refuses a program as the first line of an explanation tells it."""
    reason = re.search(r"\[(.*?)\]", told)
    return first.startswith("refused ") and reason[1] in first if reason else first.startswith(told.split(" ")[-1])


cases, shared = suite("habits.toml")
found = [assembled(source) for source in re.findall(r"```\n(.*?)```", PAGE, re.S)]
programs = [(it["name"], bytes_of(it["files"]["rom"], shared), it["starts"].rstrip("\n"))
            for it in cases if it["name"].startswith("Habit ") and it["args"].startswith("check ")]
roms = [rom for _, rom, _ in programs]
wrong = ["a source that is not tested: number %d" % number for number, rom in enumerate(found, 1) if rom not in roms]
for name, rom, first in programs:
    if rom not in found:
        wrong.append("not in the page: " + name)
    if first != "accepted" and "`%s`" % first not in PAGE:
        wrong.append("another answer: %s: %s" % (name, first))
rewritten = [(name.split(":")[0], first) for (name, _, first), (_, _, after) in zip(programs, programs[1:]) if after == "accepted"]
for case in suite("explanations.toml")[0]:
    named = re.search(r": docs/HABITS\.md, (\d+) ", case.get("stdout", ""))
    told = case.get("stdout", "").split("\n")[0]
    if named and not any(habit == "Habit " + named[1] and is_refused_so(first, told) for habit, first in rewritten):
        wrong.append("no program is rewritten so: " + case["name"])
print("\n".join(wrong) or "%d sources" % len(found))
sys.exit(bool(wrong))
