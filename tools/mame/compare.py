#!/usr/bin/env python3
"""Compares a run of galcert with the one of MAME that follow.py followed: compare.py GALCERT ROM CERT WORK

Plays WORK/input up to each state of WORK/states, and compares the T-states, the registers and the sums of RAM there. Of
the play up to the last state it compares all lines `nmi` and `end` too. Prints each difference, and one line at the
end. The status is 1 if anything differs."""

import pathlib
import subprocess
import sys

NAMES = ["events", "T-states", "PC", "SP", "AF", "BC", "DE", "HL", "IX", "IY", "work RAM", "video RAM", "object RAM"]
SHOWN = 5  # so many states are shown where many differ


def played(galcert, rom, cert, folder, events):
    """The lines `nmi` and `end` of a play, and the numbers of its last three lines."""
    run = subprocess.run([galcert, "run", rom, cert, folder / "input", events], capture_output=True, text=True, check=False)
    lines = run.stdout.splitlines()
    if run.returncode or len(lines) < 3:
        sys.exit(f"galcert run: status {run.returncode}, {run.stdout or run.stderr}")
    numbers = [word for line in lines[-3:] for word in line.split()[1:]]
    return lines[:-3], numbers


def first_difference(mine, theirs):
    for number, (a, b) in enumerate(zip(mine, theirs), 1):
        if a != b:
            return f"line {number} of the run: galcert `{a}`, MAME `{b}`"
    if len(mine) != len(theirs):
        longer = (mine, "galcert") if len(mine) > len(theirs) else (theirs, "MAME")
        number = min(len(mine), len(theirs))
        return f"line {number + 1} of the run: only {longer[1]} has `{longer[0][number]}`"
    return None


def main():
    galcert, rom, cert, folder = sys.argv[1], sys.argv[2], sys.argv[3], pathlib.Path(sys.argv[4])
    wrong, lines, numbers = 0, [], []
    states = (folder / "states").read_text().splitlines()
    for state in states:
        wanted = state.split()
        lines, numbers = played(galcert, rom, cert, folder, wanted[0])
        unlike = [(name, a, b) for name, a, b in zip(NAMES, numbers, wanted, strict=True) if b not in ("-", a)]
        if unlike:
            wrong += 1
            if wrong <= SHOWN:
                print(f"after {wanted[0]} events:", "; ".join(f"{name}: galcert {a}, MAME {b}" for name, a, b in unlike))
    difference = first_difference(lines, (folder / "lines").read_text().splitlines())
    if difference:
        wrong += 1
        print(difference)
    nmis = sum(line.startswith("nmi") for line in lines)
    known = len((folder / "codes").read_text().splitlines())
    print(
        f"{pathlib.Path(rom).name}: {int(numbers[0]):,} events, {int(numbers[1]):,} T-states, {nmis} NMIs, {known} codes;"
        f" {len(states)} states compared:", f"{wrong} DIFFERENCES" if wrong else "all alike",
    )
    sys.exit(wrong > 0)


main()
