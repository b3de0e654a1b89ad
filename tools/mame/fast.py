#!/usr/bin/env python3
"""Compares a run of galcert with a fast one of MAME (fast.lua): fast.py GALCERT ROM CERT WORK

Reads WORK/dump, writes WORK/input, and compares the address that each NMI interrupted, and the T-states, the registers
and the sums of RAM after the last acceptance. The inputs are what they were at first, the noise is 00, and a write to
the NMI enable in the event of the blank counts as set. So F is compared but for bits 5 and 3; and the sum of work RAM,
where F was pushed, is only reported. Prints each difference, and one line at the end. The status is 1 if anything
differs."""

import pathlib
import subprocess
import sys

FRAME = 50688
LATE = 1  # as in follow.py
MOST = "4294967295"
SEEN_FLAGS = 0xFFD7  # AF without bits 5 and 3 of F
NAMES = ["SP", "AF", "BC", "DE", "HL", "IX", "IY", "work RAM", "video RAM", "object RAM"]


def read(dump):
    """The inputs, the times of the starts, the NMIs, and the last state."""
    inputs, starts, nmis, state = [], [], [], []
    for word, *rest in (line.split() for line in dump.read_text().splitlines()):
        if word == "inputs":
            inputs = rest
        elif word == "start":
            starts.append(int(rest[0]))
        elif word == "nmi":
            nmis.append((int(rest[0]), rest[1]))
        elif word == "state":
            state = rest
    return inputs, starts, nmis, state


def differs(name, mine, theirs):
    if name == "AF":
        return (int(mine, 16) ^ int(theirs, 16)) & SEEN_FLAGS
    return mine != theirs and name != "work RAM"


def main():
    galcert, rom, cert, folder = sys.argv[1], sys.argv[2], sys.argv[3], pathlib.Path(sys.argv[4])
    name = pathlib.Path(rom).name
    inputs, starts, nmis, state = read(folder / "dump")
    if len(starts) > 1:
        sys.exit(f"{name}: MAME came to 0000 again after {starts[1] - starts[0]:,} T-states; see KICK in docs/MAME.md")
    (folder / "input").write_text(f"reset {(starts[0] + LATE) % FRAME} 00\n{MOST} {' '.join(inputs)} FF 00 00 1\n")
    command = [galcert, "run", rom, cert, folder / "input"]
    last = None
    with subprocess.Popen([*command, MOST], stdout=subprocess.PIPE, text=True) as run:
        mine = (line.split() for line in run.stdout if line.startswith("nmi"))
        for number, ((_, pc), words) in enumerate(zip(nmis, mine)):
            if words[2] != pc:
                run.kill()
                sys.exit(f"{name}: NMI {number} interrupts {words[2]} in galcert, {pc} in MAME: DIFFERENT")
            last = int(words[1])
        run.kill()
    lines = subprocess.run([*command, str(last + 1)], capture_output=True, text=True, check=True).stdout.splitlines()
    done, registers, sums = (line.split()[1:] for line in lines[-3:])
    pairs = [("T-states", done[1], str(nmis[-1][0] - starts[0]))]
    pairs += zip(NAMES, [done[3], *registers, *sums], state, strict=True)
    wrong = [f"{key}: galcert {a}, MAME {b}" for key, a, b in pairs if differs(key, a, b)]
    notes = [f"{key} {a} and {b}" for key, a, b in pairs if a != b and not differs(key, a, b)]
    print(
        f"{name}: {int(done[0]):,} events, {int(done[1]):,} T-states, {len(nmis)} NMIs, each at the same address;",
        "; ".join(wrong) + ": DIFFERENT" if wrong else "all alike", f"(but {', '.join(notes)})" if notes else "",
    )
    sys.exit(bool(wrong))


main()
