#!/usr/bin/env python3
"""Follows MAME's trace of a run: follow.py ROM CERT WORK [AT]

Reads WORK/trace while MAME writes it, and then WORK/dump. A line of the trace has what MAME had before an instruction:
  T-STATES PC SP AF BC DE HL IX IY (SP) IN0 IN1 IN2|ADDRESS: INSTRUCTION
A line of the dump has what it had between two instructions, at the end of a frame; CYCLES are those at which the
instruction before began:
  CYCLES PC SP AF BC DE HL IX IY WORK VIDEO OBJECT

Writes WORK/input, an INPUT of `galcert run`; each event has MAME's inputs, MAME's F as noise, what LD A,R gave, and
whether an NMI followed as L. Writes WORK/lines, the lines `nmi` and `end` that the run should print; WORK/states, the
states that it should be in, `-` where a number is not known; and WORK/codes, the documented codes that were executed.
With AT, an address in hexadecimal, there is a state too at the first 1,000 times that MAME comes there."""

import array
import bisect
import pathlib
import sys

import codes

FRAME = 50688
LATE = 1  # after its first second MAME's blank is so many T-states early against its CPU
ACCEPTANCE = 11
OPEN = "FF"
MOST = 1000


class Input:
    """The lines of an INPUT. Equal environments, one after the other, are one line."""

    def __init__(self, file, phase):
        self.file, self.last, self.count = file, None, 0
        file.write(f"reset {phase} 00\n")

    def put(self, environment):
        if environment != self.last:
            self.flush()
            self.last = environment
        self.count += 1

    def flush(self):
        if self.count:
            self.file.write(f"{self.count} {self.last}\n")
        self.count = 0

    def close(self):
        self.flush()
        self.file.close()


class Instruction:
    """A line of the trace."""

    def __init__(self, line):
        words = line.partition("|")[0].split()
        self.time, self.pc, self.sp = int(words[0]), int(words[1], 16), int(words[2], 16)
        self.pairs, self.top = words[3:9], words[9]
        self.inputs = " ".join(words[10:13])

    def accumulator(self):
        return self.pairs[0][:2]

    def flags(self):
        return self.pairs[0][2:]


class Follower:
    def __init__(self, rom, has_routine, first, folder, at):
        self.rom, self.has_routine, self.begun, self.at = rom, has_routine, first.time, at
        self.input = Input(open(folder / "input", "w"), (first.time + LATE) % FRAME)
        self.starts = array.array("q")  # at which of MAME's T-states each event begins
        self.lines = []
        self.states = []
        self.executed = set()
        self.open_routines = []  # of each NMI routine that runs: SP before the acceptance, and when it was accepted
        self.before = first
        self.starts.append(first.time)

    def goes_on(self, now):
        """The instruction `before` is over, and MAME comes to `now`."""
        before = self.before
        accepted = self.has_routine and now.pc == 0x0066  # no program jumps to its NMI routine
        if now.time < before.time:  # a reset begins the count anew
            time = before.time - self.begun
            sys.exit(f"MAME's watchdog reset the program after {time:,} T-states: see KICK in docs/MAME.md")
        is_load_r = self.rom[before.pc:before.pc + 2] == b"\xED\x5F"
        gives = now.accumulator() if is_load_r else "00"
        self.input.put(f"{before.inputs} {OPEN} {now.flags()} {gives} {int(accepted)}")
        self.executed.add(before.pc)
        over = now.time - ACCEPTANCE if accepted else now.time
        sp = (now.sp + 2) % 65536 if accepted else now.sp
        if self.open_routines and self.is_return(before.pc) and self.open_routines[-1][0] == sp:
            self.lines.append((len(self.starts) - 1, f"end {len(self.starts) - 1} {over - self.open_routines.pop()[1]}"))
        if accepted:
            self.lines.append((len(self.starts), f"nmi {len(self.starts)} {now.top}"))
            self.open_routines.append((sp, over))
            self.input.put(f"{now.inputs} {OPEN} {now.flags()} 00 0")
            self.starts.append(over)
        if now.pc == self.at and len(self.states) < MOST:
            self.put_state(len(self.starts), now.time, f"{now.pc:04X}", [f"{now.sp:04X}", *now.pairs], ["-"] * 3)
        self.starts.append(now.time)
        self.before = now

    def is_return(self, at):
        prefix, opcode = codes.key_at(self.rom, at)
        return prefix == () and (opcode == 0xC9 or opcode & 0xC7 == 0xC0) or prefix == (0xED,) and opcode in (0x45, 0x4D)

    def put_state(self, events, time, pc, registers, sums):
        self.states.append((events, " ".join([str(events), str(time - self.begun), pc, *registers, *sums])))

    def put_dumped(self, line):
        cycles, pc, *rest = line.split()
        events = bisect.bisect_right(self.starts, int(cycles))
        self.put_state(events, self.starts[events], pc, rest[:7], rest[7:])


def main():
    rom, folder = pathlib.Path(sys.argv[1]).read_bytes(), pathlib.Path(sys.argv[3])
    has_routine = "\nproc nmi " in pathlib.Path(sys.argv[2]).read_text()
    at = int(sys.argv[4], 16) if len(sys.argv) > 4 else None
    follower = None
    with open(folder / "trace", errors="replace") as trace:
        for line in trace:
            if line.count(" ") < 12 or "|" not in line:
                continue
            now = Instruction(line)
            if follower:
                follower.goes_on(now)
            elif now.pc == 0x0000:
                follower = Follower(rom, has_routine, now, folder, at)
    if not follower:
        sys.exit("MAME did not start the program")
    follower.input.close()
    dumped = [line for line in (folder / "dump").read_text().splitlines() if line != "done"]
    for line in dumped:
        follower.put_dumped(line)
    follower.states.sort()
    last = follower.states[-1][0]
    (folder / "states").write_text("".join(f"{state}\n" for _, state in follower.states))
    (folder / "lines").write_text("".join(f"{line}\n" for event, line in follower.lines if event < last))
    keys = {codes.key_at(rom, address) for address in follower.executed}
    executed = [code for code in codes.documented() if (code.prefix, code.opcode) in keys]
    (folder / "codes").write_text("".join(f"{code}\n" for code in executed))


main()
