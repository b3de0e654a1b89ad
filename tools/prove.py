#!/usr/bin/env python3
"""Proves a crate and all that it stands on, side by side: tools/prove.py [--plain] CRATE [ARGUMENT..]

Crates that do not wait for one another run side by side. The one with the longest chain above it begins first. Each line
tells which crate of how many begins, the time so far, and an estimate of the time left. At the end a program is built, and
runs with the arguments. If a crate is not proved, this prints what `rt` said, stops the others and ends with status 1.

It runs the toolchain's own `rt` as a module (kit.py). If that is not as expected, or with --plain, it calls plain `rt`, one
crate at a time. Both ways keep their work in out/, and each goes on from the other's."""

import copy
import os
import signal
import subprocess
import sys
import tempfile
import time
from concurrent.futures import FIRST_COMPLETED, ThreadPoolExecutor, wait

sys.dont_write_bytecode = True
import crates
import kit

# What this program calls of `rt`, beside what kit.py names.
TAKEN = {
    "free": [],
    "processors": [],
    "rtlib.Crate.__init__": ["self", "folder", "root", "known", "above", "name"],
    "rtlib.Crate.build_rlib": ["self", "flags", "anew"],
    "rtlib.Crate.count": ["self", "pattern"],
    "rtlib.Crate.has_kept": ["self"],
    "rtlib.Crate.is_built": ["self"],
    "rtlib.Crate.makes_rlib": ["self"],
    "rtlib.guarded": [],
    "rtlib.lock": ["crates"],
    "rtlib.stop_on_links": ["folder"],
}

# The estimate, in seconds with one job. 1,000 lines of a crate's src/ take OWN, and STEEP more for each 1,000 lines of src/ that the
# crate stands on. Both are a fit over 107 crates that were built from nothing, with nothing beside, on a Xeon with four processors
# at 2.5 GHz (2026-12-01). For these it is off by 35 seconds a crate, and for what was left of that run by 6 minutes at most. What
# a run measures corrects them.
OWN, STEEP = 72, 4.5
# No crate takes less. A program is compiled too, which takes COMPILED.
LEAST, COMPILED = 8, 230
# N jobs divide the time by N to the power of GAIN: two jobs took 0.73 of the time for `texts`, and three half of it for
# `command_reports` (2026-12-01).
GAIN = 0.6
# The share of the time that a crate takes when it goes on from the work in out/.
KEPT = 0.3
# The estimate counts as if this run had measured it for so many seconds.
TRUST = 300

MOST_JOBS = 4
# On two processors, a crate that stands on so many lines gets one job: where work is kept, a second job loads all of them again.
MANY_LINES = 10_000
# Each further job takes this share of the memory of the first. Of the free memory this share is used.
MORE_MEMORY, MEMORY = 0.6, 0.85


class Schedule:
    """What is left to prove, what runs and with how many jobs, and what is done."""

    def __init__(self, rt, every, program):
        self.lanes, self.memory = rt.processors(), MEMORY * rt.free()
        self.measured = self.estimated = TRUST
        self.done = {it for it in every if it.is_built()}
        self.waiting = [it for it in every if it not in self.done]
        self.running, self.program = {}, program
        every = [*every, program] if program else every
        self.lines = {it: it.count(rb"\n") for it in every}
        self.below = {it: sum(self.lines[low] for low in it.below()) for it in every}
        self.need = {it: rt.need(it) for it in every}
        self.is_kept = {it: it.has_kept() for it in every}
        ahead = dict.fromkeys(every, 0)
        for it in reversed(self.waiting):
            ahead[it] += self.seconds(it, 1)
            for low in it.below():
                ahead[low] = max(ahead[low], ahead[it])
        self.waiting.sort(key=lambda it: -ahead[it])

    def seconds(self, crate, jobs):
        """How long a crate takes, before any correction."""
        lines, below = self.lines[crate] / 1000, self.below[crate] / 1000
        proved = lines * (OWN + STEEP * below) / jobs**GAIN * (KEPT if self.is_kept[crate] else 1)
        return max(LEAST, proved + COMPILED * crate.is_program)

    def jobs(self, crate, idle, others, room):
        """How many jobs a crate gets of the idle processors, which `others` wait for too."""
        by_memory = 1 + int((room / self.need[crate] - 1) / MORE_MEMORY)
        most = 1 if self.lanes <= 2 and self.below[crate] >= MANY_LINES else MOST_JOBS
        return max(1, min(most, idle // (others + 1), by_memory))

    def memory_of(self, crate, jobs):
        return self.need[crate] * (1 + MORE_MEMORY * (jobs - 1))

    def begin(self):
        """The crates that can begin now, each with its jobs; they count as running."""
        ready = [it for it in self.waiting if self.done.issuperset(it.below())]
        begun = []
        for at, crate in enumerate(ready):
            idle = self.lanes - sum(self.running.values())
            room = self.memory - sum(self.memory_of(*it) for it in self.running.items())
            if idle > 0 and (not self.running or self.need[crate] <= room):
                others = len(ready) - at - 1
                jobs = self.jobs(crate, idle, others, room)
                self.waiting.remove(crate)
                self.running[crate] = jobs
                begun.append((crate, jobs))
        return begun

    def end(self, crate):
        del self.running[crate]
        self.done.add(crate)

    def measure(self, crate, seconds):
        self.measured += seconds
        self.estimated += self.seconds(crate, self.running[crate])

    def left(self, elapsed):
        """An estimate of the seconds that are left: this very schedule, run ahead by the estimates of its crates."""
        pace = self.measured / self.estimated
        ahead = copy.copy(self)
        ahead.waiting, ahead.running, ahead.done = [*self.waiting], {**self.running}, {*self.done}
        ends = {it: max(1, pace * self.seconds(it, jobs) - elapsed[it]) for it, jobs in self.running.items()}
        now = 0
        while ahead.waiting or ahead.running:
            for crate, jobs in ahead.begin():
                ends[crate] = now + pace * self.seconds(crate, jobs)
            crate = min(ahead.running, key=ends.get)
            now = ends[crate]
            ahead.end(crate)
        return now + (pace * self.seconds(self.program, self.jobs_of_program()) if self.program else 0)

    def jobs_of_program(self):
        """The program comes last, so it gets all processors."""
        return self.jobs(self.program, self.lanes, 0, self.memory)


class Run:
    """A run: the schedule, when each crate began, and how many were told."""

    def __init__(self, schedule):
        self.schedule = schedule
        self.start = time.monotonic()
        self.began = {}
        self.told = 0
        self.total = len(schedule.waiting) + bool(schedule.program)

    def elapsed(self, crate):
        return time.monotonic() - self.began.get(crate, time.monotonic())

    def tell(self, crate, jobs=1):
        self.told += 1
        left = self.schedule.left({it: self.elapsed(it) for it in self.schedule.running})
        tell(self.told, self.total, time.monotonic() - self.start, crate.name, jobs, left)

    def prove_one(self, crate, jobs):
        os.makedirs(f"{crate.folder}/out", exist_ok=True)
        with tempfile.TemporaryFile("w+", errors="replace") as crate.out:
            status = crate.build_rlib(["--jobs", str(jobs)], anew=False)
            crate.out.seek(0)
            return status, crate.out.read()

    def prove(self):
        """Proves all that waits; what is proved at the end is built."""
        # (as a context manager, the pool would wait for the others after an error)
        pool, running = ThreadPoolExecutor(self.schedule.lanes), {}
        while self.schedule.waiting or running:
            for crate, jobs in self.schedule.begin():
                self.tell(crate, jobs)
                self.began[crate] = time.monotonic()
                running[pool.submit(self.prove_one, crate, jobs)] = crate
            for it in wait(running, return_when=FIRST_COMPLETED).done:
                crate = running.pop(it)
                status, said = it.result()
                if status:
                    stop(crate.name, said)
                self.schedule.measure(crate, self.elapsed(crate))
                self.schedule.end(crate)


def head(name):
    """What a crate is: the first sentence of its root file."""
    source = crates.ROOT / "crates" / name / "src"
    root = source / "lib.rt" if (source / "lib.rt").exists() else source / "main.rt"
    words = []
    for line in root.read_text().splitlines():
        if not line.startswith("//"):
            break
        words.append(line[2:].strip())
    return " ".join(words).split(". ")[0].split(" (docs")[0].rstrip(".")


def tell(number, total, elapsed, name, jobs=1, left=None):
    minutes, seconds = divmod(int(elapsed), 60)
    about = "" if left is None else f", about {round(left / 60)} min left" if left >= 90 else f", about {round(left)} s left"
    more = f" with {jobs} jobs" if jobs > 1 else ""
    print(f"[{number} of {total}, {minutes}:{seconds:02}{about}] proving {name}{more}: {head(name)}", flush=True)


def stop(name, said):
    """Ends this process, and with it all that `rt` started, as at Ctrl-C."""
    sys.stdout.write(said)
    print(f"{name} is not proved", file=sys.stderr)
    sys.stdout.flush()
    sys.stderr.flush()
    os._exit(1)


def prove_by_module(rt, top, arguments):
    """Proves all side by side; then a program is built and run. Returns the status."""
    rtlib = rt.rtlib
    rtlib.guarded()
    if hasattr(rt, "share_work"):
        # Other checkouts on this machine go on from what is proved here. A second call, by `run` below, would wait for itself.
        rt.share_work(True)
        rt.share_work = lambda is_alone: None
    os.chdir(crates.ROOT / "crates" / top)
    own = rtlib.Crate(os.getcwd(), str(crates.ROOT), {})
    every = [*own.below(), own]
    held = rtlib.lock(every)
    for it in every:
        rtlib.stop_on_links(it.folder)
    program = None if own.makes_rlib() else every.pop()
    run = Run(Schedule(rt, every, program))
    run.prove()
    if not program:
        print(f"{top} is proved, and all that it stands on")
        return 0
    run.tell(program)
    for it in held:
        os.close(it)
    return rt.main(["run", "--jobs", str(run.schedule.jobs_of_program()), "--", *arguments])


def prove_by_plain(top, arguments):
    """Proves one crate after the other: plain `rt` locks all that the crate stands on. Returns the status."""
    order, start = crates.needed(top), time.monotonic()
    for number, name in enumerate(order, 1):
        tell(number, len(order), time.monotonic() - start, name)
        folder = crates.ROOT / "crates" / name
        if (folder / "src/main.rt").exists():
            return subprocess.run([kit.plain(), "run", "--", *arguments], cwd=folder).returncode
        ran = subprocess.run([kit.plain(), "lib"], cwd=folder, stdout=subprocess.PIPE, stderr=subprocess.STDOUT)
        if ran.returncode:
            stop(name, ran.stdout.decode(errors="replace"))
    print(f"{top} is proved, and all that it stands on")
    return 0


def main():
    words = sys.argv[1:]
    is_plain = words[:1] == ["--plain"]
    top, *arguments = words[is_plain:] or [""]
    if top not in crates.listed():
        sys.exit(__doc__)
    # Python would wait at Ctrl-C for the threads. Where the caller ignores it, so does this program.
    if signal.getsignal(signal.SIGINT) is signal.default_int_handler:
        signal.signal(signal.SIGINT, signal.SIG_DFL)
    if is_plain:
        sys.exit(prove_by_plain(top, arguments))
    try:
        sys.exit(prove_by_module(kit.load(TAKEN), top, arguments))
    except kit.Unexpected as why:
        kit.warn(why)
    except Exception as error:
        kit.warn(f"the crates cannot be proved side by side ({error!r})")
    sys.stdout.flush()
    # This ends all that runs, and frees the locks.
    os.execv(sys.executable, [sys.executable, __file__, "--plain", *words])


main()
