#!/bin/sh
# Times how the program reads certificates, and how much memory it takes for them.
#
# usage: bench/read.sh [PROGRAM]        PROGRAM is ./galcert where none is named
#
# It makes texts of 6,553 and of 65,530 rows of ordinary length (some 122 bytes a row, 8 MB), 4 MB of one long line, and takes
# /dev/zero as a source without end and without a line feed. Each is handed to `PROGRAM verify` five times; the least processor
# time and the greatest memory are told. The rows are refused at the first one, so that the time is that of reading.
set -eu
cd "$(dirname "$0")/.."
exec python3 - "${1:-./galcert}" <<'PYTHON'
import os
import resource
import subprocess
import sys
import tempfile

PROGRAM = os.path.abspath(sys.argv[1])
HEAD = "galcert 1\nrom 6\nstack 4380 4400\nbudget -\nproc main 0000 0 0 -\n"


def row(number):
    """A row with ranges, an origin, a slot and a potential, as loops have them."""
    low, high = 1 + number % 250, 255 - number % 5
    return (f"row 0 {number:04X} s {low:02X}00-{high:02X}FF:{low:02X}-{high:02X}:00-FF *@BC * * * * *@AF' * * * "
            f"zB -5+2*B {low:02X}34-{high:02X}78:{low:02X}-{high:02X}:00-FF {number}+13*B\n")


def run(rom, text):
    """The processor time in seconds, the greatest memory in KB and the answer of one run."""
    before = resource.getrusage(resource.RUSAGE_CHILDREN)
    child = subprocess.Popen([PROGRAM, "verify", rom, text], stdout=subprocess.PIPE, stderr=subprocess.PIPE)
    out = child.stdout.read().decode() + child.stderr.read().decode()
    _, _, usage = os.wait4(child.pid, 0)
    child.returncode = 0
    return usage.ru_utime + usage.ru_stime, usage.ru_maxrss, out.strip()


def tell(what, rom, text):
    runs = [run(rom, text) for _ in range(5)]
    seconds, memory = min(r[0] for r in runs), max(r[1] for r in runs)
    print(f"{what:34} {seconds:7.3f} s {memory:8} KB   {runs[0][2]}")
    return seconds, memory


with tempfile.TemporaryDirectory() as folder:
    def made(name, text):
        path = os.path.join(folder, name)
        with open(path, "w") as file:
            file.write(text)
        return path

    rom = os.path.join("examples", "six-bytes", "six.rom")
    none = tell("no row", rom, made("none", HEAD + "end\n"))
    few = tell("6,553 rows", rom, made("few", HEAD + "".join(map(row, range(6553))) + "end\n"))
    many = tell("65,530 rows", rom, made("many", HEAD + "".join(map(row, range(65530))) + "end\n"))
    tell("one line of 4 MB", rom, made("long", "galcert 1\n" + "x" * 4_000_000))
    tell("a source without end", rom, "/dev/zero")
    print(f"bytes of memory a row: {(many[1] - none[1]) * 1024 / 65530:.0f}; ten times the rows: {many[0] / few[0]:.1f} times as long")
PYTHON
