#!/usr/bin/env python3
"""Which functions took longest to prove: tools/slow.py [CRATE..]

Reads when the files of out/incremental were written. The time since the file before counts for the function of a file. So
the seconds are a hint: they are about right for a crate that one job proved from nothing, and too high where other checks
ran beside it. Prints seconds, crate and function, the longest first."""

import collections
import pathlib
import re
import sys

ROOT = pathlib.Path(__file__).resolve().parent.parent
MOST = 40
# A longer gap is the time between two runs.
PAUSE = 900


def function_of(name):
    """The function that a file is about: its name without the kind of the file."""
    parts = re.sub(r"^(proofs|specs\.contracts)\.", "", name).split(".")
    return ".".join(parts[:-1]) if parts[-1][:1].isupper() and len(parts) > 1 else ".".join(parts)


def times(crate):
    """Pairs of a function of the crate and the seconds that one of its files took."""
    start = f"Rattle-{crate}-"
    files = (ROOT / "crates" / crate / "out/incremental").glob(f"antt*/{start}*.oantt")
    written = sorted((file.stat().st_mtime, file.stem.removeprefix(start)) for file in files)
    for (before, _), (after, name) in zip(written, written[1:]):
        if after - before < PAUSE:
            yield function_of(name), after - before


def main():
    crates = sys.argv[1:] or sorted(folder.name for folder in (ROOT / "crates").iterdir())
    total = collections.Counter()
    for crate in crates:
        for function, seconds in times(crate):
            total[crate, function] += seconds
    for (crate, function), seconds in total.most_common(MOST):
        print(f"{seconds:7.1f} {crate} {function}")


main()
