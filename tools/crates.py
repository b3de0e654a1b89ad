#!/usr/bin/env python3
"""Tells what crates.txt lists.

usage: tools/crates.py               the number of crates, the longest chain, and the sums that plain `rt` makes
       tools/crates.py below CRATE   the crates that one stands on, and itself last, lowest first, one a line

Plain `rt` sums up the files of a crate once for each path that leads down to it. So the sums are the paths from the program
down the graph of crates; a name taken out of crates.txt takes its paths with it."""

import functools
import pathlib
import sys

ROOT = pathlib.Path(__file__).resolve().parent.parent
PROGRAM = "galcert"


@functools.lru_cache(maxsize=None)
def listed():
    """Each crate of this repository, with those of them that it names, in the order of crates.txt."""
    named = {}
    for line in (ROOT / "crates.txt").read_text().splitlines():
        name, colon, below = line.split("#")[0].partition(":")
        if colon:
            named[name.split()[0]] = below.split()
    return {name: [low for low in below if low in named] for name, below in named.items()}


def needed(top):
    """The crates that one stands on, and itself last, lowest first."""
    order = []

    def visit(name):
        if name not in order:
            for low in listed()[name]:
                visit(low)
            order.append(name)

    visit(top)
    return order


@functools.lru_cache(maxsize=None)
def sums(name):
    """How many files' sums plain `rt` makes for one sum of the crate: its own, and those of each crate that it names."""
    return 1 + sum(sums(low) for low in listed()[name])


@functools.lru_cache(maxsize=None)
def chain(name):
    """The longest chain of crates that ends with this one, each of which stands on the one before."""
    return max((chain(low) for low in listed()[name]), key=len, default=()) + (name,)


def tell():
    every = needed(PROGRAM)
    print(f"{len(listed())} crates; {PROGRAM} stands on {len(every) - 1} of them")
    print(f"{sum(len(below) for below in listed().values())} names of crates in crates.txt")
    print(f"the longest chain has {len(chain(PROGRAM))}: {', '.join(chain(PROGRAM))}")
    print(f"plain rt makes {sums(PROGRAM):,} sums for {PROGRAM}; by crate, the most first:")
    for name in sorted(every, key=sums, reverse=True)[:12]:
        print(f"{sums(name):8,} {name}")


def main():
    words = sys.argv[1:]
    if not words:
        tell()
    elif len(words) == 2 and words[0] == "below" and words[1] in listed():
        print(*needed(words[1]), sep="\n")
    else:
        sys.exit(__doc__)


if __name__ == "__main__":
    main()
