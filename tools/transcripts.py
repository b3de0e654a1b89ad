#!/usr/bin/env python3
"""Runs the transcripts of README.md, docs/ and examples/ on a built program: tools/transcripts.py GALCERT [PAGE.md..]

A transcript is a line `$ galcert ..` or `$ ./galcert ..` in a block of code, with the lines up to the next `$` or the end of the
block. They are the lines of standard output, and then those of standard error, if the page shows any. A line `...` stands for any
lines, also for none. Lines `$` of other programs are passed over.

The commands of a page run in one folder, in turn. It has `examples/`, the files of each example and of tests/raid, those of
tests/transcripts.toml, and raid.cert. Prints each transcript that differs, then how many were run."""

import os
import pathlib
import re
import shlex
import shutil
import subprocess
import sys
import tempfile
import tomllib

sys.dont_write_bytecode = True
import cases

ROOT = cases.ROOT
MADE = ROOT / "tests/transcripts.toml"
ELLIPSIS = "..."
# What is asked of the program before a page's own commands.
BEFORE = [["check", "raid.rom", "--listing", "raid.lst", "--cert", "raid.cert"]]


def folder(galcert, room):
    """Fills the folder in which the commands of a page run."""
    shutil.copytree(ROOT / "examples", room / "examples")
    for file in [*ROOT.glob("examples/*/*"), *ROOT.glob("tests/raid/*")]:
        if file.is_file() and file.name not in ("README.md", "Makefile"):
            shutil.copy(file, room)
    said = tomllib.loads(MADE.read_text())
    made = cases.shared_of(said["files"])
    for suite, names in said["suites"].items():
        shared = cases.shared_of(tomllib.loads((cases.CASES / f"{suite}.toml").read_text())["files"])
        made |= {name: shared[of] for name, of in names.items()}
    for name, data in made.items():
        (room / name).write_bytes(data)
    for words in BEFORE:
        subprocess.run([galcert, *words], cwd=room, stdin=subprocess.DEVNULL, capture_output=True, check=True)


def transcripts(page):
    """The commands of a page: their line, their words and what follows."""
    found, block, here = [], None, None
    for number, line in enumerate(page.read_text().splitlines(), 1):
        if line.lstrip().startswith("```"):
            block, here = (None if block is not None else len(line) - len(line.lstrip())), None
        elif block is not None:
            text = line[block:]
            if text.startswith("$ "):
                words = shlex.split(text[2:])
                here = [number, words[1:], []] if words[0] in ("galcert", "./galcert") else None
                found += [here] if here else []
            elif here:
                here[2].append(text)
    return found


def differs(galcert, room, words, shown):
    """What a command prints, if the page does not show it."""
    ran = subprocess.run([galcert, *words], cwd=room, stdin=subprocess.DEVNULL, capture_output=True, timeout=300)
    out, err = ran.stdout.decode(errors="replace"), ran.stderr.decode(errors="replace")
    pattern = "".join("(?:.*\n)*?" if line == ELLIPSIS else re.escape(line) + "\n" for line in shown)
    if re.fullmatch(pattern, out) or re.fullmatch(pattern, out + err):
        return None
    return out + err


def main():
    if len(sys.argv) < 2:
        sys.exit(__doc__)
    galcert, wrong, count = os.path.realpath(sys.argv[1]), 0, 0
    pages = [pathlib.Path(it) for it in sys.argv[2:]] or [ROOT / "README.md", *sorted(ROOT.glob("docs/*.md")), *sorted(ROOT.glob("examples/*/README.md"))]
    for page in pages:
        found = transcripts(page)
        if not found:
            continue
        with tempfile.TemporaryDirectory(prefix="galcert-page-") as room:
            folder(galcert, pathlib.Path(room))
            for number, words, shown in found:
                printed = differs(galcert, room, words, shown)
                count += 1
                if printed is not None:
                    wrong += 1
                    print(f"not as it should be: {page}:{number}: galcert {shlex.join(words)} prints\n{printed}", end="")
    print(f"{count - wrong} passed, {wrong} failed")
    sys.exit(1 if wrong or not count else 0)


if __name__ == "__main__":
    main()
