#!/usr/bin/env python3
"""Lists the trusted definitions, with their lines: those that the theorem's clauses reach.

The clauses are `safe` of `check`, `step` and `clear` of `Machine::step`, and the field `safe` of what an accepted
certificate means for the commands (`command_parts/specs/Judging.antt`). The script follows what they name, definition by
definition. A definition that it reaches must stand in a file whose first line begins with `-- Trusted`, and such a file
must hold nothing else. The script prints each definition in the wrong file and ends with status 1. It does the same if
README.md gives another count, or if the count is above the limit."""

import pathlib
import re
import sys

ROOT = pathlib.Path(__file__).resolve().parent.parent
CRATES = ROOT / "crates"
LIMIT = 1600

IMPORT = re.compile(r"^(pub )?use Rattle\.(\w+)\.specs\.([\w.]+?)(?:\.\{(.*)\}| as \w+)?$", re.M)
GHOST_IMPORT = re.compile(r"^ghost use Rattle\.(\w+)\.specs\.([\w.]+?)\.\{(.*)\};$", re.M)
WORD = re.compile(r"[A-Za-z_][\w-]*|◌[^\s,{}]+◌")
HEAD = re.compile(r"^(?:(?:abbrev|unfoldable) )?(?:pub )?(?:(?:abbrev|unfoldable) )?(?:(?:record|data) )?([A-Za-z_][\w-]*)")


def imported(names):
    """Each name of an import's list as it is called here, with what it is called there."""
    for name in names.split(","):
        there, _, here = name.strip().partition(" as ")
        yield (here or there).strip(), there.strip()


class File:
    """A file of definitions: the lines of each, by its name, and what its imports name."""

    def __init__(self, path):
        self.path = path
        text = path.read_text()
        self.is_trusted = text.startswith("-- Trusted")
        self.only_pins = "only pin" in text.split("\n", 1)[0]
        self.imports = {}
        # A crate's Lib.antt passes on whole files of other crates.
        self.passed_on = {}
        for _, crate, module, names in IMPORT.findall(text):
            if names and not module.startswith("declared"):
                for here, there in imported(names):
                    self.imports[here] = (crate, module, there)
            elif path.stem == "Lib":
                self.passed_on[module] = crate
        self.definitions = {}
        name = None
        for line in text.split("\n"):
            if not line.strip() or line.startswith(("--", "use ", "pub use ", "pub mod ", "mod ")):
                continue
            if line[0] not in " }":
                name = HEAD.match(line).group(1)
            self.definitions.setdefault(name, []).append(line)

    def words(self, name):
        lines = (re.sub(r"--.*", "", line) for line in self.definitions[name])
        return set(WORD.findall(re.sub(r'codes "[^"]*"', "", "\n".join(lines))))


class Workspace:
    def __init__(self):
        self.files = {}
        for path in sorted(CRATES.glob("*/specs/*.antt")):
            self.files[path.parent.parent.name, path.stem] = File(path)

    def home(self, crate, module, name):
        """Where a definition stands that a file defines or passes on; None where it is the toolchain's or the code's."""
        while True:
            file = self.files.get((crate, module))
            if file and name in file.definitions:
                return crate, module, name
            library = self.files.get((crate, "Lib"))
            if file and name in file.imports:
                crate, module, name = file.imports[name]
            elif not file and library and module in library.passed_on:
                crate = library.passed_on[module]
            else:
                return None

    def reached(self, start):
        found, waiting = set(), [at for at in start if at]
        while waiting:
            at = waiting.pop()
            if at in found:
                continue
            found.add(at)
            crate, module, name = at
            for word in self.files[crate, module].words(name):
                there = self.home(crate, module, word)
                if there:
                    waiting.append(there)
        return found


def clauses(path, function, names):
    """The words of a function's clauses of these names, and what the imports of its file name."""
    text = path.read_text()
    body = text[text.index(f"pub fn {function}"):]
    words = set()
    for name in names:
        clause = re.search(rf"^ *ensures {name} {{(.*?)}}$", body, re.M | re.S)
        words |= set(WORD.findall(clause.group(1)))
    imports = {}
    for crate, module, names in GHOST_IMPORT.findall(text):
        for here, there in imported(names):
            imports[here] = (crate, module, there)
    return [imports[word] for word in words if word in imports]


def starts(workspace):
    named = clauses(CRATES / "cert_checker/src/checking.rt", "check", ["safe"])
    named += clauses(CRATES / "runner/src/machine.rt", "step", ["step", "clear"])
    judging = workspace.files["command_parts", "Judging"]
    field, = (line for lines in judging.definitions.values() for line in lines if line.startswith("  pub safe :"))
    named += [judging.imports[word] for word in WORD.findall(field) if word in judging.imports]
    return {workspace.home(*at) for at in named}


def main():
    workspace = Workspace()
    reached = workspace.reached(starts(workspace))
    wrong = []
    total = pins = 0
    for (crate, module), file in workspace.files.items():
        lines = 0
        for name, body in file.definitions.items():
            is_reached = (crate, module, name) in reached
            if is_reached != file.is_trusted:
                told = "is reached, but its file is not" if is_reached else "is not reached, but its file is"
                wrong.append(f"{file.path.relative_to(CRATES)}: {name} ({len(body)} lines) {told} headed Trusted")
            lines += len(body) if is_reached else 0
        if lines:
            print(f"{lines:5} {file.path.relative_to(CRATES)}")
            pins += lines if file.only_pins else 0
            total += 0 if file.only_pins else lines
    print(f"{total:5} lines of definitions, and {pins} that only name registers, without imports, comments and blank lines")
    if total > LIMIT:
        wrong.append(f"{total} lines are more than {LIMIT}")
    if f"{total:,} lines" not in (ROOT / "README.md").read_text():
        wrong.append(f"README.md does not say that the trusted definitions have {total:,} lines")
    print(*wrong, sep="\n", end="\n" if wrong else "", file=sys.stderr)
    sys.exit(1 if wrong else 0)


if __name__ == "__main__":
    main()
