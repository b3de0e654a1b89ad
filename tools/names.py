#!/usr/bin/env python3
"""Lists names that stand for two things, and clauses that are too long.

usage: tools/names.py [KIND..]        with no kind: rust, words, views, modules and clauses, as `make test` runs it

  rust      public Rust names that two crates give to different things. A name is public if lib.rt declares it or names it
            in a `pub use`. A `pub use` of another crate's name is that crate's thing. Methods do not count.
  words     words that the specs of two crates define
  views     words of specs that equal a public Rust type, of any crate: the view of a type T is called TView
  modules   modules of Rust that have the name of another crate
  clauses   clauses of contracts over 100 columns (at most 3% of all) and over 200 (none)
  inner     types inside a crate that have the name of a public type, or of a word of specs, of another crate; only shown

Each finding is one line of output, with files and lines. The status is 1 if one of the first four kinds has a finding, or
if the clauses exceed their limits."""

import pathlib
import re
import sys

ROOT = pathlib.Path(__file__).resolve().parent.parent
CRATES = ROOT / "crates"
LONG, TOO_LONG, SHARE = 100, 200, 0.03

# Names that may stand for two things, each with the reason.
ALLOWED = {}

ITEM = re.compile(r"^(pub(?:\([a-z]+\))? )?(?:unsafe )?(struct|enum|trait|type|const(?: fn)?|static|fn|union) (\w+)")
USE = re.compile(r"^(pub )?use ([^;]+);", re.M)
MODULE = re.compile(r"^\s*(?:pub(?:\([a-z]+\))? )?mod (\w+);")
MACRO = re.compile(r"^macro_rules! (\w+)")
TYPES = ("struct", "enum", "trait", "type", "union")

SPEC = re.compile(r"^(?:(?:pub|abbrev|unfoldable|ghost|opaque) )*(?:(record|data) ([^\s(){}:]+)|([^\s(){}:]+) :)")


class Place:
    """Where a name is declared."""

    def __init__(self, path, number, kind):
        self.path = path
        self.number = number
        self.kind = kind

    def __str__(self):
        return f"{self.path.relative_to(ROOT)}:{self.number}"


def imported(tree, prefix=()):
    """Each path that a `use` names, with its name here: `a::{b, c as d}` gives (a, b) as b and (a, c) as d."""
    tree = tree.strip()
    head, brace, inside = tree.partition("{")
    if not brace:
        path, _, alias = tree.partition(" as ")
        parts = (*prefix, *path.strip().split("::"))
        if parts[-1] == "self":
            parts = parts[:-1]
        yield parts, alias.strip() or parts[-1]
        return
    prefix = (*prefix, *[part for part in head.strip().split("::") if part])
    depth, start = 0, 0
    inside = inside[: inside.rindex("}")] + ","
    for at, sign in enumerate(inside):
        depth += {"{": 1, "}": -1}.get(sign, 0)
        if sign == "," and depth == 0:
            if inside[start:at].strip():
                yield from imported(inside[start:at], prefix)
            start = at + 1


class Source:
    """A file of Rust: what it declares at its top, the modules that it names, and what it brings in."""

    def __init__(self, path):
        self.declared, self.modules, self.uses = {}, {}, {}
        text = path.read_text()
        exported = False
        for number, line in enumerate(text.split("\n"), 1):
            item, module, macro = ITEM.match(line), MODULE.match(line), MACRO.match(line)
            if item:
                self.declared[item.group(3)] = Place(path, number, item.group(2)), item.group(1) or ""
            if module:
                self.modules[module.group(1)] = Place(path, number, "mod")
            if macro and exported:
                self.declared[macro.group(1)] = Place(path, number, "macro"), "pub "
            exported = line.startswith("#[macro_export]") or (exported and line.startswith("#["))
        for public, tree in USE.findall(text):
            for parts, name in imported(" ".join(tree.split())):
                self.uses[name] = parts, bool(public)


class Crate:
    """A crate: its files of Rust by their modules' paths, and its files of specs."""

    def __init__(self, folder):
        self.name = folder.name
        self.folder = folder
        self.sources = {}
        for path in sorted(folder.glob("src/**/*.rt")):
            parts = path.relative_to(folder / "src").with_suffix("").parts
            self.sources[() if parts in (("lib",), ("main",)) else parts] = Source(path)
        self.is_library = (folder / "src/lib.rt").exists()

    def macros(self):
        for source in self.sources.values():
            for name, (place, _) in source.declared.items():
                if place.kind == "macro":
                    yield name, place


class Workspace:
    def __init__(self):
        folders = sorted(path for path in CRATES.iterdir() if (path / "src").is_dir())
        self.crates = {folder.name: Crate(folder) for folder in folders}

    def home(self, crate, module, name):
        """Where a name of a module is declared, through each `use`; None where it is not of this repository."""
        while crate in self.crates:
            source = self.crates[crate].sources.get(module)
            if source is None:
                return None
            if name in source.declared:
                return source.declared[name][0]
            if name not in source.uses:
                return None
            parts, _ = source.uses[name]
            if parts[0] == "crate":
                module, name = parts[1:-1], parts[-1]
            elif parts[0] in source.modules:
                module, name = (*module, *parts[:-1]), parts[-1]
            else:
                crate, module, name = parts[0], parts[1:-1], parts[-1]
        return None

    def public(self, crate):
        """Each public name of a library, with where it is declared. A crate's modules are private, so its root has them all."""
        root = crate.sources[()]
        for name, (place, visible) in root.declared.items():
            if visible == "pub ":
                yield name, place
        for name, (_, visible) in root.uses.items():
            place = self.home(crate.name, (), name) if visible else None
            if place:
                yield name, place
        yield from crate.macros()

    def public_names(self):
        """The places of each public name; one place for a thing that several crates hand on."""
        names = {}
        for crate in self.crates.values():
            if crate.is_library:
                for name, place in self.public(crate):
                    names.setdefault(name, {})[str(place)] = place
        return names

    def words(self):
        """The places of each word that specs define."""
        words = {}
        for path in sorted(CRATES.glob("*/specs/**/*.antt")):
            if "declared" in path.parts:
                continue
            for number, line in enumerate(path.read_text().split("\n"), 1):
                found = None if line.startswith(("use ", "pub use ", "--")) else SPEC.match(line)
                if found:
                    name = found.group(2) or found.group(3)
                    words.setdefault(name, []).append(Place(path, number, found.group(1) or "word"))
        return words


def crate_of(place):
    return place.path.relative_to(CRATES).parts[0]


def told(kind, name, places):
    return f"{kind}: {name}: " + ", ".join(f"{place} ({place.kind})" for place in places)


def rust(workspace):
    for name, places in sorted(workspace.public_names().items()):
        if len({crate_of(place) for place in places.values()}) > 1 and name not in ALLOWED:
            yield told("rust", name, places.values())


def words(workspace):
    for name, places in sorted(workspace.words().items()):
        if len({crate_of(place) for place in places}) > 1 and name not in ALLOWED:
            yield told("words", name, places)


def views(workspace):
    public = workspace.public_names()
    for name, places in sorted(workspace.words().items()):
        types = [place for place in public.get(name, {}).values() if place.kind in TYPES]
        if types and name not in ALLOWED:
            yield told("views", name, [*types, *places])


def modules(workspace):
    for crate in workspace.crates.values():
        for source in crate.sources.values():
            for name, place in source.modules.items():
                if name in workspace.crates and name != crate.name and name not in ALLOWED:
                    yield told("modules", name, [place])


def inner(workspace):
    public, spoken = workspace.public_names(), workspace.words()
    for crate in workspace.crates.values():
        for source in crate.sources.values():
            for name, (place, _) in source.declared.items():
                types = [it for it in public.get(name, {}).values() if it.kind in TYPES]
                others = [it for it in [*types, *spoken.get(name, [])] if crate_of(it) != crate.name]
                if others and place.kind in TYPES and str(place) not in public.get(name, {}):
                    yield told("inner", name, [place, *others])


def clauses():
    """Each clause of a contract, with the length of its longest line."""
    for path in sorted(CRATES.glob("*/src/**/*.rt")):
        depth, first, longest = 0, 0, 0
        for number, line in enumerate(path.read_text().split("\n"), 1):
            if depth == 0:
                if not re.match(r"\s*(requires|ensures)\b", line):
                    continue
                first, longest = number, 0
            depth += line.count("{") - line.count("}")
            longest = max(longest, len(line))
            if depth <= 0:
                depth = 0
                yield Place(path, first, "clause"), longest


def judged_clauses():
    """The findings on the clauses, longest first, the summary, and whether the limits are kept."""
    every = list(clauses())
    long = sorted((it for it in every if it[1] > LONG), key=lambda it: -it[1])
    too_long = sum(columns > TOO_LONG for _, columns in long)
    lines = [f"clauses: {place}: {columns} columns" for place, columns in long]
    share = len(long) / max(1, len(every))
    summary = f"{len(long)} of {len(every)} clauses over {LONG} columns ({share:.1%}), {too_long} over {TOO_LONG}"
    return lines, summary, share <= SHARE and too_long == 0


KINDS = {"rust": rust, "words": words, "views": views, "modules": modules, "inner": inner}


def main():
    asked = sys.argv[1:] or ["rust", "words", "views", "modules", "clauses"]
    if not set(asked) <= {*KINDS, "clauses"}:
        sys.exit(__doc__)
    workspace = Workspace()
    summaries, is_good = [], True
    for kind in asked:
        if kind == "clauses":
            lines, summary, is_kept = judged_clauses()
        else:
            lines = list(KINDS[kind](workspace))
            summary, is_kept = f"{len(lines)} {kind}", not lines
        is_shown = len(asked) == 1 or not is_kept
        print(*lines * is_shown, sep="\n", end="\n" if lines and is_shown else "")
        summaries.append(summary)
        is_good = is_good and (is_kept or kind == "inner")
    print("; ".join(summaries))
    sys.exit(0 if is_good else 1)


if __name__ == "__main__":
    main()
