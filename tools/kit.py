"""Loads the toolchain's `rt` as a module that remembers what it asks for again and again, and first builds small libraries.

Plain `rt` sums up the files of a crate, and lists what the crate stands on, once for each path that leads down to it: near
the top these are tens of thousands. Here each crate is summed once a call, and listed once. The sums and lists are the same,
so both kinds of `rt` go on from each other's work.

Plain `rt` builds a library with its proofs. Here the first build of a library holds its statements alone, as in `rt ci`. Checks
over statements take less time, memory and disk, but such a build keeps no work. So after an edit the library, and those above
it, are built as plain `rt` does it: then the next edit finds what they kept. Statements fit only the very builds that they were
made over. This module looks for that. Plain `rt` does not, but `rattle` then says which library to build again.

Plain `rt ci` leaves its libraries without a stamp, so that later commands build them again. Here they go on from them."""

import importlib.machinery
import importlib.util
import inspect
import os
import sys
import threading

# What the functions are called that are used here, and what they take.
TAKEN = {"main": ["words"], "need": ["crate"], "rtlib.Crate.below": ["self"]}
# The same for the libraries of statements. A kit that lacks one of these builds them all with their proofs.
FOR_STATEMENTS = {
    "rtlib.Crate.build_rlib": ["self", "flags", "anew"],
    "rtlib.Crate.call": ["self", "words"],
    "rtlib.Crate.has_kept": ["self"],
    "rtlib.Crate.is_built": ["self"],
    "rtlib.Crate.words": ["self", "flags", "tests", "keeps", "as_source"],
    "rtlib.help_of": ["verb"],
    "rtlib.text_of": ["file"],
}
# The same for the libraries that `rt ci` builds. A kit that lacks one of these builds them again after `rt ci`.
FOR_CI = {
    "Kept.is_built": ["self", "crate"],
    "Kept.is_untouched": ["self", "crate"],
    "rtlib.Crate.makes_rlib": ["self"],
}
# Some kits remember the sums by themselves, by a function of this name. The others sum by this one.
REMEMBERS, SUMS = "stamp_once", {"rtlib.Crate.stamp": ["self"]}
# The share of the memory that `rt` sets aside for a check, which this module sets aside. By that memory `rt ci` decides how
# many checks run side by side. 58 checks took 0.51 of what `rt` sets aside on average, and 0.72 at most (2026-11-29). With
# this share four of the largest run side by side in 24 GB.
SHARE = 0.5
# The word that asks for a library of statements. Beside such a library lies a file of this name, which says over which builds of
# the libraries below it was made.
STATEMENTS, MARK = "--statements", "statements"
# The last line of a library's format sums all that it holds. So long is that line.
SUM_LENGTH = 69


class Unexpected(Exception):
    """The toolchain's `rt` is not as this module expects it."""


def warn(why):
    print(f"warning: {why}: going on with plain rt, which takes longer", file=sys.stderr, flush=True)


def plain():
    """The path of the toolchain's `rt`: the first on PATH that is not tools/rt of this or another checkout."""
    for folder in os.get_exec_path():
        path = os.path.realpath(os.path.join(folder, "rt"))
        is_ours = os.path.isfile(os.path.join(os.path.dirname(path), "kit.py"))
        if os.path.isfile(path) and os.access(path, os.X_OK) and not is_ours:
            return path
    sys.exit("there is no rt on PATH")


def load(taken=None):
    """The toolchain's `rt` as a module, with sums and lists that are remembered. What else is used of it is `taken`."""
    loader = importlib.machinery.SourceFileLoader("kit_rt", plain())
    rt = importlib.util.module_from_spec(importlib.util.spec_from_loader("kit_rt", loader))
    try:
        loader.exec_module(rt)
    except (Exception, SystemExit) as error:
        raise Unexpected(f"{plain()} does not load as a module ({error})") from error
    has_sums = hasattr(rt, REMEMBERS)
    for name, parameters in {**TAKEN, **({} if has_sums else SUMS), **(taken or {})}.items():
        check(rt, name, parameters)
    if not has_sums:
        remember_sums(rt.rtlib.Crate)
    remember_lists(rt.rtlib.Crate)
    set_less_aside(rt)
    if has(rt, FOR_STATEMENTS) and STATEMENTS in rt.rtlib.help_of("build"):
        build_statements_first(rt.rtlib)
        if has(rt, FOR_CI):
            go_on_from_ci(rt)
    return rt


def check(rt, name, parameters):
    found = rt
    for part in name.split("."):
        found = getattr(found, part, None)
    if not callable(found):
        raise Unexpected(f"{plain()} has no function {name}")
    if [*inspect.signature(found).parameters] != parameters:
        raise Unexpected(f"{name} of {plain()} takes {inspect.signature(found)}")


def remember_sums(crate_type):
    """Within a call from outside each crate is summed once. The next call reads the files again, as they may have changed."""
    made, here = crate_type.stamp, threading.local()

    def stamp(crate):
        is_outer = getattr(here, "sums", None) is None
        if is_outer:
            here.sums = {}
        try:
            if crate.folder not in here.sums:
                here.sums[crate.folder] = made(crate)
            return here.sums[crate.folder]
        finally:
            if is_outer:
                here.sums = None

    crate_type.stamp = stamp


def has(rt, functions):
    try:
        for name, parameters in functions.items():
            check(rt, name, parameters)
    except Unexpected:
        return False
    return True


def beside(crate, name):
    return f"{os.path.dirname(crate.rlib)}/{name}"


def is_over_statements(crate):
    return all(os.path.exists(beside(it, MARK)) for it in crate.below())


def sum_line(crate):
    try:
        with open(f"{crate.rlib}/format", "rb") as it:
            it.seek(-SUM_LENGTH, os.SEEK_END)
            return it.read().decode()
    except OSError:
        return "none\n"


def builds_below(crate):
    return "".join(f"{it.name} {sum_line(it)}" for it in crate.below())


def note_build(crate, stamp):
    """Notes over which builds a library of statements was made, and of which text it is."""
    for name, text in (MARK, builds_below(crate)), ("stamp", stamp):
        with open(beside(crate, name), "w", encoding="utf-8") as it:
            it.write(text)


def build_statements_first(rtlib):
    """The first build of a library is of statements, if all libraries below it are. Over libraries with their proofs it would take
    far more time and memory. If one of those is built anew with its proofs, the library does not count as built any more."""
    made_is_built, made_build = rtlib.Crate.is_built, rtlib.Crate.build_rlib

    def is_built(crate):
        mark = rtlib.text_of(beside(crate, MARK))
        return made_is_built(crate) and mark in (None, builds_below(crate))

    def build_rlib(crate, flags, anew):
        is_first = not os.path.exists(beside(crate, "stamp")) and not crate.has_kept()
        if anew or not is_first or not is_over_statements(crate):
            return made_build(crate, flags, anew)
        stamp = crate.stamp()
        os.makedirs(os.path.dirname(crate.rlib), exist_ok=True)
        words = crate.words(flags, keeps=False)
        status = crate.call(rtlib.RATTLE, "build", *words, STATEMENTS, "-o", crate.rlib)
        # (after an edit meanwhile nobody could tell of which text this library is)
        if status == 0 and stamp == crate.stamp():
            note_build(crate, stamp)
        return status

    rtlib.Crate.is_built, rtlib.Crate.build_rlib = is_built, build_rlib


def go_on_from_ci(rt):
    """`rt ci` builds statements, anew or as an earlier run kept them. A library of text that did not change during the run counts as
    built for later commands."""
    made = rt.Kept.is_built

    def is_built(kept, crate):
        made(kept, crate)
        if crate.makes_rlib() and is_over_statements(crate) and kept.is_untouched(crate):
            note_build(crate, crate.stamp())

    rt.Kept.is_built = is_built


def set_less_aside(rt):
    """A check gets this share of the memory that `rt` would set aside for it."""
    made = rt.need
    rt.need = lambda crate: SHARE * made(crate)


def remember_lists(crate_type):
    """What a crate stands on does not change while `rt` runs, once the crate has all that it names."""
    made = crate_type.below

    def below(crate):
        number, found = getattr(crate, "listed_below", (None, None))
        if number != len(crate.deps):
            found = made(crate)
            crate.listed_below = len(crate.deps), found
        return [*found]

    crate_type.below = below
