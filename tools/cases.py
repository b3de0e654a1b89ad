#!/usr/bin/env python3
"""Runs the cases of tests/cases/ on a built program: tools/cases.py GALCERT [--only TEXT] [FILE.toml..]

Each case is a command line over files, with the status and the output that are wanted, or a line of a table (docs/TESTS.md has
the format of both). Prints each case that differs, then how many passed and how many failed. Nothing here is proved; the program
that runs is."""

import concurrent.futures
import difflib
import os
import pathlib
import subprocess
import sys
import tempfile
import tomllib

ROOT = pathlib.Path(__file__).resolve().parent.parent
CASES = ROOT / "tests/cases"
KEYS = {"name", "args", "files", "status", "stdout", "starts", "has", "lacks", "stderr", "stderr_has", "writes", "then"}
# What a further command of a case may say.
THEN_KEYS = KEYS - {"name", "files", "then"}
SECONDS = 60
# The pairs of a row, and of which pair and which byte a register is.
PAIRS = ["AF", "BC", "DE", "HL", "IX", "IY", "AF'", "BC'", "DE'", "HL'"]
BYTES = {"A": ("AF", 0), "B": ("BC", 0), "C": ("BC", 1), "D": ("DE", 0), "E": ("DE", 1), "H": ("HL", 0), "L": ("HL", 1)}
# A program of a table begins with LD SP,4400h. A step without bytes is JR to itself.
START = "31 00 44"
STAY = "18 FE"


class BadCase(Exception):
    """A case that is not in the format of docs/TESTS.md."""


def bytes_of_hex(text):
    """The bytes that a text spells. `@0066` fills with 00 up to that address; `;` begins a comment."""
    made = bytearray()
    for line in text.splitlines():
        for word in line.partition(";")[0].split():
            if word.startswith("@"):
                place = int(word[1:], 16)
                if place < len(made):
                    raise BadCase(f"{word} stands after byte {len(made):04X}")
                made += bytes(place - len(made))
            else:
                made += bytes.fromhex(word)
    return bytes(made)


def piece(said):
    """An old or a new text: a table with `hex` is bytes. One with `text`, `from` and `count` is its text that many times, with a
    number that rises at each `{}`."""
    if isinstance(said, str):
        return said.encode()
    if set(said) == {"hex"}:
        return bytes_of_hex(said["hex"])
    return "".join(said["text"].format(said["from"] + step) for step in range(said["count"])).encode()


def changed(data, pairs):
    """The file with the first occurrence of each old text replaced, in turn."""
    for old, new in pairs:
        if piece(old) not in data:
            raise BadCase(f"the text has no {old!r}")
        data = data.replace(piece(old), piece(new), 1)
    return data


def file_of(said, shared):
    """A file's bytes: the name of a shared file, or a table with `text`, `hex`, `path`, or `of` with `change`."""
    if isinstance(said, str):
        if said not in shared:
            raise BadCase(f"no shared file has the name {said}")
        return shared[said]
    kinds = set(said) - {"change"}
    if kinds == {"text"}:
        data = said["text"].encode()
    elif kinds == {"hex"}:
        data = bytes_of_hex(said["hex"])
    elif kinds == {"path"}:
        data = (ROOT / said["path"]).read_bytes()
    elif kinds == {"of"}:
        data = file_of(said["of"], shared)
    else:
        raise BadCase(f"a file is one of text, hex, path and of, and not {sorted(said)}")
    return changed(data, said.get("change", []))


def pair_of(words):
    """A pair of a certificate's row by what is said of it: ranges of its word (None), its high byte (0) and its low byte (1)."""
    low, high = words.get(None, (0, 0xFFFF))
    bytes_of_ends = [(low >> 8, high >> 8), (low & 255, high & 255) if low >> 8 == high >> 8 else (0, 255)]
    first, second = (words.get(place, bytes_of_ends[place]) for place in (0, 1))
    if None not in words:
        low, high = first[0] << 8 | second[0], first[1] << 8 | second[1]
    return f"{low:04X}-{high:04X}:{first[0]:02X}-{first[1]:02X}:{second[0]:02X}-{second[1]:02X}"


def row_of(proc, at, mode, words):
    """The row of a table's step: ranges `A=05`, `HL=4000-40FF`, slots `[*]`, flag parts, and linears, which are facts."""
    said, parts, facts, slots = {}, [], [], "-"
    for word in words:
        if "=" in word:
            name, _, ends = word.partition("=")
            pair, place = BYTES.get(name, (name, None))
            low, _, high = ends.partition("-")
            said.setdefault(pair, {})[place] = (int(low, 16), int(high or low, 16))
        elif word[0] == "[":
            slots = word[1:-1]
        else:
            (parts if word[0] in "zbcs" else facts).append(word)
    pairs = " ".join(pair_of(said[it]) if it in said else "*" for it in PAIRS)
    return f"row {proc} {at:04X} {mode} 0 {pairs} {','.join(parts) or '-'} {','.join(facts) or '-'} {slots} -\n"


def program_of(steps):
    """The ROM in hexadecimal, the certificate, and the address of each step, of steps that are pairs of words and bytes."""
    rom, rows, sub, places = bytearray(bytes_of_hex(START)), row_of(0, 0, "u", []), "", []
    for words, code in steps:
        places.append(len(rom))
        if words is None:
            rom += bytes(int(code, 16) - len(rom))
            sub = f"proc sub {code} 0 6 -\n"
            continue
        rows += "" if words == ["-"] else row_of(int(sub != ""), len(rom), "s", words)
        rom += bytes_of_hex(code)
    procs = f"proc main 0000 {int(sub != '')} 8 -\n{sub}"
    head = f"galcert 3\nrom {len(rom)}\nmap galaxian\nstack 4380 4400\nbudget -\n{procs}"
    return rom.hex(), f"{head}{rows}end\n", places


def step_of(text, short):
    """A step of a table: the words of its row and its bytes. `@0010` begins the called procedure there."""
    if text[0] == "@":
        return None, text[1:]
    words, _, code = f" {text}".rpartition(" :")
    return [each for it in words.split() for each in short.get(it, it).split()], code if code.strip() else STAY


def verdict_of(name, steps, refused):
    """A case: the certificate of these steps is accepted, or refused with reason 12 at the address of one of them."""
    rom, certificate, places = program_of(steps)
    case = {"name": name, "args": "verify rom cert", "files": {"rom": {"hex": rom}, "cert": {"text": certificate}}}
    if refused is None:
        return {**case, "starts": "accepted\n"}
    return {**case, "status": 1, "stdout": f"refused {places[refused]:04X} 12 NotCovered\n"}


def cases_of(table):
    """The cases of a table: of each line one without the words that have `!`, which is accepted, and one for each word that
    has it. There it stands in the place of the word before it, and the step before, which does not stay, is refused."""
    for name, *texts in table["lines"]:
        said = [step_of(text, table.get("short", {})) for text in [*table.get("first", []), *texts]]
        plain = [(words and [it for it in words if it[0] != "!"], code) for words, code in said]
        yield verdict_of(f"{table['name']}: {name}", plain, None)
        for place, (words, code) in enumerate(said):
            for number, word in enumerate(words or []):
                if word[0] == "!":
                    left = [it for it in words[:number] if it[0] != "!"]
                    wrong = [*left[:-1], word[1:], *(it for it in words[number:] if it[0] != "!")]
                    before = max(it for it in range(place) if said[it][0] is not None and said[it][1] != STAY)
                    steps = [*plain[:place], (wrong, code), *plain[place + 1 :]]
                    yield verdict_of(f"{table['name']}: {name}: step {place + 1}: not {word[1:]}", steps, before)


def lines_that_differ(wanted, found):
    return "\n".join(difflib.unified_diff(wanted.split("\n"), found.split("\n"), "wanted", "found", lineterm="", n=1))


def told(galcert, command, shared, room):
    """What is wrong with the program's answer to one command in a folder, if anything is."""
    if not {"stdout", "starts", "has"} & set(command):
        raise BadCase("it says nothing of standard output")
    words = command["args"].split() if isinstance(command["args"], str) else command["args"]
    how = {"cwd": room, "stdin": subprocess.DEVNULL, "capture_output": True, "timeout": SECONDS}
    ran = subprocess.run([galcert, *words], **how)
    out, err = ran.stdout.decode(errors="replace"), ran.stderr.decode(errors="replace")
    wrong = []
    if ran.returncode != command.get("status", 0):
        wrong.append(f"status {ran.returncode}, and not {command.get('status', 0)}")
    wanted = command.get("stdout", out)
    if isinstance(wanted, dict):
        wanted = file_of(wanted, shared).decode()
    if out != wanted:
        wrong.append(lines_that_differ(wanted, out))
    if not out.startswith(command.get("starts", "")):
        wrong.append(f"standard output starts {out[:200]!r}")
    wrong += [f"standard output has no {it!r}" for it in command.get("has", []) if it not in out]
    wrong += [f"standard output has {it!r}" for it in command.get("lacks", []) if it in out]
    if "stderr" in command and err != command["stderr"]:
        wrong.append("standard error: " + lines_that_differ(command["stderr"], err))
    wrong += [f"standard error has no {it!r}" for it in command.get("stderr_has", []) if it not in err]
    for name, said in command.get("writes", {}).items():
        path = pathlib.Path(room, name)
        if said is False:
            wrong += [f"there is a file {name}"] * path.exists()
        elif not path.exists():
            wrong.append(f"there is no file {name}")
        elif path.read_bytes() != file_of(said, shared):
            wrong.append(f"{name}: " + lines_that_differ(file_of(said, shared).decode(errors="replace"), path.read_text(errors="replace")))
    return wrong


def run(galcert, case, shared):
    """What is wrong with the program's answers to a case, if anything is. It ends at the first command that differs."""
    unknown = set(case) - KEYS | {key for it in case.get("then", []) for key in set(it) - THEN_KEYS}
    if unknown or not {"name", "args"} <= set(case):
        raise BadCase(f"keys that no case has, or none of name and args: {sorted(unknown)}")
    with tempfile.TemporaryDirectory(prefix="galcert-case-") as room:
        for name, said in case.get("files", {}).items():
            pathlib.Path(room, name).write_bytes(file_of(said, shared))
        for command in [case, *case.get("then", [])]:
            wrong = told(galcert, command, shared, room)
            if wrong:
                return wrong
    return []


def judge(galcert, suite, case, shared):
    try:
        wrong = run(galcert, case, shared)
    except (BadCase, ValueError, OSError, subprocess.TimeoutExpired) as error:
        wrong = [f"{type(error).__name__}: {error}"]
    return "".join(f"not as it should be: {suite}: {case.get('name', '?')}: {it}\n" for it in wrong)


def shared_of(said):
    """The shared files of a suite, each of which may be made of those before it."""
    shared = {}
    for name, file in said.items():
        shared[name] = file_of(file, shared)
    return shared


def main():
    words = sys.argv[1:]
    only = words.pop(words.index("--only") + 1) if "--only" in words else ""
    words = [it for it in words if it != "--only"]
    if not words:
        sys.exit(__doc__)
    galcert, files = os.path.realpath(words[0]), [pathlib.Path(it) for it in words[1:]] or sorted(CASES.glob("*.toml"))
    asked, passed, failed = [], 0, 0
    for file in files:
        suite = tomllib.loads(file.read_text())
        shared = shared_of(suite.get("files", {}))
        cases = [*suite.get("case", []), *(it for table in suite.get("table", []) for it in cases_of(table))]
        names = [it.get("name") for it in cases]
        for name in {it for it in names if names.count(it) > 1}:
            print(f"not as it should be: {file.stem}: two cases have the name {name}")
            failed += 1
        asked += [(galcert, file.stem, it, shared) for it in cases if only in f"{file.stem}: {it.get('name')}"]
    with concurrent.futures.ThreadPoolExecutor(os.cpu_count()) as pool:
        for said in pool.map(lambda it: judge(*it), asked):
            print(said, end="")
            passed, failed = passed + (not said), failed + bool(said)
    print(f"{passed} passed, {failed} failed")
    sys.exit(1 if failed or not passed else 0)


if __name__ == "__main__":
    main()
