#!/usr/bin/env python3
"""Takes the libraries that `rt ci` keeps on this machine for the very text of this checkout: tools/kept.py. It lists the others.

`rt ci` keeps each crate as soon as it is proved, also if the run ends early or was for some crates alone. What is taken over counts
as built for `tools/rt check`, which then begins at once."""

import os
import sys

sys.dont_write_bytecode = True
import crates
import kit

# What this program calls of `rt`, beside what kit.py names.
TAKEN = {
    "Kept.give": ["self", "crate", "tests", "key"],
    "Kept.key": ["self", "crate"],
    "rtlib.Crate.__init__": ["self", "folder", "root", "known", "above", "name"],
    "rtlib.Crate.is_built": ["self"],
}


def main():
    try:
        rt = kit.load(TAKEN)
    except kit.Unexpected as why:
        sys.exit(f"kept: {why}")
    root, known = str(crates.ROOT), {}
    order = list(dict.fromkeys(low for name in crates.listed() for low in crates.needed(name)))
    libraries = [rt.Crate(f"{root}/crates/{name}", root, known, (), name) for name in order]
    libraries = [it for it in libraries if not it.is_program and not it.name.endswith("_tests")]
    kept, there, taken, missing = rt.Kept(libraries), 0, 0, []
    for crate in libraries:
        if any(low.name in missing for low in crate.below()):
            missing.append(crate.name)
        elif crate.is_built():
            there += 1
            kept.is_built(crate)
        else:
            os.makedirs(f"{crate.folder}/out", exist_ok=True)
            if kept.give(crate, False, kept.key(crate)):
                taken += 1
                kept.is_built(crate)
            else:
                missing.append(crate.name)
    print(f"{there} built, {taken} taken over, {len(missing)} missing: {' '.join(missing)}")


if __name__ == "__main__":
    main()
