#!/usr/bin/env python3
"""Holds that no function of a module differs from a type, a trait or another module by the case of letters alone, as `size` from `Size`.

The prover gives each of these a file of its own name, and refuses two that are one where case does not count: behind hours of a gate, since
all that stands below was proved by then. A file of proofs/ must not be named so as a module of its crate is either. Aliases and constants have
no file.
"""

import re
import sys
from pathlib import Path

sys.dont_write_bytecode = True

from promises import HEAD

TOP = Path(__file__).resolve().parents[2]
ITEM = re.compile(r"^(?:pub(?:\([a-z]+\))? )?(?:struct|enum|trait|mod) (\w+)", re.M)


def names_of(path):
    """The functions, types, traits and modules that stand in a file of code."""
    text = path.read_text(encoding="utf-8")
    return ITEM.findall(text) + [match["name"] for match in HEAD.finditer(text) if not match["indent"]]


def faults_of(place, names):
    """The names of a place that are one in small letters."""
    met = {}
    for name in names:
        met.setdefault(name.lower(), []).append(name)
    for found in met.values():
        if len(found) > 1:
            yield f"{place}: {' and '.join(found)} differ by the case of letters alone, or not at all"


def main():
    faults, count = [], 0
    for crate in sorted((TOP / "crates").iterdir()):
        modules = sorted((crate / "src").rglob("*.rt"))
        for path in modules:
            names = names_of(path)
            count += len(names)
            faults += faults_of(path.relative_to(TOP), names)
        named = {path.stem.lower() for path in modules} - {"lib"}
        alike = [path for path in sorted((crate / "proofs").glob("*.antt")) if path.stem.lower() in named]
        faults += [f"{path.relative_to(TOP)}: a module of src/ has this name but for the case of letters" for path in alike]
    print(*faults, sep="\n", end="\n" if faults else "")
    if not faults:
        print(f"of {count} names of functions, types and modules no two of one module differ by the case of letters alone")
    return 1 if faults or not count else 0


if __name__ == "__main__":
    sys.exit(main())
