#!/usr/bin/env python3
"""Holds that each edit of must-fail/ and more-edits/ applies, which takes a second; whether the prover refuses it, `rt ci` and
checks/more-edits/ try.

An edit is a file of lines `file: PATH`, and then pairs `old: TEXT` and `new: TEXT`, one line each, to the letter. PATH is a file of the crate's
src/, specs/ or proofs/, and TEXT stands in it just once, where further pairs change what the earlier ones made. No other line is read, but for
comments (`#`, `//`, `--`). No two edits of a crate make the same of it, and in must-fail/ is one at most. checks/more-edits/tried.txt lists
crates that have edits in more-edits/, in order and each once: of which all were tried and refused.
"""

import re
import sys
from collections import Counter
from pathlib import Path

sys.dont_write_bytecode = True

TOP = Path(__file__).resolve().parents[2]
TRIED = TOP / "checks" / "more-edits" / "tried.txt"
FOLDERS = ("must-fail", "more-edits")
MOST = 1
NAME = re.compile(r"[A-Za-z0-9_-][A-Za-z0-9_.-]*\.edit")


class Misfit(Exception):
    """Why an edit cannot be applied."""


def read(path):
    try:
        return path.read_text(encoding="utf-8")
    except (OSError, ValueError):
        raise Misfit(f"{path.name} cannot be read") from None


def applied(edit, crate):
    """The texts that the edit makes, by their paths in the crate."""
    path, old, texts, was = None, None, {}, {}
    for number, line in enumerate(read(edit).split("\n"), 1):
        word, _, text = line.partition(": " if line.startswith(("file: ", "old: ")) else ":")
        if word == "file":
            path = text.strip()
            if not re.fullmatch(r"(src|specs|proofs)(/\w[\w.-]*)+", path):
                raise Misfit(f"line {number} names no file of src/, specs/ or proofs/")
            if path not in texts:
                texts[path] = was[path] = read(crate / path)
        elif word == "old":
            old = text
        elif word == "new":
            if path is None or not old:
                raise Misfit(f"line {number} stands behind no 'file: ' and 'old: '")
            found = texts[path].count(old)
            if found != 1:
                raise Misfit(f"the 'old: ' above line {number} stands in {path} {found} times, and not once")
            texts[path], old = texts[path].replace(old, text.removeprefix(" ")), None
        elif line.strip() and not line.startswith(("#", "//", "--")):
            raise Misfit(f"line {number} is not read: {line.strip()[:60]}")
    if old is not None:
        raise Misfit("its last 'old: ' has no 'new: '")
    if texts == was:
        raise Misfit("it changes nothing")
    return {path: text for path, text in texts.items() if text != was[path]}


def edits_of(crate, folder):
    """The edits of a folder, and what stands in it and is none."""
    found = sorted((crate / folder).iterdir()) if (crate / folder).is_dir() else []
    edits = [path for path in found if path.is_file() and NAME.fullmatch(path.name)]
    return edits, [path for path in found if path not in edits and path.suffix != ".md"]


def faults_of(crate, counts):
    made = {}
    for folder in FOLDERS:
        edits, others = edits_of(crate, folder)
        counts[folder] += len(edits)
        yield from (f"{path.relative_to(TOP)}: is no edit" for path in others)
        if folder == "must-fail" and len(edits) > MOST:
            yield f"{crate.name}: {len(edits)} edits in must-fail/, and {MOST} at most are to be there"
        for edit in edits:
            try:
                texts = frozenset(applied(edit, crate).items())
            except Misfit as why:
                yield f"{edit.relative_to(TOP)}: {why}"
                continue
            if made.setdefault(texts, edit) != edit:
                yield f"{edit.relative_to(TOP)}: makes the same as {made[texts].name}"


def tried_crates():
    """The crates of which all further edits were tried and refused."""
    return TRIED.read_text(encoding="utf-8").splitlines()


def faults_of_tried():
    names = tried_crates()
    if names != sorted(set(names)):
        yield "checks/more-edits/tried.txt: the names are not in order, each once"
    for name in names:
        if not edits_of(TOP / "crates" / name, "more-edits")[0]:
            yield f"checks/more-edits/tried.txt: {name} is no crate with edits in more-edits/"


def main():
    counts = Counter()
    faults = [fault for crate in sorted((TOP / "crates").iterdir()) for fault in faults_of(crate, counts)] + list(faults_of_tried())
    print(*faults, sep="\n", end="\n" if faults else "")
    if not faults:
        print(f"each of {counts['must-fail']} edits of must-fail/ and {counts['more-edits']} of more-edits/ applies; {len(tried_crates())} crates had all tried")
    return 1 if faults or not all(counts[folder] for folder in FOLDERS) else 0


if __name__ == "__main__":
    sys.exit(main())
