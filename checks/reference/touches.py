#!/usr/bin/env python3
"""Tells which files a change touches, by those that one of its kind touches today. `touches.py KIND` lists them, crates lowest first, with
KIND one of item-form, container, command, question, refusal, program; alone it holds the table of CONTRIBUTING.md to the sources, and with the
word `write` it writes the table anew.

A file is found by the names that stand in it, comments aside: that of an item form, a command or a question where most of their siblings
stand (it tells them apart), that of the others where the example itself does. Commands are looked for in the crates of `node_sim`, and
questions in those of `bulwynef`, which has the same four. Tests and proofs stand in the lists and are not counted.
"""

import re
import sys
from pathlib import Path

import layers
from words import Part

TOP = Path(__file__).resolve().parents[2]
CRATES = TOP / "crates"
PAGE = "CONTRIBUTING.md"
BESIDE = "checks/*/*.py second_opinion/*.py c/*.[ch] c/*.py python/*/*.py distributed/* docs/*.md docs/bulwynef.* examples/*.md examples/network/* README.md CONTRIBUTING.md".split()


class Walk:
    """A kind of change: the names by which its files are found, how many of them have to stand there, what is found beside crates, and in
    which crates it is looked for, if not in all."""

    def __init__(self, example, names, least, beside, crates=None):
        self.example, self.names, self.least, self.beside, self.crates = example, names, least, beside, crates

    def finds(self, text):
        return sum(bool(re.search(name, text)) for name in self.names) >= self.least


FORMS = [rf"\b{name}\b" for name in ("Auth", "Segment", "Audit", "Send", "Ack")]
COMMANDS = [rf"\b{name}\b|\"{name.lower()}\"|\b{name.lower()}::|\bmod {name.lower()};" for name in ("Status", "Merge", "Prove", "Check")]

WALKS = {
    "item-form": Walk("the five forms", FORMS, 4, r"\baudits?\b|\bAuditChallenge\b"),
    "container": Walk("`Pack` of `transfer`", [r"\bPack\b|\bPACK_MAGIC\b|\bpack_text\b|PRPACK01"], 1, r"PRPACK01"),
    "command": Walk("`status`, `merge`, `prove`, `check`", COMMANDS, 4, r"\bmerge\b", {"commands", "command_words", "command_tests"}),
    "question": Walk("the same of `bulwynef`", COMMANDS, 4, r"\bbulwynef\b.*\bmerge\b|\"status merge\b|\bhold_merge\b", {"operating", "bulwynef"}),
    "refusal": Walk("45 SelfMessage", [r"\bSelfMessage\b"], 1, r"\bSelfMessage\b"),
    "program": Walk("the mail relay", [r"\bMailbox\b|\bmailbox(?:_sim|_laws)?\b"], 1, r"\b(?:[Mm]ailbox|MAILBOX)(?:_sim)?\b|_MAILBOX\b"),
}


def files_of(walk, crates):
    """The files of each crate that a change of the kind touches, crates lowest first."""
    found = {}
    for crate in crates.values():
        if walk.crates is not None and crate.name not in walk.crates:
            continue
        files = [path for path in crate.files() if walk.finds(re.sub(r"(//|--).*", "", path.read_text(encoding="utf-8")))]
        if files:
            found[crate.name] = files
    return found


def beside(walk):
    """What is touched beside the crates."""
    paths = [path for pattern in BESIDE for path in sorted(TOP.glob(pattern)) if path.name != "touches.py"]
    return [path.relative_to(TOP).as_posix() for path in paths if re.search(walk.beside, path.read_text(encoding="utf-8"))]


def table(crates):
    lines = ["| `touches.py` | counted by | files of `src/` and `specs/` | of crates |", "|---|---|---|---|"]
    for kind, walk in WALKS.items():
        found = {name: files for name, files in files_of(walk, crates).items() if crates[name].layer != layers.TESTS}
        code = [name for name, files in found.items() for path in files if path.relative_to(CRATES / name).parts[0] != "proofs"]
        lines.append(f"| `{kind}` | {walk.example} | {len(code)} | {len(set(code))} |")
    return "\n".join(lines) + "\n"


def main():
    crates = layers.read_crates()[1]
    words = sys.argv[1:]
    if words in ([], ["write"]):
        lacking = [kind for kind, walk in WALKS.items() if not files_of(walk, crates) or not beside(walk)]
        print(*(f"touches.py: nothing is found of {kind}: its names stand nowhere" for kind in lacking), sep="\n", end="\n" if lacking else "")
        held = Part(PAGE, "checks/reference/touches.py").held_to(table(crates), words == ["write"])
        if held and not lacking:
            print(f"{PAGE} has the counts of {len(WALKS)} kinds of change")
        return 0 if held and not lacking else 1
    if words[0] not in WALKS:
        sys.exit(f"touches.py KIND: one of {', '.join(WALKS)}")
    for name, files in files_of(WALKS[words[0]], crates).items():
        print(f"{name}: {' '.join(path.relative_to(CRATES / name).as_posix() for path in files)}")
    print(f"beside: {' '.join(beside(WALKS[words[0]]))}")
    return 0


if __name__ == "__main__":
    sys.exit(main())
