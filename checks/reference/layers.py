#!/usr/bin/env python3
"""Holds crates.txt to the sources, and the drawing and the table of docs/ARCHITECTURE.md to both; where they differ it says so and ends
with status 1. With the word `write` it writes the drawing and the table anew.

Each line of crates.txt stands in a layer, behind a heading `# == NAME: what it is`. No line stands before what it uses; each library
that a line names is named by the crate's own files too, as `NAME::`, `use NAME` or `Rattle.NAME`; each folder of crates/ has its line.
The tests of the crates have the last layer, and no crate of another layer uses one of it. What a crate is for is the first sentence of
its root file.
"""

import re
import sys
from pathlib import Path

from words import Part

TOP = Path(__file__).resolve().parents[2]
CRATES = TOP / "crates"
PAGE = "docs/ARCHITECTURE.md"
TESTS = "Tests"
WIDTH = 100


class Crate:
    """A line of crates.txt: its number, the crate's name, its layer and what it uses."""

    def __init__(self, number, name, layer, uses):
        self.number, self.name, self.layer, self.uses = number, name, layer, uses

    def files(self):
        folder = CRATES / self.name
        return [path for path in sorted(folder.rglob("*")) if path.suffix in (".rt", ".antt") and "out" not in path.relative_to(folder).parts]

    def code(self):
        """All that the crate says, without comments."""
        return "\n".join(re.sub(r"(//|--).*$", "", path.read_text(encoding="utf-8"), flags=re.M) for path in self.files())

    def purpose(self):
        """The first sentence of the root file's comment."""
        roots = [path for path in (CRATES / self.name / "src" / name for name in ("lib.rt", "main.rt")) if path.is_file()]
        if not roots:
            return ""
        words = []
        for line in roots[0].read_text(encoding="utf-8").splitlines():
            if not line.startswith("//! "):
                break
            words.append(line.removeprefix("//! ").strip())
        text = re.sub(r"\[(`[^`]+`)\](?:\([^)]*\))?", r"\1", " ".join(words))
        return re.split(r"(?<=\.)\s+(?=[A-Z\[`-])", re.sub(r" \(PeerReview, SOSP 2007[^)]*\)", "", text).replace("|", "\\|"))[0] if text else ""


def read_crates():
    """The layers with their words, lowest first, and the crates; and what is wrong with the lines."""
    layers, crates, faults = {}, {}, []
    for number, line in enumerate((TOP / "crates.txt").read_text(encoding="utf-8").splitlines(), 1):
        heading = re.match(r"# == (\w[^:]*): (.+)$", line)
        name, colon, uses = line.partition("#")[0].partition(":")
        if heading:
            layers[heading[1]] = heading[2]
        elif colon and not layers:
            faults.append(f"crates.txt:{number}: stands behind no heading")
        elif colon:
            name = name.split()[0]
            crates[name] = Crate(number, name, list(layers)[-1], uses.split())
    return layers, crates, faults


def faults_of(crates, layers):
    """What is wrong with the order of the lines and with what they name."""
    for crate in crates.values():
        code = crate.code()
        for used in crate.uses:
            other = crates.get(used)
            if other and other.number > crate.number:
                yield f"crates.txt:{crate.number}: {crate.name} stands before {used}, which it uses"
            if other and other.layer == TESTS and crate.layer != TESTS:
                yield f"crates.txt:{crate.number}: {crate.name} uses {used}, which serves tests"
            if not re.search(rf"(?<![\w.:]){used}::|\buse {used}\b|\bRattle\.{used}\b", code):
                yield f"crates.txt:{crate.number}: {crate.name} never names {used}"
        if crate.name.endswith("_tests") and crate.layer != TESTS:
            yield f"crates.txt:{crate.number}: {crate.name} stands in another layer than {TESTS}"
        if not crate.purpose():
            yield f"crates/{crate.name}: the root file does not begin with what the crate is for"
    if list(layers)[-1:] != [TESTS]:
        yield f"crates.txt: the last layer is not {TESTS}"
    for name in layers:
        if not any(crate.layer == name for crate in crates.values()):
            yield f"crates.txt: no crate stands in the layer {name}"
    for folder in sorted(CRATES.iterdir()):
        if folder.is_dir() and folder.name not in crates and any((folder / "src").glob("*.rt")):
            yield f"crates.txt: lacks {folder.name}"


def members(crates, layer):
    return [crate for crate in crates.values() if crate.layer == layer]


def drawing(layers, crates):
    """The layers, the highest first, each with all of its crates."""
    gap = max(len(name) for name in layers) + 2
    lines = ["```"]
    for layer in reversed(layers):
        rows = [""]
        for crate in members(crates, layer):
            if rows[-1] and len(rows[-1]) + 2 + len(crate.name) > WIDTH - gap:
                rows.append("")
            rows[-1] += ("  " if rows[-1] else "") + crate.name
        lines += [f"{layer if at == 0 else '':{gap}}{row}" for at, row in enumerate(rows)]
        lines.append("")
    return "\n".join(lines[:-1] + ["```"]) + "\n"


def linked(name):
    """A crate's name, which leads to the page of its promises where it has one."""
    return f"[`{name}`](promises/{name}.md)" if (TOP / "docs" / "promises" / f"{name}.md").is_file() else f"`{name}`"


def table(layers, crates):
    """A row a crate, in the order of the layers."""
    lines = []
    for layer, what in layers.items():
        if layer != TESTS:
            lines += [f"\n**{layer}**: {what}.\n", "| Crate | What it is for |", "|---|---|"]
            lines += [f"| {linked(crate.name)} | {crate.purpose()} |" for crate in members(crates, layer)]
    return "\n".join(lines)[1:] + "\n"


def main():
    layers, crates, faults = read_crates()
    faults += faults_of(crates, layers)
    print(*faults, sep="\n", end="\n" if faults else "")
    write = sys.argv[1:] == ["write"]
    held = [
        Part(PAGE, "checks/reference/layers.py, drawing").held_to(drawing(layers, crates), write),
        Part(PAGE, "checks/reference/layers.py, table").held_to(table(layers, crates), write),
    ]
    if faults or not all(held):
        return 1
    print(f"crates.txt has {len(crates)} crates in {len(layers)} layers, as {PAGE} has them")
    return 0


if __name__ == "__main__":
    sys.exit(main())
