#!/usr/bin/env python3
"""Makes the tables of docs/DEFINITIONS.md from the sources alone, with the word `write`; without it, it tells whether they are up to date,
and ends with status 1 where they are not.

The page lists the files of specs/ of each crate, in an order in which each uses only what stands before it, with its lines without
imports and blank ones; specs/within, whose words no public contract uses, and the crates of tests are left out. It opens with the files
on which the headline rests: those that the contracts in HEADLINE cite, by their names or by the values that contracts see of the types
in their signatures, and all that these files import, to the end. There a file is listed whole, whatever part of it is used. What the
types of the sources are is no definition in specs/, so the types and constants that these files use are named apart.

Each definition has one of three marks, and its lines count there, with its comment. `believe`: a clause of a public call cites it, or
what a contract sees of a type, or a law of the headline, or what one of these uses. `consequence`: else, where a clause of a law cites
it, or the proof that a program or a coding keeps its laws, or what one of these uses. `inner`: all else, as that of the crates in INNER,
whose calls the house alone makes. A name in a definition's text counts as a use of what the file has or imports under that name.
"""

import re
import sys
from collections import defaultdict
from pathlib import Path

import layers
import promises
from words import Part

TOP = Path(__file__).resolve().parents[2]
CRATES = TOP / "crates"
PAGE = "docs/DEFINITIONS.md"

# Crates whose calls other crates of the house make and nobody else: parts of what stands above them.
INNER = "sha256_lanes tiered_vec parallel_map kept_evidence kept_entries kept_items node_tables sentences known_logs".split()

MARKS = ("believe", "consequence", "inner")

# The contracts that carry the headline, and what stands in their premises (docs/PROMISES.md has the table).
HEADLINE = [
    ("replay_verifier/src/program.rt", ["Program"]),
    ("evidence/src/evidence.rt", ["Evidence"]),
    ("witness_core/src/running.rt", ["run"]),
    ("witness_core/src/laws.rt", ["took_members", "replies_are_one", "stops_are_one", "takers_are_equal"]),
    ("evidence_set/src/laws.rt", ["joins_are_least_upper_bounds", "indications_are_one", "forgeries_are_unsigned", "collisions_are_of_two_texts"]),
    ("evidence/src/laws.rt", ["sets_have_one_text"]),
    ("accuracy/src/laws.rt", ["honest_nodes_are_not_exposed", "texts_are_hashed"]),
    ("accuracy/src/exposing.rt", ["exposes"]),
]

USE = re.compile(r"^\s*(?:pub )?(?:ghost )?use Rattle\.(\w+)\.specs\.([\w.]+?)(?:\.\{(.*)\}| as (\w+))?;?\s*$")


def read(path):
    return path.read_text(encoding="utf-8").splitlines()


class Use:
    """One import: of which crate, which path in its specs/, which names it has there, and which here."""

    def __init__(self, crate, path, names, alias):
        self.crate, self.path = crate, path.split(".")
        pairs = [part.strip().split(" as ") for part in names.split(",")] if names else []
        self.names = [pair[0] for pair in pairs]
        self.here = [pair[-1] for pair in pairs] or [alias or self.path[-1]]


def passes_on(path):
    """Whether a file of specs/ has nothing of its own, and passes on what others have."""
    lines = read(path) if path.is_file() else []
    return any(line.startswith("pub use ") for line in lines) and all(not line or line.startswith(("--", "pub use ")) for line in lines)


def origins(use):
    """The import, or those of the files whose words a file passes on."""
    path = CRATES / use.crate / "specs" / f"{use.path[0]}.antt"
    if not passes_on(path):
        return [use]
    found = []
    for other in uses(read(path)):
        pairs = [f"{name} as {here}" for name, here in zip(use.names, use.here) if name in other.here]
        found += [Use(other.crate, ".".join(other.path), ", ".join(pairs), None)] if pairs else []
    return found


def uses(lines):
    """The imports from crates of this repository."""
    found = []
    for line in lines:
        match = USE.match(line)
        if match and (CRATES / match[1]).is_dir():
            found += origins(Use(*match.groups()))
        assert match or not re.match(r"\s*(pub )?(ghost )?use Rattle\.\w+\.specs", line), line
    return found


def specs_of(crate):
    """The files of specs/ but for those of private words and those that only list others."""
    names = ((path.stem, path) for path in sorted((CRATES / crate / "specs").glob("*.antt")))
    return {name: path for name, path in names if name not in ("Lib", "within") and not passes_on(path)}


class Sources:
    """What the files of specs/ import, how long they are, and what contracts see of each type."""

    def __init__(self):
        names = sorted(path.name for path in CRATES.iterdir() if path.is_dir() and not path.name.endswith("_tests"))
        self.paths = {(crate, name): path for crate in names for name, path in specs_of(crate).items()}
        self.lines, self.uses = {}, {}
        for spec, path in self.paths.items():
            lines = [line for line in read(path) if line.strip()]
            self.uses[spec] = uses(lines)
            self.lines[spec] = sum(not re.match(r"(pub )?use ", line) for line in lines)
        self.values, self.types = {}, {}
        for crate in names:
            for path in sorted((CRATES / crate / "src").rglob("*.rt")):
                self.read_types(crate, path)

    def read_types(self, crate, path):
        """The bodies of the types of a file, and for each `Model` the lines that say which value a contract sees."""
        text = path.read_text(encoding="utf-8")
        for match in re.finditer(r"^impl[^\n]* Model for (\w+).*?^\}", text, re.M | re.S):
            body = match[0].splitlines()
            seen = "\n".join(line for line in body if re.match(r"\s*ghost (Value|coded|view) ", line))
            self.values[match[1]] = self.cited(uses(body), seen)
        for match in re.finditer(r"^pub (?:struct|enum) (\w+)[^;{]*(?:;|\{.*?^\})", text, re.M | re.S):
            self.types[crate, path, match[1]] = match[0]

    def beneath(self, spec):
        """The files that a file uses."""
        return [(use.crate, use.path[0]) for use in self.uses.get(spec, []) if use.path[0] not in ("declared", "contracts")]

    def cited(self, imports, text):
        """The imports of which some name stands in the text; operators are taken to stand there."""
        words = set(re.findall(r"\w+", text))
        return [use for use in imports if any(not name.isidentifier() or name in words for name in use.here)]

    def models(self, text):
        """What says the values of the types that the text names."""
        code = re.sub(r"//.*", "", text)
        return [use for name in sorted(set(re.findall(r"\b[A-Z]\w*", code))) for use in self.values.get(name, [])]

    def contract(self, path, name):
        """The imports that a contract cites: that of a function, or those of a trait and its functions."""
        text = (CRATES / path).read_text(encoding="utf-8")
        match = re.search(rf"^pub fn {name}\b.*?^\{{|^pub trait {name}\b.*?^\}}", text, re.M | re.S)
        assert match, f"crates/{path}: no {name}"
        code = re.sub(r"//.*", "", match[0])
        return self.cited(uses(text.splitlines()), code) + self.models(code)


class Reading:
    """The files on which some contracts rest, and the types and constants that they use."""

    def __init__(self, sources, contracts):
        self.sources, self.specs, self.declared = sources, set(), defaultdict(set)
        for path, names in contracts:
            for name in names:
                self.follow(sources.contract(path, name))

    def follow(self, found):
        for use in found:
            if use.path[0] == "declared":
                self.declare(use)
            else:
                spec = (use.crate, use.path[0])
                assert spec in self.sources.paths, f"{spec}: no file of definitions that a reader has"
                if spec not in self.specs:
                    self.specs.add(spec)
                    self.follow(self.sources.uses[spec])

    def declare(self, use):
        path = [part for part in use.path[1:] if part != "TheVariants"]
        file = CRATES / use.crate / "src" / ("/".join(path[:-1]) + ".rt")
        assert file.is_file(), f"{file}: not there"
        if path[-1] == "TheConstants":
            self.declared[use.crate, file].update(use.names)
        else:
            self.declare_type(use.crate, file, path[-1])

    def declare_type(self, crate, file, name):
        """A type, those beside it of which it is made, and the values of others."""
        if name not in self.declared[crate, file]:
            self.declared[crate, file].add(name)
            body = self.sources.types[crate, file, name]
            self.follow(self.sources.models(body))
            for part in re.findall(r"[:(<,] ?([A-Z]\w*)", re.sub(r"//.*", "", body)):
                if (crate, file, part) in self.sources.types and part not in self.sources.values:
                    self.declare_type(crate, file, part)

    def beside(self, crate):
        """What is used of a crate's sources, a file at a time."""
        for owner, file in sorted(self.declared):
            if owner == crate:
                names = ", ".join(f"`{name}`" for name in sorted(self.declared[owner, file]))
                yield f"`{file.relative_to(CRATES / crate / 'src')}`: {names}"


class Words:
    """The definitions of a file of specs/: of each its lines, and the words that it uses, by file and name."""

    def __init__(self, spec, path, imports):
        self.spec, self.lines, self.texts = spec, defaultdict(int), defaultdict(str)
        name, waiting = None, 0
        for line in promises.dedented(read(path)):
            if not line.strip() or re.match(r"(pub )?use ", line):
                continue
            if line.startswith(("--", "infix")) or promises.BLOCK.match(line):
                waiting += 1
                continue
            begun = re.match(r"(?:(?:abbrev|unfoldable|pub|record|data) )+(\S+)|(\S+) : ", line)
            name = (begun[1] or begun[2]) if begun else name
            self.lines[name] += waiting + 1
            self.texts[name] += re.sub(r"--.*", "", line) + "\n"
            waiting = 0
        if waiting:
            self.lines[name] += waiting
        self.here = {here: (use.crate, use.path[0], name) for use in imports if use.path[0] != "declared" for here, name in zip(use.here, use.names or use.here)}

    def uses(self, name):
        """The words that a definition uses."""
        words = set(re.findall(r"[A-Za-z_][\w'-]*", self.texts[name])) | {word for word in (*self.here, *self.lines) if not word.isidentifier() and word.strip("◌") in self.texts[name]}
        return [self.here.get(word) or (*self.spec, word) for word in words if word in self.here or word in self.lines and word != name]


class Marks:
    """The mark of each definition, and how many lines each file has of each."""

    def __init__(self, sources):
        self.words = {spec: Words(spec, path, sources.uses[spec]) for spec, path in sources.paths.items()}
        believed, followed = set(), set()
        for crate in {name for name, _ in sources.paths} | {path.name for path in CRATES.iterdir()}:
            if crate not in INNER and not crate.endswith("_tests") and (CRATES / crate / "src").is_dir():
                believed |= self.seen(crate, r"ghost (?!use |lawful = |laws |invariant )")
                followed |= self.seen(crate, r"ghost lawful = ")
                for call in promises.Crate(CRATES / crate).calls:
                    cited = {(owner, file, word) for _, _, found, *_ in call.clauses for owner, file, word in found}
                    (followed if call.is_law else believed).update(cited)
        for path, names in HEADLINE:
            for name in names:
                believed |= self.named(sources, path, name)
        self.believed = self.reach(believed)
        self.followed = self.reach(followed) - self.believed

    def named(self, sources, path, name):
        """The words that a contract of the headline cites."""
        text = (CRATES / path).read_text(encoding="utf-8")
        match = re.search(rf"^pub fn {name}\b.*?^\{{|^pub trait {name}\b.*?^\}}", text, re.M | re.S)
        return self.cited(text, match[0])

    def cited(self, text, part):
        """The words that a part of a source cites, by the source's imports."""
        here = {here: (use.crate, use.path[0], name) for use in uses(text.splitlines()) if use.path[0] != "declared" for here, name in zip(use.here, use.names or use.here)}
        return {here[word] for word in re.findall(r"[\w'-]+", re.sub(r"//.*", "", part)) if word in here}

    def seen(self, crate, line):
        """The words that such lines of a crate's sources cite: those by which contracts see the values of its types, what its traits and
        programs mean, or why they keep their laws."""
        found = set()
        for path in (CRATES / crate / "src").rglob("*.rt"):
            text = path.read_text(encoding="utf-8")
            found |= self.cited(text, "\n".join(re.findall(rf"^    {line}.*$", text, re.M)))
        return found

    def reach(self, roots):
        met, left = set(), [word for word in roots if word[:2] in self.words]
        while left:
            word = left.pop()
            if word not in met:
                met.add(word)
                left += [other for other in self.words[word[:2]].uses(word[2]) if other[:2] in self.words]
        return met

    def of(self, spec):
        """The lines of a file by mark."""
        counts = dict.fromkeys(MARKS, 0)
        for name, lines in self.words[spec].lines.items():
            word = (*spec, name)
            counts["believe" if word in self.believed else "consequence" if word in self.followed else "inner"] += lines
        return counts


def in_order(sources, specs):
    """The files, crates as in crates.txt; within one, what a file uses comes first."""
    crates = list(layers.read_crates()[1])
    order, met = [], set()

    def put(spec):
        if spec not in met:
            met.add(spec)
            for other in sorted(sources.beneath(spec)):
                if other[0] == spec[0] and other in sources.paths:
                    put(other)
            order.append(spec)

    for spec in sorted(specs):
        put(spec)
    return sorted((spec for spec in order if spec in specs), key=lambda spec: crates.index(spec[0]))


def headline(sources, reading):
    """The table of what the headline rests on."""
    rows, order = defaultdict(list), in_order(sources, reading.specs)
    for spec in order:
        rows[spec[0]].append(spec)
    lines = ["| Crate | Files of `specs/`, and their lines | Lines | Beside them, in `src/` |", "|---|---|---|---|"]
    for crate, specs in rows.items():
        files = ", ".join(f"`{spec[1]}` {sources.lines[spec]}" for spec in specs)
        lines.append(f"| `{crate}` | {files} | {sum(sources.lines[spec] for spec in specs)} | {'; '.join(reading.beside(crate))} |")
    lines += ["", f"These are {len(order)} files of {sum(sources.lines[spec] for spec in order)} lines."]
    return "\n".join(lines) + "\n"


STANDARD = re.compile(r" ?\(((?:RFC 8554|FIPS 180-4|PeerReview|section|SHA-256)[^)]*)\)")


def said_of(path):
    """The first sentence of a file's comment, and the standard that the comment names."""
    comment = []
    for line in read(path):
        if not line.startswith("-- "):
            break
        comment.append(line.removeprefix("-- "))
    text = " ".join(comment).replace("|", "\\|")
    standard = "; ".join(dict.fromkeys(part.replace("PeerReview, SOSP 2007", "PeerReview") for part in STANDARD.findall(text)))
    return re.split(r"(?<=\.)\s", STANDARD.sub("", text))[0], standard


def tables(sources, marks):
    """A table for each layer, and the sums."""
    order, crates, told = in_order(sources, sources.paths), layers.read_crates()[1], []
    total, layer = dict.fromkeys(MARKS, 0), None
    for spec in order:
        if crates[spec[0]].layer != layer:
            layer = crates[spec[0]].layer
            told += ["", f"**{layer}**", "", "| File of `specs/` | Lines | " + " | ".join(MARKS) + " | What it defines | Standard |", "|---|---|---|---|---|---|---|"]
        counts, (what, standard) = marks.of(spec), said_of(sources.paths[spec])
        total = {mark: total[mark] + counts[mark] for mark in MARKS}
        link = f"[`{spec[0]}`: `{spec[1]}`](../crates/{spec[0]}/specs/{spec[1]}.antt)"
        told.append(f"| {link} | {sources.lines[spec]} | {' | '.join(str(counts[mark] or '') for mark in MARKS)} | {what} | {standard} |")
    sums = ", ".join(f"{total[mark]} {mark}" for mark in MARKS)
    return f"{len(order)} files have {sum(sources.lines.values())} lines: {sums}.\n" + "\n".join(told) + "\n", total


def main():
    sources = Sources()
    reading, marks = Reading(sources, HEADLINE), Marks(sources)
    text, total = tables(sources, marks)
    assert sum(total.values()) == sum(sources.lines.values()), "each line has one mark"
    write = sys.argv[1:] == ["write"]
    held = [
        Part(PAGE, "checks/reference/definitions.py, headline").held_to(headline(sources, reading), write),
        Part(PAGE, "checks/reference/definitions.py, tables").held_to(text, write),
    ]
    if not all(held):
        return 1
    print(f"{PAGE} is up to date: {text.splitlines()[0]} The headline's {len(reading.specs)} have {sum(sources.lines[spec] for spec in reading.specs)}.")
    return 0


if __name__ == "__main__":
    sys.exit(main())
