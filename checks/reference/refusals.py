#!/usr/bin/env python3
"""Holds the table of refusals in docs/FORMATS.md, those for C, C++, Rust and Go, and the names in the Python package's errors.py and in
second_opinion/check.py to the sources; where they differ it says so and ends with status 1. With the word `write` it writes all but the
last two anew.

Each enum of faults gives a variant's number and name by `number` and `name`, and a line for a person. A program may also tell a refusal by a
text of its own, `"refused NUMBER NAME: {file}: LINE"`. A row has a number and a name, the line of the lowest crate that tells it, and the types
or programs that do. A number has one name, and one of `GONE` is not used again. `Reason` is why a log deviates, and no refusal. Crates come as in crates.txt, lowest first.

The languages have the refusals that calls tell, each by a name of its own: a name that a second number has too is another there (`OWN`). What
they say of each is the sentence in errors.py.
"""

import re
import sys
from pathlib import Path
from typing import NamedTuple

import layers
from words import Part

TOP = Path(__file__).resolve().parents[2]
PAGE = "docs/FORMATS.md"
HEADER = TOP / "c" / "refusals.h"
ERRORS = "python/src/bulwynef/errors.py"
# The refusals that are gone.
GONE = {107: "OtherLength", 108: "OtherSum"}
# The names in other languages of those refusals of whose names there is a second one.
OWN = {23: "DirectoryBadMagic", 24: "DirectoryTruncated", 25: "DirectoryTrailing", 30: "NodeUnknownNode", 34: "MessageBadSignature", 124: "JournalOtherDirectory"}

ARM = re.compile(r"((?:\w+::\w+(?:\(_\))?\s*\|\s*)*\w+::\w+(?:\(_\))?)\s*=>\s*(\d+|\"\w+\")")
VARIANT = re.compile(r"(\w+)::(\w+)")
# A refusal in a text: its number and name, places, and the line for a person
TEXT = re.compile(r'"refused (\d+) (\w+)(?:: \{\w+\}|\{\w+\})*: ([^"{}]+)"')
ANY_TEXT = re.compile(r"refused \d")
LINE = re.compile(r'((?:^\s*///.*\n)*)(?:^\s*#\[error\("([^"]*)"\)\]\n)?^\s*(\w+)(?:\(\w+\))?,$', re.M)


class Told(NamedTuple):
    """A refusal that calls tell: its number and name, the name that it has in other languages, and its sentence."""

    number: int
    name: str
    own: str
    sentence: str


def crates():
    """The crates, each behind those that it stands on."""
    return [crate.name for crate in layers.read_crates()[1].values() if crate.layer != layers.TESTS]


def lines_of(text, kind):
    """What is told to a person of each variant of an enum: the line that it derives, or its comment."""
    body = re.search(rf"\benum {kind}\b.*?\{{\n(.*?)^\}}", text, re.M | re.S)[1]
    told = {}
    for comment, line, variant in LINE.findall(body):
        words = " ".join(part.strip().removeprefix("///").strip() for part in comment.strip().splitlines())
        words = re.sub(r"^\d+: ", "", words)
        told[variant] = line or words[:1].lower() + words[1:].rstrip(".")
    return told


def refusals():
    """(number, name): the types that tell it, lowest first, and the first one's line."""
    rows = {}
    for crate in crates():
        for path in sorted((TOP / "crates" / crate / "src").glob("**/*.rt")):
            text = path.read_text(encoding="utf-8")
            given = {}
            for variants, value in ARM.findall(text):
                for kind, variant in VARIANT.findall(variants):
                    given.setdefault((kind, variant), []).append(value)
            for (kind, variant), values in given.items():
                number = next((int(value) for value in values if value.isdigit()), None)
                name = next((value.strip('"') for value in values if value.startswith('"')), None)
                if number is None or name is None or kind == "Reason" or not re.search(rf"\benum {kind}\b", text):
                    continue
                row = rows.setdefault((number, name), ([], lines_of(text, kind).get(variant, "")))
                row[0].append(f"`{crate}::{kind}`")
            for number, name, line in TEXT.findall(text):
                row = rows.setdefault((int(number), name), ([], line))
                row[0].append(f"`{crate}`")
    return rows


def faults_of_texts():
    """The texts that tell a refusal otherwise than `TEXT`."""
    for crate in crates():
        for path in sorted((TOP / "crates" / crate / "src").glob("**/*.rt")):
            code = re.sub(r"^\s*//.*", "", path.read_text(encoding="utf-8"), flags=re.M)
            if len(ANY_TEXT.findall(code)) != len(TEXT.findall(code)):
                yield f"{path.relative_to(TOP)}: a text tells a refusal, and not as `refused NUMBER NAME: {{file}}: LINE`"


def faults_of_numbers(rows):
    names = {}
    for number, name in rows:
        names.setdefault(number, []).append(name)
    for number, found in names.items():
        if len(found) > 1:
            yield f"the sources give {number} the names {' and '.join(found)}"
        if number in GONE:
            yield f"the sources give {number} the name {' and '.join(found)}: it was that of {GONE[number]}, and is not used again"


def table():
    rows = ["| Number | Name | It says that | Told by |", "|---|---|---|---|"]
    for (number, name), (kinds, line) in sorted(refusals().items()):
        rows.append(f"| {number} | {name} | {line} | {', '.join(kinds)} |")
    return "\n".join(rows) + "\n"


def header(rows):
    """The numbers and names for C."""
    head = "/* The number and the name of each refusal, as docs/FORMATS.md has them. checks/reference/refusals.py makes this file. */\n"
    lines = "".join(f'    {{{number}, "{name}"}},\n' for number, name in sorted(rows))
    return f"{head}static const struct {{ unsigned number; const char *name; }} refusals[] = {{\n{lines}}};\n"


def faults_of_header(wanted, write):
    if write:
        HEADER.write_text(wanted, encoding="utf-8")
    elif HEADER.read_text(encoding="utf-8") != wanted:
        yield "c/refusals.h: is not what the sources give: checks/reference/refusals.py write makes it anew"


def sentences(of_journals=False):
    """The refusals of errors.py that calls tell: of each number and name the sentence. Or those that only journals of the package tell."""
    parts = (TOP / ERRORS).read_text(encoding="utf-8").split("\nOF_JOURNALS", 1)
    text = parts[1] if of_journals else parts[0]
    return {(int(number), name): line for number, name, line in re.findall(r'^    (\d+): \("(\w+)", "([^"]*)"\),$', text, re.M)}


def faults_of_python(rows):
    found = sentences()
    yield from unknown(ERRORS, [*found, *sentences(of_journals=True)], rows)
    for (number, name), (kinds, _) in rows.items():
        if "`byte_calls::Refusal`" in kinds and (number, name) not in found:
            yield f"{ERRORS}: lacks {number} {name}, which calls tell"


def shouted(name):
    return re.sub(r"(?<=[a-z])(?=[A-Z])", "_", name).upper()


# How wide the longest name is, by which gofmt lays out what follows.
WIDEST = max(len(OWN.get(number, name)) for number, name in sentences())

# What stands of the refusals in a file, between its marks: the lines before, of each one its line, and the lines behind.
LANGUAGES = [
    ("c/bulwynef.h", "enum bulwynef_refusal {\n", lambda it: f"    BULWYNEF_REFUSED_{shouted(it.own)} = {it.number},\n", "};\n"),
    (
        "cpp/bulwynef.hpp",
        "inline const char *told(uint8_t number) {\n    switch (number) {\n",
        lambda it: f'    case {it.number}: return "{it.name}: {it.sentence}";\n',
        '    }\n    return "Unknown: The number is none that there is.";\n}\n',
    ),
    ("rust/bulwynef/src/refusal.rs", "refusals! {\n", lambda it: f'    {it.own} = {it.number}, "{it.name}", "{it.sentence}";\n', "}\n"),
    ("go/refusals.go", "const (\n", lambda it: f"\tRefused{it.own:<{WIDEST}} Refusal = {it.number}\n", ")\n\n"),
    (
        "go/refusals.go",
        "func (it Refusal) told() (name, sentence string) {\n\tswitch it {\n",
        lambda it: f'\tcase {it.number}:\n\t\treturn "{it.name}", "{it.sentence}"\n',
        '\t}\n\treturn "Unknown", "The number is none that this version knows."\n}\n\n',
    ),
]
MARKS = re.compile(r"(/[/*] made by checks/reference/refusals\.py(?: \*/)?\n)(.*?)([ \t]*/[/*] end(?: \*/)?\n)", re.S)


def in_languages():
    """The refusals as other languages have them, ascending."""
    return [Told(number, name, OWN.get(number, name), line) for (number, name), line in sorted(sentences().items())]


def faults_of_languages(write):
    found = in_languages()
    names = [it.own for it in found]
    for it in found:
        if names.count(it.own) > 1:
            yield f"{it.number} {it.own}: a second refusal has this name: OWN names one of them otherwise"
    for path in dict.fromkeys(path for path, *_ in LANGUAGES):
        made = iter([before + "".join(map(line, found)) + behind for where, before, line, behind in LANGUAGES if where == path])
        text = (TOP / path).read_text(encoding="utf-8")
        wanted = MARKS.sub(lambda mark: mark[1] + next(made, "") + mark[3], text)
        if next(made, None) is not None:
            yield f"{path}: lacks marks of what refusals.py makes"
        elif wanted != text and write:
            (TOP / path).write_text(wanted, encoding="utf-8")
        elif wanted != text:
            yield f"{path}: is not what the sources give: checks/reference/refusals.py write makes it anew"


def faults_of_check(rows):
    text = (TOP / "second_opinion" / "check.py").read_text(encoding="utf-8")
    names = re.search(r'^NAMES = """(.*?)"""', text, re.M | re.S)
    found = [(int(number), name) for number, name in re.findall(r"(\d+) (\w+)", names[1] if names else "")]
    yield from unknown("second_opinion/check.py", found, rows)


def unknown(place, found, rows):
    """The refusals that the sources lack."""
    for number, name in found:
        if (number, name) not in rows:
            yield f"{place}: the sources have no refusal {number} {name}"
    if not found:
        yield f"{place}: no refusal is found"


def main():
    write = sys.argv[1:] == ["write"]
    rows, wanted = refusals(), table()
    faults = [*faults_of_texts(), *faults_of_numbers(rows), *faults_of_header(header(rows), write), *faults_of_python(rows)]
    faults += [*faults_of_check(rows), *faults_of_languages(write)]
    print(*faults, sep="\n", end="\n" if faults else "")
    if not Part(PAGE, "checks/reference/refusals.py").held_to(wanted, write) or faults:
        return 1
    print(f"{PAGE} has the sources' {len(rows)} refusals, and so have C, C++, Rust, Go, Python and check.py")
    return 0


if __name__ == "__main__":
    sys.exit(main())
