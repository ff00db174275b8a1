#!/usr/bin/env python3
"""Holds the functions of the crates to six arguments and eight clauses, but for those that breadth.txt lists.

    breadth.py [list]

The runtime and the allocator (`rt`, `alloc`), which each call that needs them is handed, are not counted. breadth.txt has a line for each
function that is broader: its crate, its name, its arguments and its clauses. The script fails where the sources have others: so a broad
function is seen when it comes. With `list` it writes what the sources have; the list is to get shorter.

It fails too where a function begins as none that `HEAD` knows, by which promises.py and definitions.py find functions as well.
"""
import re
import sys
from pathlib import Path

sys.dont_write_bytecode = True

from promises import HEAD

TOP = Path(__file__).resolve().parents[2]
LISTED = Path(__file__).resolve().parent / "breadth.txt"
MOST_ARGUMENTS, MOST_CLAUSES = 6, 8
ANY_HEAD = re.compile(r'^(?!\s*//)(?:[^"\n]|"C")*\bfn (?P<name>\w+)\s*[<(]', re.M)
CLAUSE = re.compile(r"^\s+(?:requires|ensures) ", re.M)


def behind(text, place, opening, closing):
    """The place behind the bracket that closes the one at the place. An arrow's head closes nothing."""
    depth = 0
    for at in range(place, len(text)):
        if text[at] == opening:
            depth += 1
        elif text[at] == closing and text[at - 1] != "-":
            depth -= 1
            if depth == 0:
                return at + 1
    raise ValueError(f"no {closing} at {place}")


def arguments_in(text):
    """The arguments in the brackets: what commas part that stand in no other bracket."""
    depth, part, parts = 0, "", []
    for at, sign in enumerate(text):
        if sign in ")]}" or (sign == ">" and text[at - 1] != "-"):
            depth -= 1
        if sign == "," and depth == 1:
            parts, part = [*parts, part], ""
        elif depth:
            part += sign
        if sign in "([{<":
            depth += 1
    return [part for part in [*parts, part] if part.strip()]


def arguments_of(text):
    """How many arguments stand in the brackets, beside the runtime and the allocator."""
    return sum(not re.match(r"\s*(?:rt|alloc)\s*:", argument) for argument in arguments_in(text))


def functions_of(text):
    """The name of each function, how many arguments it has, and how many clauses."""
    for match in HEAD.finditer(text):
        place = match.end()
        if text[place] == "<":
            place = behind(text, place, "<", ">")
        end = behind(text, place, "(", ")")
        body = re.search(rf"^{match['indent']}\{{|[;{{]$|\{{\}}$", text[end:], re.M)
        yield match["name"], arguments_of(text[place:end]), len(CLAUSE.findall(text[end : end + body.start()]))


def sources():
    """Each file of code, with its crate and its text."""
    for path in sorted((TOP / "crates").glob("*/src/**/*.rt")):
        yield path, path.relative_to(TOP / "crates").parts[0], path.read_text(encoding="utf-8")


def unknown_heads():
    """The functions that begin as none that is known."""
    for path, _, text in sources():
        for match in ANY_HEAD.finditer(text):
            if not HEAD.match(text, match.start()):
                yield f"{path.relative_to(TOP)}: no script sees the function {match['name']}: promises.py does not know how it begins"


def broad():
    """What the sources have: the arguments and clauses of each function that is too broad, by its crate and name; and how many there are in all."""
    found, count = {}, 0
    for _, crate, text in sources():
        for name, arguments, clauses in functions_of(text):
            count += 1
            if arguments > MOST_ARGUMENTS or clauses > MOST_CLAUSES:
                known = found.get((crate, name), (0, 0))
                found[crate, name] = max(known[0], arguments), max(known[1], clauses)
    return found, count


def listed():
    rows = [line.split() for line in LISTED.read_text(encoding="utf-8").splitlines()]
    return {(crate, name): (int(arguments), int(clauses)) for crate, name, arguments, clauses in rows}


def told(breadth):
    return "{} arguments and {} clauses".format(*breadth) if breadth else f"no more than {MOST_ARGUMENTS} arguments and {MOST_CLAUSES} clauses"


def faults_of(found, known):
    for crate, name in sorted({*found, *known}):
        has, says = found.get((crate, name)), known.get((crate, name))
        if has != says:
            yield f"{crate}: {name} has {told(has)}, and breadth.txt gives it {told(says)}"


def main():
    found, count = broad()
    if sys.argv[1:] == ["list"]:
        lines = [f"{crate} {name} {arguments} {clauses}\n" for (crate, name), (arguments, clauses) in sorted(found.items())]
        LISTED.write_text("".join(lines), encoding="utf-8")
    faults = [*unknown_heads(), *faults_of(found, listed())]
    print(*faults, sep="\n", end="\n" if faults else "")
    if not faults:
        print(f"of {count} functions {len(found)} have more than six arguments or eight clauses, as listed")
    return 1 if faults else 0


if __name__ == "__main__":
    sys.exit(main())
