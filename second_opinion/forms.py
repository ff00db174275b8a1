#!/usr/bin/env python3
"""Tries a file of each form, in each of its places, and holds what is said of it to forms.txt.

    forms.py            check.py
    forms.py PROGRAM..  check.py, and builds of bulwynef

compare.py tries check.py too, so the gate does; behind that it runs this with both builds. Ends with 1 where an answer is another, and where a
form of the table is not made here or the other way round.
"""

import argparse
import os
import re
import subprocess
import sys
import tempfile

sys.dont_write_bytecode = True

import check
import make_bundle
import stored
from check import Refused, sha256, u32, u64

TABLE = "second_opinion/forms.txt"
# The words of check.py and of bulwynef for a file in each place. `quiet` is a store of no item.
PLACES = {
    "D": ("--store FILE quiet", "status --program tally --directory FILE quiet"),
    "S": ("--store nodes FILE", "status --program tally --directory nodes FILE"),
    "C": ("FILE proof", "check --program tally --directory FILE proof"),
    "P": ("nodes FILE", "check --program tally --directory nodes FILE"),
    "N": ("FILE bundle", "check --program tally --directory FILE bundle"),
    "B": ("nodes FILE", "check --program tally --directory nodes FILE"),
}


class Texts:
    """A directory of three nodes, a store that exposes one, the proof, the bundle of it, and further files."""

    def __init__(self):
        self.nodes, self.store = stored.lines_of(stored.read("examples/equivocation.txt"))
        self.proof = stored.proof_of(1, *stored.items_of(self.store))
        self.bundle = "".join(f"{line}\n" for line in make_bundle.bundle("tally", self.nodes, self.proof)).encode()
        self.two = b"PRDIREC2" + u32(2) + self.nodes[12:246]
        self.quiet = b"PRSTORE2" + u64(0)

    def files(self):
        return {name: getattr(self, name) for name in ("nodes", "proof", "bundle", "quiet")}

    def in_place(self, place):
        """What stands there, where all is well."""
        return {"S": self.store, "P": self.proof, "B": self.bundle}.get(place, self.nodes)


def line(text, end=b"\n"):
    return text.hex().encode() + end


def halves(digits, at):
    return digits[:at] + b"\n" + digits[at:]


def in_lines(digits, most):
    return b"".join(digits[at : at + most] + b"\n" for at in range(0, len(digits), most))


def forms_of(texts, text):
    """The file of each form, of the text that is to stand there."""
    digits, nodes, store = line(text, b""), line(texts.nodes), line(texts.store)
    half = len(digits) // 4 * 2
    return {
        "its bytes": text,
        "its bytes, and a line feed": text + b"\n",
        "its bytes, twice": 2 * text,
        "a byte-order mark, and its bytes": b"\xef\xbb\xbf" + text,
        "nothing": b"",
        "a line feed": b"\n",
        "eight line feeds": 8 * b"\n",
        "seven of its bytes": text[:7],
        "eight of its bytes": text[:8],
        "seven of its digits": digits[:7],
        "eight of its digits": digits[:8],
        "a line of digits": digits + b"\n",
        "a line without its line feed": digits,
        "a line of capital digits": digits.upper() + b"\n",
        "a line of digits in both cases": digits[:half].upper() + digits[half:] + b"\n",
        "a line that ends with CR LF": digits + b"\r\n",
        "a line of an odd number of digits": digits[:-1] + b"\n",
        "a line with a letter that is no digit": digits[:20] + b"g" + digits[21:] + b"\n",
        "a line with a blank behind eight digits": digits[:8] + b" " + digits[8:] + b"\n",
        "a line that ends with a blank": digits + b" \n",
        "a line that ends with a zero byte": digits + b"\0\n",
        "a line that begins with a blank": b" " + digits + b"\n",
        "a line that begins with 0x": b"0x" + digits + b"\n",
        "a line that begins with a byte-order mark": b"\xef\xbb\xbf" + digits + b"\n",
        "a line of the digits of its digits": line(digits),
        "a line feed, and a line": b"\n" + digits + b"\n",
        "a line with a line feed behind four digits": halves(digits, 4) + b"\n",
        "a line, and a blank line": digits + b"\n\n",
        "a line, and a blank line of CR LF": digits + b"\n\r\n",
        "a line, and a line of one blank": digits + b"\n \n",
        "a line, and two blank lines": digits + b"\n\n\n",
        "a line in two halves": halves(digits, half) + b"\n",
        "a line in two halves of an odd number of digits": halves(digits, half + 1) + b"\n",
        "a line in two lines, the second without its end": halves(digits, half),
        "a line in lines of 64 digits": in_lines(digits, 64),
        "a directory and a store": nodes + store,
        "a directory and a store, without the last end": nodes + store[:-1],
        "a directory and a store in capital digits": (nodes + store).upper(),
        "a directory and a store, with CR LF": (nodes + store).replace(b"\n", b"\r\n"),
        "a directory and a store, and a blank line": nodes + store + b"\n",
        "a directory and a blank line and a store": nodes + b"\n" + store,
        "a directory and two stores": nodes + store + store,
        "a directory and a store that is damaged": nodes + line(texts.store[:-1] + bytes([texts.store[-1] ^ 1])),
        "a directory and a store of an odd number": nodes + store[:-2] + b"\n",
        "a directory and a proof": nodes + line(texts.proof),
        "a directory, twice": 2 * nodes,
        "another directory and a store": line(texts.two) + store,
        "a directory that is cut off and a store": line(texts.nodes[:-1]) + store,
        "two stores": 2 * store,
        "its bytes without the last line feed": text[:-1],
        "its bytes, and a blank line": text + b"\n",
        "its bytes with CR LF": text.replace(b"\n", b"\r\n"),
        "a line feed, and its bytes": b"\n" + text,
        "its first line with another number": text.replace(b"bundle 2\n", b"bundle 3\n", 1),
        "its first line with the number 1": text.replace(b"bundle 2\n", b"bundle 1\n", 1),
        "its first line with a blank behind it": text.replace(b"bundle 2\n", b"bundle 2 \n", 1),
        "its first line with a capital": b"B" + text[1:],
        "its first line with another seventh letter": text[:6] + b"x" + text[7:],
        "its first line with another eighth letter": text[:7] + b"l" + text[8:],
        "its first line alone": text.split(b"\n")[0] + b"\n",
    }


def rows():
    """Each form of the table with its place, and what is said there."""
    places = []
    for row in stored.read(TABLE).decode().splitlines():
        form, *words = re.split(r" {2,}", row)
        if form in ("file", "bundle"):
            places = words
        elif places and words:
            yield from ((form, place, word) for place, word in zip(places, words, strict=True))


def wanted_of(texts, place, word):
    """The status, and what is written; of a refusal its number and name, and that it is told of the file."""
    if word.isdigit():
        return 1, f"refused {word} {check.REFUSALS[int(word)]}: file"
    if place in "DS":
        nodes, exposed = (1, 2) if word == "other" else (1, 2, 3), word != "read" or place == "S"
        return 3 if exposed else 0, "".join(f"{node} {'exposed' if exposed and node == 2 else 'trusted'}\n" for node in nodes)
    return 0, f"exposes 2\nprogram tally\ndirectory {sha256(texts.nodes).hex()}\n"


def refusal_of(text):
    """The number and the name of a refusal, and the file of which it is told, if one is."""
    found = re.match(r"(refused \d+ \w+)(?:: (\w+))?", text)
    return ": ".join(filter(None, found.groups())) if found else text


def said_by_check(files, words):
    """What check.py says, in this process."""
    names = [it for it in words.replace("FILE", "file").split() if it != "--store"]
    asked = argparse.Namespace(program="tally", store="--store" in words, why=False)
    try:
        status, lines, _ = check.answer(asked, [(name, lambda name=name: files[name]) for name in names])
        return status, "".join(f"{it}\n" for it in lines)
    except Refused as refused:
        return 1, refusal_of(str(refused))


def said_by(program, folder, words):
    """What a build of bulwynef says. What it writes beside an answer is not looked at."""
    done = subprocess.run([program, *words.replace("FILE", "file").split()], cwd=folder, stdin=subprocess.DEVNULL, capture_output=True, timeout=60)
    told = done.stdout.decode(errors="replace")
    return done.returncode, told + refusal_of(done.stderr.decode(errors="replace")) if done.returncode == 1 else told


def tried(program=None):
    """Each form in each place: what it is, what is said, and what is wanted."""
    texts, made = Texts(), set()
    with tempfile.TemporaryDirectory() as folder:
        for name, text in texts.files().items():
            with open(f"{folder}/{name}", "wb") as file:
                file.write(text)
        for form, place, word in rows():
            files, wanted = forms_of(texts, texts.in_place(place)), wanted_of(texts, place, word)
            made |= {form}
            if program is None:
                found = said_by_check({**texts.files(), "file": files[form]}, PLACES[place][0])
            else:
                with open(f"{folder}/file", "wb") as file:
                    file.write(files[form])
                found = said_by(program, folder, PLACES[place][1])
            yield f"{form} ({place})", found, wanted
    yield "the forms of the table", made, set(forms_of(texts, b""))


def main():
    failed = 0
    for program in [None, *map(os.path.abspath, sys.argv[1:])]:
        held = 0
        for name, found, wanted in tried(program):
            held += found == wanted
            if found != wanted:
                print(f"DIFFERS {os.path.basename(program or 'check.py')}, {name}: wanted {wanted!r}, and here it is {found!r}")
                failed += 1
        print(f"{os.path.basename(program or 'check.py')}: {held} forms of files in their places are as {TABLE} has them")
    return 1 if failed else 0


if __name__ == "__main__":
    sys.exit(main())
