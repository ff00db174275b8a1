#!/usr/bin/env python3
"""Sums by which two people see that they have the same sources, and the same builds.

    sums.py             the sums of what is here
    sums.py compare     the same, and whether they are those of docs/builds.txt: ends with 0 where they are, with 4 where nothing is compared
    sums.py write       writes docs/builds.txt anew

The sum of the sources is the SHA-256 value of the lines that `sha256sum` writes of the files of crates/, of crates.txt and of HANDLES that
git tracks, as they are in the folder, in the order of their names' bytes:

    git ls-files -z crates crates.txt HANDLES | LC_ALL=C sort -z | xargs -0 sha256sum | sha256sum

Behind it stands what `sha256sum` writes of each program that `rt ci` or `rt run` has left: as LLVM builds it for x86-64-v2, and as Rattle's
own compiler does (`.by-rattle`). Other kits, and other sources, give other builds. So docs/builds.txt names both, and `compare` says that it
compared nothing, and ends with 4, where one of them is another here; else it ends with 1 where a build differs, or is missing. It does too where
the file is missing, or names no kit, no sources or no build. Last stands checkproof, which c/run.py builds, behind the name of the system's
compiler: it is compared where it is here, by the same compiler.
"""

import os
import re
import subprocess
import sys

sys.dont_write_bytecode = True

from check import sha256

TOP = os.path.dirname(os.path.dirname(os.path.abspath(__file__)))
STORED = "docs/builds.txt"
HEAD = "# Written by `second_opinion/sums.py write`; AUDITORS says how it is used.\n"
SOURCES = ["crates", "crates.txt", "HANDLES"]
CHECKPROOF = "c/out/checkproof"


def said_by(*words):
    """What a command writes; nothing where it can't be run or fails."""
    try:
        return subprocess.run(words, cwd=TOP, capture_output=True, check=True).stdout
    except (OSError, subprocess.CalledProcessError):
        return b""


def sum_line(name):
    with open(os.path.join(os.fsencode(TOP), name), "rb") as file:
        return sha256(file.read()).hex().encode() + b"  " + name + b"\n"


def made_of():
    """The lines that say of which kit and of which sources builds are, here."""
    names = sorted(said_by("git", "ls-files", "-z", *SOURCES).split(b"\0")[:-1])
    kit = said_by("rt", "version").decode().strip() or "none"
    return [f"kit {kit}\n", f"sources {sha256(*map(sum_line, names)).hex()} of {len(names)} files\n"]


def builds():
    """A line for each program that was built here."""
    names = [name for name in sorted(os.listdir(f"{TOP}/crates")) if os.path.isfile(f"{TOP}/crates/{name}/src/main.rt")]
    built = [f"crates/{name}/out/{name}{ending}" for name in names for ending in ("", ".by-rattle")]
    return [sum_line(build.encode()).decode() for build in built if os.path.isfile(f"{TOP}/{build}")]


def checkproof():
    """The line of checkproof, behind that of the compiler; none where it was not built here."""
    if not os.path.isfile(f"{TOP}/{CHECKPROOF}"):
        return []
    compiler = said_by("cc", "--version").decode(errors="replace").partition("\n")[0]
    return [f"cc {compiler}\n", sum_line(CHECKPROOF.encode()).decode()]


def stored():
    """The lines of the stored file that are no comment, those of kit and sources first; none where there is no file."""
    try:
        with open(f"{TOP}/{STORED}", encoding="utf-8") as file:
            return [line for line in file if not line.startswith("#")]
    except FileNotFoundError:
        return []


EQUAL, OTHER, NOTHING = 0, 1, 4
FORM = r"kit .+\nsources [0-9a-f]{64} of [0-9]+ files\n(?:[0-9a-f]{64}  crates/\S+\n)+(?:cc .*\n[0-9a-f]{64}  c/out/checkproof\n)?"


def compared(here, told):
    """EQUAL where the stored builds are those that are here, NOTHING where they are not of this kit and these sources, else OTHER."""
    if not re.fullmatch(FORM, "".join(told)):
        print(f"there is no {STORED}, or it does not name a kit, sources and builds")
        return OTHER
    others = [line.split(" ")[0] for line in told[:2] if line not in here]
    if others:
        print(f"{STORED} is of another text or kit ({', '.join(others)}): nothing is compared")
        return NOTHING
    compiler = next((line for line in told if line.startswith("cc ")), None)
    lines = [line for line in told[2:] if line != compiler and (compiler in here or not line.endswith(f" {CHECKPROOF}\n"))]
    wrong = [line for line in lines if line not in here]
    for line in wrong:
        print(f"differs, or is not here: {line}", end="")
    print(f"{len(lines) - len(wrong)} builds are those of {STORED}, {len(wrong)} are not")
    return OTHER if wrong else EQUAL


def main():
    word = "".join(sys.argv[1:])
    if word not in ("", "compare", "write"):
        sys.exit(__doc__)
    here = made_of() + builds() + checkproof()
    print("".join(here), end="")
    if word == "write":
        if len(here) == 2 or re.match("kit none", here[0]):
            sys.exit("nothing is written: no program is built here, or there is no kit")
        with open(f"{TOP}/{STORED}", "w", encoding="utf-8") as file:
            file.write(HEAD + "".join(here))
    return compared(here, stored()) if word == "compare" else 0


if __name__ == "__main__":
    sys.exit(main())
