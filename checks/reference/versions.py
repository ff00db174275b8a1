#!/usr/bin/env python3
"""Holds what names the version to the file VERSION, and says where it differs; then it ends with status 1.

    versions.py [PROGRAM..]      of a built program also what its --version says

VERSION has one line, MAJOR.MINOR.PATCH (semver.org, without a pre-release). Each place below names it once. Where a crate has a line
`const VERSION: &str = "..";`, that is held too. CHANGELOG.md has it in its first heading.
"""

import re
import subprocess
import sys
from pathlib import Path

TOP = Path(__file__).resolve().parents[2]
# A file, and a pattern of which it has one; its group is the version.
PLACES = [
    ("c/bulwynef.h", r'^#define BULWYNEF_VERSION "(.*)"$'),
    ("python/pyproject.toml", r'^version = "(.*)"$'),
    ("python/src/bulwynef/__init__.py", r'^__version__ = "(.*)"$'),
    ("rust/bulwynef/Cargo.toml", r'^version = "(.*)"$'),
    ("CHANGELOG.md", r"\A# [^#]*^## (\S+)"),
]
PARTS = ["MAJOR", "MINOR", "PATCH"]
IN_CRATES = re.compile(r'^(?:pub(?:\(crate\))? )?const VERSION: &(?:\'static )?str = "(.*)";$', re.M)
NUMBER = "(0|[1-9][0-9]*)"


def read(path):
    return (TOP / path).read_text(encoding="utf-8")


def version():
    """The version, or nothing where VERSION is no such line."""
    line = read("VERSION")
    return line[:-1] if re.fullmatch(rf"{NUMBER}\.{NUMBER}\.{NUMBER}\n", line) else None


def faults_of_places(wanted):
    for path, pattern in PLACES:
        found = re.findall(pattern, read(path), re.M)
        if found != [wanted]:
            yield f"{path}: names the version {' and '.join(found) or 'nowhere'}, and VERSION has {wanted}"
    header = read("c/bulwynef.h")
    found = ".".join("".join(re.findall(rf"^#define BULWYNEF_VERSION_{part} (\d+)$", header, re.M)) for part in PARTS)
    if found != wanted:
        yield f"c/bulwynef.h: its three numbers are {found}, and VERSION has {wanted}"


def faults_of_crates(wanted):
    for path in sorted((TOP / "crates").glob("*/src/**/*.rt")):
        for found in IN_CRATES.findall(path.read_text(encoding="utf-8")):
            if found != wanted:
                yield f"{path.relative_to(TOP)}: names the version {found}, and VERSION has {wanted}"


def faults_of_programs(wanted, programs):
    for program in programs:
        ran = subprocess.run([program, "--version"], capture_output=True, text=True, stdin=subprocess.DEVNULL, timeout=60)
        if f"bulwynef {wanted}" not in (ran.stdout + ran.stderr).splitlines():
            yield f"{program}: --version says {(ran.stdout + ran.stderr).partition(chr(10))[0]!r}, and not 'bulwynef {wanted}'"


def main():
    wanted = version()
    if wanted is None:
        print("VERSION: has no line MAJOR.MINOR.PATCH alone")
        return 1
    faults = [*faults_of_places(wanted), *faults_of_crates(wanted), *faults_of_programs(wanted, sys.argv[1:])]
    print(*faults, sep="\n", end="\n" if faults else "")
    if not faults:
        print(f"{len(PLACES) + 1} places name the version {wanted}")
    return 1 if faults else 0


if __name__ == "__main__":
    sys.exit(main())
