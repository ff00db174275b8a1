#!/usr/bin/env python3
"""Writes a bundle: a proof to hand over in one file, with its directory, and with sentences for people. FORMATS, "Bundle", has its text.

    make_bundle.py --program NAME DIRECTORY PROOF > BUNDLE

Its files are those of check.py, which judges the proof first: of a refused one no bundle is made. The statuses are those of check.py.
"""

import argparse
import functools
import platform
import sys

sys.dont_write_bytecode = True

import check
from check import sha256


def sentences(node, under, verified):
    """What stands in a bundle for people: whom it exposes, under which program and directory, how to check that, and what was verified."""
    with open(check.__file__, "rb") as file:
        own = sha256(file.read()).hex()
    return [
        f"Node {node} is exposed, where it was to follow the program {under[0].split()[1]}.",
        f"The directory of the nodes has the SHA-256 value {under[1].split()[1]}.",
        "Nothing in a line that begins with # is believed. Check the proof by one of these, of which the second is proved:",
        "  python3 check.py BUNDLE",
        "  bulwynef check BUNDLE",
        "Each writes the node, the program and the directory. Compare the last two with what you got by another way than this file.",
        "What was verified:",
        *(f"  {line}" for line in verified),
        f"Made with Python {platform.python_version()} by the check.py that has the SHA-256 value {own}",
    ]


def bundle(program, directory, proof):
    """The lines of the bundle, of the bytes of a directory and of a proof."""
    told = check.of_proof(program, ("directory", directory), ("proof", proof))
    return [check.FIRST, *(f"# {line}" for line in sentences(*told)), f"program {program}", directory.hex(), proof.hex()]


def made(words):
    (_, directory), (_, proof) = check.pair_of([(name, functools.partial(check.read_file, name)) for name in words.files])
    return 0, bundle(words.program, directory, proof), []


def main():
    parser = argparse.ArgumentParser(description=__doc__, formatter_class=argparse.RawDescriptionHelpFormatter, allow_abbrev=False)
    parser.add_argument("--program", choices=check.PROGRAMS, required=True, help="the program that the nodes were to follow")
    parser.add_argument("files", nargs="+", metavar="FILE")
    words = parser.parse_args()
    if len(words.files) > 2:
        parser.error("a bundle has one directory and one proof")
    return check.write(lambda: made(words))


if __name__ == "__main__":
    sys.exit(main())
