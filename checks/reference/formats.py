#!/usr/bin/env python3
"""Holds what is said of the kept texts of each format (checks/formats) to what stands there, and the texts to their sums.

    formats.py [PROGRAM..]      asks second_opinion/check.py, and each PROGRAM, a built `bulwynef`

A line of answers.txt is `KIND WORDS = STATUS ANSWER`: `status PROGRAM DIRECTORY STORE..` and what is said of each node; `check PROGRAM DIRECTORY
PROOF` and whom it exposes; `bundle FILE` the same; `form FILE` and what `bulwynef show` calls it, which check.py is not asked. A refusal is its
number and its name. Ends with 1 where something differs.
"""

import json
import subprocess
import sys
from pathlib import Path

sys.dont_write_bytecode = True

TOP = Path(__file__).resolve().parents[2]
FOLDER = TOP / "checks" / "formats"
SECOND = [sys.executable, str(TOP / "second_opinion" / "check.py")]
# Fewer lines, files or kinds would mean that something was lost.
LEAST_LINES, LEAST_FILES = 50, 25


def rows():
    """Of each line its kind, its words, the status and the answer."""
    for line in (FOLDER / "answers.txt").read_text(encoding="utf-8").splitlines():
        if not line.startswith("#"):
            asked, _, told = line.partition(" = ")
            kind, *words = asked.split()
            status, _, answer = told.partition(" ")
            yield kind, words, int(status), answer


def of_check(kind, words):
    """The words by which check.py is asked."""
    if kind == "status":
        return [*SECOND, "--program", words[0], "--store", *words[1:]]
    if kind == "check":
        return [*SECOND, "--program", *words]
    return [*SECOND, *words] if kind == "bundle" else None


def of_program(program):
    def words_of(kind, words):
        if kind == "status":
            return [program, "status", "--program", words[0], "--directory", *words[1:]]
        if kind == "check":
            return [program, "check", "--program", words[0], "--directory", *words[1:]]
        return [program, "check", *words] if kind == "bundle" else [program, "show", "--json", *words]

    return words_of


def said(kind, command):
    """The status, and the answer as a line of answers.txt has it."""
    ran = subprocess.run(command, cwd=FOLDER, capture_output=True, text=True, stdin=subprocess.DEVNULL, timeout=120)
    if ran.stderr.startswith("refused "):
        return ran.returncode, " ".join(ran.stderr.split()[:3]).rstrip(":")
    if kind == "form":
        return ran.returncode, json.loads(ran.stdout)["form"]
    lines = ran.stdout.splitlines()
    return ran.returncode, ", ".join(lines) if kind == "status" else "".join(lines[:1])


def faults_of(name, words_of):
    """What is said otherwise, and how often something was asked."""
    asked, faults = 0, []
    for kind, words, *wanted in rows():
        command = words_of(kind, words)
        if command:
            asked += 1
            found = list(said(kind, command))
            if found != wanted:
                faults.append(f"{name}: {kind} {' '.join(words)}: {found} and not {wanted}")
    return asked, faults


def faults_of_files():
    """What is wrong with the texts themselves: each has its sum, and stands in a line of answers.txt."""
    ran = subprocess.run(["sha256sum", "--quiet", "--strict", "-c", "SHA256SUMS"], cwd=FOLDER, capture_output=True, text=True)
    yield from (f"checks/formats: {line}" for line in (ran.stdout + ran.stderr).splitlines())
    summed = {line.split("  ")[1] for line in (FOLDER / "SHA256SUMS").read_text(encoding="utf-8").splitlines()}
    there = {path.name for path in FOLDER.iterdir()} - {"README.md", "SHA256SUMS", "answers.txt"}
    asked = {word for _, words, *_ in rows() for word in words}
    yield from (f"checks/formats/{name}: SHA256SUMS does not have it" for name in sorted(there - summed))
    yield from (f"checks/formats/{name}: nothing is asked of it" for name in sorted(there - asked))
    if len(there) < LEAST_FILES or len(list(rows())) < LEAST_LINES:
        yield f"checks/formats: {len(there)} files and {len(list(rows()))} lines, which is too few"


def main():
    faults, told = list(faults_of_files()), []
    for name, words_of in [("check.py", of_check), *((program, of_program(str(Path(program).resolve()))) for program in sys.argv[1:])]:
        asked, found = faults_of(name, words_of)
        faults += found
        told.append(f"{name} {asked}")
    print(*faults, sep="\n", end="\n" if faults else "")
    if not faults:
        print(f"texts of each format are read as ever: {', '.join(told)} answers")
    return 1 if faults else 0


if __name__ == "__main__":
    sys.exit(main())
