#!/usr/bin/env python3
"""walk.py PAGE EXAMPLES: does each command of the walk in docs/OPERATORS.md, by the `bulwynef` on the path, in a copy of the folder of
examples. Each must write what stands below it. Ends with 1 where one writes something else."""

import shutil
import subprocess
import sys
import tempfile


def walk(page):
    """The commands, each with what is written below it."""
    section = page[page.index("## A whole walk") :].split("\n## ")[0]
    steps = []
    for line in section.splitlines():
        if line.startswith("    $ "):
            steps.append((line[6:], []))
        elif line.startswith("    "):
            steps[-1][1].append(line[4:])
    return steps


def main():
    with open(sys.argv[1], encoding="utf-8") as file:
        steps = walk(file.read())
    with tempfile.TemporaryDirectory() as folder:
        shutil.copytree(sys.argv[2], f"{folder}/examples")
        for line, below in steps:
            done = subprocess.run(["sh", "-c", line], cwd=f"{folder}/examples", capture_output=True, text=True)
            if done.stdout.splitlines() != below or done.returncode not in (0, 3):
                print(f"walk.py: {line}: {done.returncode} {done.stdout!r} {done.stderr!r}")
                return 1
    print(f"walk.py: {len(steps)} commands write what OPERATORS says")
    return 0 if len(steps) >= 8 else 1


if __name__ == "__main__":
    sys.exit(main())
