#!/usr/bin/env python3
"""Times commands of bulwynef on 63 MB of statements, by one, two, four and eight workers.

    by_workers.py PROGRAM [FOLDER] [--rounds N] [--stores N]

FOLDER has a directory of 24 nodes (H10, W4) and stores with their 24,576 statements, which are made there if they are missing. Each round runs
each command by each number of workers once, in turn, at real-time priority where that is allowed (`chrt -r 5`), so that other work on the
machine takes no processor from it. Prints for each the least time by the clock, how many times as long one worker takes, the least processor
time, and the greatest memory divided by the input. `import` is `status` of a store that `merge` wrote. Wants gcc, Debian's libssl-dev and GNU time
(Debian's package time).
"""

import argparse
import os
import shutil
import subprocess
import tempfile

HERE = os.path.dirname(os.path.abspath(__file__))
WORKERS = (1, 2, 4, 8)


def make(folder, stores):
    """The statements of 24 nodes, dealt to stores."""
    if not os.path.exists(f"{folder}/nodes"):
        program = f"{folder}/make"
        subprocess.run(["gcc", "-O3", "-march=native", "-o", program, f"{HERE}/files/make.c", "-lcrypto"], check=True)
        subprocess.run([program, folder, "24", str(stores)], check=True)


def first_words():
    """What goes before a command, so that it runs at real-time priority."""
    words = ["chrt", "-r", "5"]
    return words if shutil.which("chrt") and subprocess.run([*words, "true"], stderr=subprocess.DEVNULL).returncode == 0 else []


def timed(words):
    """The seconds by the clock and of processors, and the kilobytes at the greatest."""
    done = subprocess.run(["/usr/bin/time", "-f", "%e %U %S %M", *first_words(), *words], stdout=subprocess.DEVNULL, stderr=subprocess.PIPE, text=True)
    assert done.returncode in (0, 3), done
    clock, user, system, memory = map(float, done.stderr.splitlines()[-1].split())
    return clock, user + system, memory


def main():
    parser = argparse.ArgumentParser(description=__doc__, formatter_class=argparse.RawDescriptionHelpFormatter)
    parser.add_argument("program")
    parser.add_argument("folder", nargs="?")
    parser.add_argument("--rounds", type=int, default=5)
    parser.add_argument("--stores", type=int, default=1)
    given = parser.parse_args()
    program = os.path.abspath(given.program)
    with tempfile.TemporaryDirectory() as room:
        folder = given.folder or room
        make(folder, given.stores)
        stores = sorted(f"{folder}/{name}" for name in os.listdir(folder) if name.endswith(".store"))
        size = sum(map(os.path.getsize, stores)) / 1024
        under = ["--directory", f"{folder}/nodes"]
        commands = {
            "status": ["status", "--program", "tally", *under, *stores],
            "merge": ["merge", *under, "--output", f"{room}/merged", *stores],
            "explain": ["explain", "--program", "tally", "--output", f"{room}/explained", *under, *stores],
            "import": ["status", "--program", "tally", *under, f"{room}/merged"],
        }
        read = {(name, count): [] for name in commands for count in WORKERS}
        for _ in range(given.rounds):
            for name, words in commands.items():
                for count in WORKERS:
                    read[name, count].append(timed([program, words[0], "--workers", str(count), *words[1:]]))
    print(f"{len(stores)} stores, {size:.0f} KB; {'at real-time priority' if first_words() else 'at ordinary priority'}")
    for (name, count), times in read.items():
        clock, work, memory = (pick(it[k] for it in times) for k, pick in enumerate((min, min, max)))
        one = min(it[0] for it in read[name, 1])
        print(f"{name:8} by {count}: {clock:6.2f} s, {one / clock:4.2f} times; {work:6.2f} s of processors; memory {memory / size:4.2f} of the input")


if __name__ == "__main__":
    main()
