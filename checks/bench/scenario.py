#!/usr/bin/env python3
"""Times `run` on a scenario of 64 nodes, two witnesses and 1,000 lines, in which nearly every leaf of every key signs.

    scenario.py PROGRAM [ROUNDS]

Prints the least time and the processor time of it of some rounds in turn, with one worker and with two, and of the same nodes when nothing
happens to them, which is what making their keys takes. Where `perf` is there (Debian's package linux-perf), it prints where the time goes,
by samples of the processors' clock.
"""
import os
import resource
import shutil
import subprocess
import sys
import tempfile
import time

NODES, LINES = 64, 1000
HEAD = ["witnesses 2"] + [f"node {node} honest" for node in range(1, NODES + 1)]


def acts():
    """Each node but the last sends eight numbers to the next one, which answers each; behind each of these rounds, nodes show their logs."""
    lines = []
    for moment in range(8):
        lines += [f"timer {node} {moment}" for node in range(1, NODES)]
        lines += [f"audit {node}" for node in range(1, NODES + 1)]
    return lines[: LINES - len(HEAD)]


def timed(program, lines, workers):
    text = ("\n".join(lines) + "\n").encode()
    before = resource.getrusage(resource.RUSAGE_CHILDREN)
    start = time.monotonic()
    subprocess.run([program, "run", "--workers", workers], input=text, stdout=subprocess.DEVNULL, check=True)
    took = time.monotonic() - start
    after = resource.getrusage(resource.RUSAGE_CHILDREN)
    return took, after.ru_utime + after.ru_stime - before.ru_utime - before.ru_stime


def profile(program, lines):
    with tempfile.TemporaryDirectory() as folder:
        data = os.path.join(folder, "data")
        text = ("\n".join(lines) + "\n").encode()
        recorded = ["perf", "record", "-q", "-e", "cpu-clock", "-o", data, program, "run"]
        subprocess.run(recorded, input=text, stdout=subprocess.DEVNULL, stderr=subprocess.DEVNULL, check=True)
        told = subprocess.run(["perf", "report", "-i", data, "--stdio", "--sort", "symbol"], capture_output=True, text=True, check=True)
    print("\n".join([line for line in told.stdout.split("\n") if "%" in line][:12]))


def main():
    program = os.path.abspath(sys.argv[1])
    rounds = int(sys.argv[2]) if len(sys.argv) > 2 else 3
    whole = HEAD + acts()
    assert len(whole) == LINES
    runs = {"64 keys": (HEAD, "1"), "1,000 lines, one worker": (whole, "1"), "1,000 lines, two workers": (whole, "2")}
    took = {name: [] for name in runs}
    for _ in range(rounds):
        for name, (lines, workers) in runs.items():
            took[name].append(timed(program, lines, workers))
    for name, times in took.items():
        print(f"{name}: {min(t for t, _ in times):.2f} s, {min(t for _, t in times):.2f} s of processor time")
    if shutil.which("perf"):
        profile(program, whole)


if __name__ == "__main__":
    main()
