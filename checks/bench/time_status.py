#!/usr/bin/env python3
"""Runs `PROGRAM status` on a file three times, and prints the least time and the greatest memory.

    time_status.py PROGRAM FILE

The memory is the greatest resident set, as GNU time tells it (Debian's package time).
"""
import os
import subprocess
import sys
import time


def run(program, path):
    start = time.monotonic()
    with open(path, "rb") as text:
        done = subprocess.run(
            ["/usr/bin/time", "-f", "%M", program, "status"],
            stdin=text, stdout=subprocess.DEVNULL, stderr=subprocess.PIPE, check=True,
        )
    return time.monotonic() - start, int(done.stderr)


def main():
    program, path = sys.argv[1:]
    runs = [run(program, path) for _ in range(3)]
    least = min(seconds for seconds, _ in runs)
    most = max(memory for _, memory in runs)
    print(f"status: {least:.3f} s, {most} KB at most, for an input of {os.path.getsize(path) // 1024} KB")


main()
