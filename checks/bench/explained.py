#!/usr/bin/env python3
"""Measures `bulwynef explain`, as text and as a page, beside `bulwynef status`, on a large store and on one of half its size, by one worker.

    checks/bench/explained.py BULWYNEF [--nodes N] [--entries M] [--every K] [--page FILE]

It is the built program. The store has a segment of M entries of each of N nodes under Tally (1,000 and 100), signed here by keys of H5 and
W1; every Kth node (every hundredth) ends with a CHECKPOINT of another state, and so is exposed. Told are processor time, the greatest resident size, and
the size of what is written; and what the larger store takes of what `status` takes, and of what the half takes. FILE gets the page.
"""

import argparse
import os
import sys
import tempfile

TOP = os.path.dirname(os.path.dirname(os.path.dirname(os.path.abspath(__file__))))
sys.path.insert(0, f"{TOP}/checks/reference")
sys.dont_write_bytecode = True

from nodes import Key, sha256, u8, u32, u64
from stores import CHECKPOINT, INIT, end_of, export, spelled_segment

W1 = 1


def evidence(nodes, entries, every):
    """The lines of a directory and of a store."""
    keys = {node: Key(node, W1) for node in range(2, nodes + 2)}
    directory = b"PRDIREC2" + u32(nodes) + b"".join(u32(node) + u8(1) + key.public() for node, key in keys.items())
    return directory, [segment(node, keys[node], entries, node % every == 0) for node in keys]


def segment(node, key, entries, is_wrong):
    log = [(1, INIT, u32(node)), *((seq, CHECKPOINT, u64(0)) for seq in range(2, entries))]
    log.append((entries, CHECKPOINT, u64(1 if is_wrong else 0)))
    end = end_of(sha256(), log)
    return spelled_segment(node, sha256(), log, key.sign(u64(entries) + end, bytes(32)))


def measured(words):
    """Processor time in seconds, greatest resident size in KB, and what is written."""
    with tempfile.TemporaryFile() as out:
        child = os.fork()
        if child == 0:
            os.dup2(out.fileno(), 1)
            os.execv(words[0], words)
        _, status, used = os.wait4(child, 0)
        out.seek(0)
        assert os.waitstatus_to_exitcode(status) in (0, 3), words
        return used.ru_utime + used.ru_stime, used.ru_maxrss, out.read()


def main():
    parser = argparse.ArgumentParser(description=__doc__, formatter_class=argparse.RawDescriptionHelpFormatter)
    parser.add_argument("bulwynef", type=os.path.abspath)
    parser.add_argument("--nodes", type=int, default=1000)
    parser.add_argument("--entries", type=int, default=100)
    parser.add_argument("--every", type=int, default=100)
    parser.add_argument("--page")
    words = parser.parse_args()
    asked = {"status": ["status"], "text": ["explain"], "page": ["explain", "--html", "-"]}
    directory, items = evidence(words.nodes, words.entries, words.every)
    seen = {}
    with tempfile.TemporaryDirectory() as folder:
        for name, count in (("half", len(items) // 2), ("all", len(items))):
            path, nodes = f"{folder}/{name}", f"{folder}/directory"
            for file, text in ((nodes, directory), (path, export(items[:count]))):
                with open(file, "wb") as it:
                    it.write(text)
            for what, command in asked.items():
                spent, size, out = seen[name, what] = measured([words.bulwynef, *command, "--workers", "1", "--program", "tally", "--directory", nodes, path])
                print(f"{name:5} {what:7} {os.path.getsize(path) // 1024:8} KB in {spent:7.2f} s {size:8} KB {len(out):9} bytes out", flush=True)
    if words.page:
        with open(words.page, "wb") as it:
            it.write(seen["all", "page"][2])
    for what in ("text", "page"):
        time_of, size_of = (seen["all", what][i] / seen["all", "status"][i] for i in (0, 1))
        doubled = seen["all", what][0] / seen["half", what][0]
        print(f"{what}: {time_of:.2f} of the time of status, {size_of:.2f} of its memory; doubled evidence takes {doubled:.2f} times as long")


main()
