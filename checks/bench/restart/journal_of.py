#!/usr/bin/env python3
"""journal_of.py DIRECTORY STORE JOURNAL: writes the journal of a witness under `tally` that took the items of a store."""

import sys


def block_of(text):
    """The open block of a text, as docs/FORMATS.md has it."""
    return b"\xff" + len(text).to_bytes(4, "big") + (2**32 - 1 - len(text)).to_bytes(4, "big") + text


def items_of(store):
    """The texts of a store's items. The count stands behind the first eight bytes."""
    place = 16
    for _ in range(int.from_bytes(store[8:16], "big")):
        length = int.from_bytes(store[place : place + 4], "big")
        yield store[place + 4 : place + 4 + length]
        place += 4 + length


def with_counts(directory):
    """The newer text of an older directory: behind each node it has the number of its keys."""
    nodes = [directory[at : at + 60] for at in range(12, len(directory), 60)]
    return b"PRDIREC2" + directory[8:12] + b"".join(node[:4] + b"\1" + node[4:] for node in nodes)


directory, store = (open(name, "rb").read() for name in sys.argv[1:3])
with open(sys.argv[3], "wb") as journal:
    for text in [b"PRKEPT01tally", with_counts(directory), *items_of(store)]:
        journal.write(block_of(text))
    journal.write(b"\0")
