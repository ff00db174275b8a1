#!/usr/bin/env python3
"""Computes, over Python's hashlib alone, the digests of a summary, a pack, an outline and a short summary that the tests of transfer
hold, and that of the union of what three witnesses took in the tests of witness_core, and looks for each in its file.

It shares no code with the crates: the keys and the hash of a text are those of nodes.py, a log is that of stores.py, and items, summary
and pack are spelled here from the formats (docs/FORMATS.md).
"""

import os
import sys

from nodes import Key, sha256, u8, u32, u64
from stores import ZEROS, Keys

CRATES = os.path.join(os.path.dirname(os.path.abspath(__file__)), "..", "..", "crates")
TRANSFER = os.path.join(CRATES, "witness_tests", "src", "transfers", "calls.rt")
WITNESSES = os.path.join(CRATES, "witness_tests", "src", "worlds", "spreading.rt")
RANDOM = bytes([9]) * 32


def statement(key, seq, byte=7):
    """The item of a statement of node 1 on the entry with this number, whose hash is this byte 32 times over."""
    entry = bytes([byte]) * 32
    signature = key.sign(u64(seq) + entry, RANDOM)
    return u8(1) + u32(1) + u64(seq) + entry + u32(len(signature)) + signature


def container(magic, items):
    return magic + u64(len(items)) + b"".join(u32(len(item)) + item for item in sorted(items))


def summary(items):
    return b"PRSUMM01" + u64(len(items)) + b"".join(sorted(sha256(item) for item in items))


def buckets(items):
    """The digests of the items, in 256 buckets by their first bytes, each in its order."""
    digests = sorted(sha256(item) for item in items)
    return [[digest for digest in digests if digest[0] == b] for b in range(256)]


def outline(items):
    return b"PROUTL01" + b"".join(sha256(*bucket) for bucket in buckets(items))


def short_summary(items, told):
    """The summary against the outline of this text. Some bucket is kept."""
    text = b"PRSUMM02"
    for b, bucket in enumerate(buckets(items)):
        digest = sha256(*bucket)
        same = told[8 + 32 * b : 40 + 32 * b] == digest
        text += u8(1) + digest if same else u8(0) + u64(len(bucket)) + b"".join(bucket)
    return text


def taken():
    """A directory of the nodes 1 and 2, and the five items that witnesses take in the tests of witness_core, signed in their order: two
    statements of node 1 on entry 5 that differ in their signatures alone, and one that has another hash; node 2's log from its third
    entry on, and its statement that the fourth has another hash. The keys are of W1."""
    keys = Keys(1)
    listed = b"".join(u32(node) + u8(1) + keys.key(node, 0).public() for node in (1, 2))
    seven, eight = bytes([7]) * 32, bytes([8]) * 32
    items = [
        keys.auth(1, 5, seven, 0),
        keys.auth(1, 5, seven, 1),
        keys.auth(1, 5, eight),
        keys.log_from(3),
        keys.auth(2, 4, ZEROS),
    ]
    return b"PRDIREC2" + u32(2) + listed, items


def main():
    key = Key(1, 3)
    first, second, third = (statement(key, seq) for seq in (1, 2, 3))
    told = summary([first, third])
    named = {told[16 + 32 * k : 48 + 32 * k] for k in range(2)}
    given = container(b"PRPACK01", [item for item in (first, second) if sha256(item) not in named])
    outlined = outline([first, second])
    short = short_summary([first, third], outlined)
    union = container(b"PRSTORE2", taken()[1])
    missing = 0
    sought = (
        ("summary", told, TRANSFER),
        ("pack", given, TRANSFER),
        ("outline", outlined, TRANSFER),
        ("short summary", short, TRANSFER),
        ("union", union, WITNESSES),
    )
    for name, text, tests in sought:
        value = sha256(text).hex()
        with open(tests, encoding="utf-8") as file:
            found = value in file.read()
        missing += not found
        print(name, value, "found" if found else "MISSING")
    sys.exit(1 if missing else 0)


if __name__ == "__main__":
    main()
