#!/usr/bin/env python3
"""Computes, over Python's hashlib alone, the SHA-256 value of the text that the tests of witness_workers export from a shared store, and
looks for it in their file.

It shares no code with the crates: the key is that of nodes.py, the container that of transfers.py, and items are spelled here from the
formats (docs/FORMATS.md).
"""

import os
import sys

from nodes import Key, sha256, u8, u32, u64
from transfers import container

TESTS = os.path.join(os.path.dirname(os.path.abspath(__file__)), "..", "..", "crates", "thread_tests", "src", "workers", "calls.rt")


def statement(key, byte):
    """The item of a statement of node 1 on entry 5, whose hash is the byte 32 times over."""
    entry = bytes([byte]) * 32
    signature = key.sign(u64(5) + entry, bytes(32))
    return u8(1) + u32(1) + u64(5) + entry + u32(len(signature)) + signature


def main():
    key = Key(1, 1)
    told = sha256(container(b"PRSTORE2", [statement(key, byte) for byte in (1, 2)])).hex()
    with open(TESTS, encoding="utf-8") as file:
        found = told in file.read()
    print(told, "found" if found else "NOT FOUND")
    sys.exit(0 if found else 1)


if __name__ == "__main__":
    main()
