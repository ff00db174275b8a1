#!/usr/bin/env python3
"""Turns an input of `node_sim status` into lines 'key message signature' in hexadecimal, for lms_verify, or with a word into the
same as bytes, one after the other, for verifications.

    lines.py < status_512.txt > lms_512.txt
    lines.py bytes < status_512.txt > lms_512.bin
"""
import sys


def write(parts):
    if sys.argv[1:] == ["bytes"]:
        sys.stdout.buffer.write(b"".join(parts))
    else:
        print(*(part.hex() for part in parts))


def number(text):
    return int.from_bytes(text, "big")


def main():
    directory, store = (bytes.fromhex(line) for line in sys.stdin.read().split())
    nodes = (directory[place : place + 60] for place in range(12, len(directory), 60))
    keys = {node[:4]: node[4:] for node in nodes}
    place = 16
    while place < len(store):
        end = place + 4 + number(store[place : place + 4])
        item = store[place + 4 : end]
        # An item is a tag, the node's number, 40 bytes that are signed, and the signature behind its length.
        write((keys[item[1:5]], item[5:45], item[49:]))
        place = end


main()
