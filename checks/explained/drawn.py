"""Stores of twenty nodes, of which a page draws some logs alone: the nodes at fault, and those that quote an entry of which a sentence speaks.

They are signed here over Python's hashlib alone, under Tally. `drawn` gives a name, the two lines, the nodes that have a row, how many nodes have
none since nothing stands against them, and how many since a picture has no more rows.
"""

import os
import sys

TOP = os.path.dirname(os.path.dirname(os.path.dirname(os.path.abspath(__file__))))
sys.path.insert(0, f"{TOP}/checks/reference")

from nodes import Key, Message, entry_hash, sha256, u8, u32, u64
from stores import CHECKPOINT, INIT, ONES, RECV, SEND, ZEROS, end_of, export, spelled_segment, text

COUNT, W1 = 20, 1


class Twenty:
    """The keys of the nodes 1 to 20, and what they sign."""

    def __init__(self):
        self.keys = {node: Key(node, W1) for node in range(1, COUNT + 1)}

    def sign(self, node, seq, digest):
        return self.keys[node].sign(u64(seq) + digest, bytes(32))

    def statement(self, node, seq):
        return u8(1) + u32(node) + u64(seq) + ONES + text(self.sign(node, seq, ONES))

    def log(self, node, *more):
        entries = [(1, INIT, u32(node)), *more]
        end = end_of(sha256(), entries)
        return spelled_segment(node, sha256(), entries, self.sign(node, entries[-1][0], end))

    def quoting(self, node, sender, seq):
        """The log of a node with a RECV that quotes this entry."""
        sent = entry_hash(ZEROS, seq, SEND, u32(node) + b"hello")
        message = Message(sender, node, seq, ZEROS, self.sign(sender, seq, sent), b"hello")
        return self.log(node, (2, RECV, message.quote()))

    def deviating(self, node):
        """The log of a node whose entry 2 is a CHECKPOINT of another state."""
        return self.log(node, (2, CHECKPOINT, u64(1)))

    def lines(self, items):
        directory = b"PRDIREC2" + u32(COUNT) + b"".join(u32(node) + u8(1) + key.public() for node, key in self.keys.items())
        return f"{directory.hex()}\n{export(items).hex()}\n".encode()


def drawn():
    nodes = Twenty()
    items = [nodes.statement(5, 7), nodes.quoting(9, 5, 7), nodes.quoting(12, 5, 7), nodes.quoting(13, 5, 8), nodes.log(3)]
    yield "two quote a marked entry", nodes.lines(items), [5, 9, 12], 17, 0
    items = [nodes.deviating(node) for node in range(1, 11)] + [nodes.quoting(node, node - 10, 2) for node in range(11, 16)]
    yield "more quote than have a row", nodes.lines(items), [*range(1, 13)], 5, 3
    items = [nodes.deviating(node) for node in range(1, 15)] + [nodes.quoting(15, 1, 2)]
    yield "more are exposed than have a row", nodes.lines(items), [*range(1, 13)], 5, 3
