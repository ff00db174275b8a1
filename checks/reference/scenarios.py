#!/usr/bin/env python3
"""Plays the scenarios that the tests of simulation hold, over Python's hashlib alone, and looks for the digests of their items there.

It shares no code with the crates: keys, logs and nodes under Tally are those of nodes.py, and items are spelled as in stores.py.
"""

import os
import sys

from nodes import Key, Node, sha256, u8, u32, u64
from stores import demand, spelled_segment, text, turned

TESTS = os.path.join(os.path.dirname(os.path.abspath(__file__)), "..", "..", "crates", "command_tests", "src", "playing.rt")
EACH_KIND = (
    [(1, "honest"), (4, "fork"), (2, "wrong"), (3, "mute"), (9, "fork")],
    [
        *(("timer", 1, 5), ("timer", 2, 7), ("checkpoint", 2), ("timer", 3, 9), ("audit", 3), ("audit", 9), ("timer", 4, 1), ("audit", 2), ("audit", 1)),
        *(("rekey", 1), ("rekey", 2), ("timer", 1, 6), ("audit", 2), ("rekey", 3), ("rekey", 4), ("timer", 3, 8), ("audit", 4)),
    ],
)
EACH_EFFECT = (
    [(1, "honest"), (9, "fork"), (4, "fork"), (2, "wrong"), (3, "mute"), (10, "honest")],
    [
        *(("timer", 1, 5), ("checkpoint", 2), ("timer", 2, 7), ("timer", 3, 9), ("audit", 3), ("audit", 10), ("audit", 2), ("timer", 9, 1)),
        *(("checkpoint", 1), ("timer", 1, 6), ("audit", 1), ("audit", 2), ("audit", 10)),
    ],
)


class Player(Node):
    """A node of a scenario, with the entries of its log and the statements that it signed."""

    ots_type = 4

    def __init__(self, number, kind, listed):
        self.listed = listed
        self.kind, self.contents, self.statements = kind, [], []
        super().__init__(number, 1)

    def log(self, kind, content):
        self.contents.append((self.next_seq, kind, content))
        return super().log(kind, content)

    def sign(self, entropy, k):
        signature = super().sign(entropy, k)
        self.statements.append((self.next_seq - 1, self.end, signature))
        return signature

    def send(self, outputs, entropy, k):
        wrong = self.kind == "wrong"
        return super().send([(to, turned(payload) if wrong else payload) for to, payload in outputs], entropy, k)

    def rekey(self):
        """Signs with its second key from here on."""
        assert self.key.number == 0
        self.key = Key(self.number, self.ots_type, 1)

    def shown(self):
        """Its log up to what it signed last."""
        seq, _, signature = self.statements[-1]
        return spelled_segment(self.number, sha256(), [entry for entry in self.contents if entry[0] <= seq], signature)

    def histories(self):
        """What it signed last, and another hash of that number, which its first key signs, made once more."""
        seq, digest, signature = self.statements[-1]
        other = sha256(b"fork")
        second = Key(self.number, self.ots_type).sign(u64(seq) + other, bytes([0xFF]) * 32)
        return [u8(1) + u32(self.number) + u64(seq) + it + text(by) for it, by in ((digest, signature), (other, second))]


class Stage:
    def __init__(self, nodes):
        listed = [number for number, _ in nodes]
        self.players, self.items, self.calls = {number: Player(number, kind, listed) for number, kind in nodes}, [], 0

    def entropy(self):
        self.calls += 1
        return bytes(24) + u64(self.calls - 1)

    def timer(self, number, moment):
        waiting = self.players[number].timer(moment, self.entropy())
        while waiting:
            message = waiting.pop(0)
            receiver = self.players[message.receiver]
            if receiver.kind == "mute":
                self.items.append(demand(message))
            else:
                ack, more = receiver.receive(message, self.entropy())
                self.players[message.sender].accept(ack)
                waiting += more

    def checkpoint(self, number):
        self.players[number].checkpoint()

    def rekey(self, number):
        self.players[number].rekey()

    def audit(self, number):
        player = self.players[number]
        if player.statements:
            seq, digest, signature = player.statements[-1]
            self.items.append(u8(3) + u32(number) + u8(0) + u64(seq) + digest + text(signature))
            if player.kind != "mute":
                self.entropy()
                self.items.append(player.shown())

    def end(self):
        for number in sorted(self.players):
            if self.players[number].kind == "fork" and self.players[number].statements:
                self.items += self.players[number].histories()


def played(nodes, acts):
    """The items that come of a scenario."""
    stage = Stage(nodes)
    for act, *words in acts:
        getattr(stage, act)(*words)
    stage.end()
    return stage.items


def main():
    with open(TESTS, encoding="utf-8") as file:
        tests = file.read()
    missing = 0
    for nodes, acts in (EACH_KIND, EACH_EFFECT):
        items = played(nodes, acts)
        value = sha256(*(u64(len(item)) + item for item in items)).hex()
        stands = value in tests
        missing += not stands
        print([item[0] for item in items], value, "stands there" if stands else "MISSING")
    sys.exit(missing > 0)


if __name__ == "__main__":
    main()
