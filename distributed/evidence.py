#!/usr/bin/env python3
"""Writes evidence to try a distributed run on: a directory, and stores that overlap.

    evidence.py FOLDER STORES [NODES [SEED [star]]]

FOLDER/nodes is the directory, FOLDER/NNN.store the stores. Nodes under Tally ask their next one and answer; keys are of H5 and W4. Node 2 signs two
statements of one number, of which no store has both; node 3 answers what it should not, so its segment deviates; nodes 4 and 5 were asked for
their logs, and the answer of node 5 stands in one store. A fork of node 6 stands in what node 7 quotes, and in one statement. So no store tells
what all of them tell. With `star` all nodes ask node 1, once (16 nodes at most), which Tally does
not: for spread.py alone. It shares no code with the crates.
"""

import os
import random
import sys

TOP = os.path.dirname(os.path.dirname(os.path.abspath(__file__)))
sys.path.insert(0, f"{TOP}/checks/reference")
sys.dont_write_bytecode = True

from nodes import Key, Message, Node, entry_hash, sha256, u8, u16, u32, u64
from stores import spelled, spelled_segment, text

SEND, RECV = 2, 3
TURNS = 6


class Logged(Node):
    """A node with the entries of its log, the signatures of the entries that it signed, and what it said."""

    def __init__(self, number, listed, asked=None):
        self.listed, self.asked, self.contents, self.signatures = listed, asked or number + 1, [], {}
        super().__init__(number, 1)

    def log(self, kind, content):
        self.contents.append((self.next_seq, kind, content))
        return super().log(kind, content)

    def sign(self, entropy, k):
        signature = super().sign(entropy, k)
        self.signatures[self.next_seq - 1] = self.end, signature
        return signature

    def timer(self, moment, entropy):
        self.log(4, u64(moment))
        return self.send([(self.asked, b"A" + u64(moment))], entropy, 0)

    def statement(self, seq):
        end, signature = self.signatures[seq]
        return statement(self.number, seq, end, signature)

    def segment(self, last):
        """Its log up to a signed entry."""
        return spelled_segment(self.number, sha256(), self.contents[:last], self.signatures[last][1])


class Wrong(Logged):
    """One that adds up wrongly in what it answers."""

    def send(self, outputs, entropy, k):
        return super().send([(to, said[:1] + u64(9) if said[:1] == b"T" else said) for to, said in outputs], entropy, k)


def statement(node, seq, digest, signature):
    return u8(1) + u32(node) + u64(seq) + digest + text(signature)


def demand(node):
    """A challenge to show the log up to the node's last statement."""
    seq = max(node.signatures)
    end, signature = node.signatures[seq]
    return u8(3) + u32(node.number) + u8(0) + u64(seq) + end + text(signature)


def acknowledged(message, ack):
    return u8(5) + spelled(message) + u64(ack.seq) + ack.before + text(ack.signature)


def played(count, star):
    """The nodes, and the items that everybody may have."""
    listed = tuple(range(1, count + 1))
    nodes = {number: (Wrong if number == 3 and not star else Logged)(number, listed, 1 if star else None) for number in listed}
    items = []
    for turn in range(1 if star else TURNS):
        for number in listed[1:] if star else listed[:-1]:
            (ask,) = nodes[number].timer(turn + 1, u32(number) + u32(turn))
            ack, answers = nodes[ask.receiver].receive(ask, u32(number) + u32(turn) + b"r")
            items += [u8(4) + spelled(ask), acknowledged(ask, ack)]
            for answer in answers:
                back, _ = nodes[number].receive(answer, u32(number) + u32(turn) + b"a")
                items += [u8(4) + spelled(answer), acknowledged(answer, back)]
    return nodes, items


def forked(node):
    """Another statement of the number of the node's first."""
    seq = min(node.signatures)
    return statement(node.number, seq, sha256(b"fork"), node.key.sign(u64(seq) + sha256(b"fork"), bytes(32)))


def quoted_fork(six, seven):
    """Node 6 sends node 7 a message of a number that stands in its log already, and node 7 logs it."""
    seq = min(six.signatures)
    said = b"x"
    end = entry_hash(bytes(32), seq, SEND, u32(7) + said)
    message = Message(6, 7, seq, bytes(32), six.key.sign(u64(seq) + end, bytes(32)), said)
    seven.receive(message, b"q")
    return six.statement(seq)


def told(nodes, hidden):
    """What the nodes but those that hide it tell of their logs, and what all signed."""
    items = []
    for number, node in nodes.items():
        items += [node.statement(seq) for seq in node.signatures]
        if number not in hidden:
            items += [node.segment(last) for last in (sorted(node.signatures)[len(node.signatures) // 2], max(node.signatures))]
    return items


def evidence(count):
    """The items that are spread, and the items that one store each has."""
    nodes, items = played(count, False)
    alone = [forked(nodes[2]), quoted_fork(nodes[6], nodes[7]), demand(nodes[4]), demand(nodes[5]), nodes[5].segment(max(nodes[5].signatures))]
    items += told(nodes, {4, 5})
    # What node 6 said first stands alone, and what node 2 said first is in no store with its other statement.
    own = {nodes[6].statement(min(nodes[6].signatures)), nodes[2].statement(min(nodes[2].signatures))}
    return nodes, [item for item in items if item not in own], [*alone, nodes[2].statement(min(nodes[2].signatures))]


def directory(nodes):
    rows = b"".join(u32(number) + node.key.public() for number, node in sorted(nodes.items()))
    return b"PRDIRECT" + u32(len(nodes)) + rows


def store(items):
    items = sorted(set(items))
    return b"PRSTORE2" + u64(len(items)) + b"".join(u32(len(item)) + item for item in items)


def main():
    folder, stores = sys.argv[1], int(sys.argv[2])
    count = int(sys.argv[3]) if len(sys.argv) > 3 else 24
    rng = random.Random(int(sys.argv[4]) if len(sys.argv) > 4 else 1)
    star = sys.argv[5:] == ["star"]
    nodes, items, alone = (*played(count, True), []) if star else evidence(count)
    items += told(nodes, {}) if star else []
    each = [[] for _ in range(stores)]
    # Each item is in one store at least, and every store has some that others have too.
    for item in items:
        rng.choice(each).append(item)
    for own in each:
        own += rng.sample(items, min(4, len(items)))
    for at, item in enumerate(alone):
        each[(at * stores) // len(alone)].append(item)
    os.makedirs(folder, exist_ok=True)
    with open(f"{folder}/nodes", "wb") as file:
        file.write(directory(nodes))
    for number, own in enumerate(each):
        with open(f"{folder}/{number:03}.store", "wb") as file:
            file.write(store(own))
    print(f"{count} nodes, {len(set(items)) + len(set(alone))} items, {sum(len(set(own)) for own in each)} in {stores} stores")


if __name__ == "__main__":
    main()
