#!/usr/bin/env python3
"""Computes, over Python's hashlib alone, the values in the scripts of signatures, statements, messages and nodes, and looks for each in its script.

It fails too if an answer in one of these scripts has a digest that it does not compute.

It shares no code with the crates: LMS with H5 (RFC 8554), the hash chain of a log, and nodes under Tally are written here again,
from the formats (docs/FORMATS.md) and the RFC. A node's keys have the identifier and the seed that end in the node's number, and
before it the key's number in each byte.
"""

import hashlib
import os
import re
import struct
import sys

HEIGHT = 5
LEAVES = 1 << HEIGHT
# of a typecode of LM-OTS: the width of a digit in bits, the number of chains, the shift of the checksum
OTS = {1: (1, 265, 7), 3: (4, 67, 4), 4: (8, 34, 0)}


def sha256(*texts):
    return hashlib.sha256(b"".join(texts)).digest()


def u8(number):
    return bytes([number])


def u16(number):
    return struct.pack(">H", number)


def u32(number):
    return struct.pack(">I", number)


def u64(number):
    return struct.pack(">Q", number)


class Key:
    """A secret key of RFC 8554, appendix A, with its whole tree."""

    def __init__(self, node, ots_type, number=0):
        self.identifier, self.seed = 12 * u8(number) + u32(node), 28 * u8(number) + u32(node)
        self.ots_type, self.next_leaf, self.number = ots_type, 0, number
        self.width, self.chains, self.shift = OTS[ots_type]
        self.tree = {LEAVES + leaf: self.leaf_hash(leaf) for leaf in range(LEAVES)}
        for r in range(LEAVES - 1, 0, -1):
            self.tree[r] = sha256(self.identifier, u32(r), u16(0x8383), self.tree[2 * r], self.tree[2 * r + 1])

    def public(self):
        return u32(HEIGHT) + u32(self.ots_type) + self.identifier + self.tree[1]

    def leaf_hash(self, leaf):
        ends = [self.chain(leaf, i, self.start(leaf, i), (1 << self.width) - 1) for i in range(self.chains)]
        public = sha256(self.identifier, u32(leaf), u16(0x8080), *ends)
        return sha256(self.identifier, u32(LEAVES + leaf), u16(0x8282), public)

    def start(self, leaf, i):
        return sha256(self.identifier, u32(leaf), u16(i), u8(0xFF), self.seed)

    def chain(self, leaf, i, value, steps):
        for j in range(steps):
            value = sha256(self.identifier, u32(leaf), u16(i), u8(j), value)
        return value

    def digits(self, text):
        return [(byte >> (8 - self.width * (k + 1))) & ((1 << self.width) - 1) for byte in text for k in range(8 // self.width)]

    def sign(self, message, c):
        """The signature's text: behind the key's number, but for key 0."""
        leaf, self.next_leaf = self.next_leaf, self.next_leaf + 1
        assert leaf < LEAVES
        digest = sha256(self.identifier, u32(leaf), u16(0x8181), c, message)
        checksum = sum((1 << self.width) - 1 - digit for digit in self.digits(digest)) << self.shift
        digits = self.digits(digest + u16(checksum))[: self.chains]
        values = [self.chain(leaf, i, self.start(leaf, i), digit) for i, digit in enumerate(digits)]
        path = [self.tree[((LEAVES + leaf) >> level) ^ 1] for level in range(HEIGHT)]
        signature = b"".join([u32(leaf), u32(self.ots_type), c, *values, u32(HEIGHT), *path])
        return u8(self.number) + signature if self.number else signature


def entry_hash(before, seq, kind, content):
    return sha256(before, u64(seq), u8(kind), sha256(content))


class Message:
    def __init__(self, sender, receiver, seq, before, signature, payload):
        self.sender, self.receiver, self.seq, self.before, self.signature, self.payload = sender, receiver, seq, before, signature, payload

    def quote(self):
        """The content of the receiver's RECV entry."""
        return u32(self.sender) + u64(self.seq) + self.before + u32(len(self.signature)) + self.signature + self.payload

    def fed(self):
        """What the scripts feed to a digest."""
        head = u32(self.sender) + u32(self.receiver) + u64(self.seq) + self.before
        return head + u64(len(self.signature)) + self.signature + u64(len(self.payload)) + self.payload


class Ack:
    def __init__(self, sender, send_seq, seq, before, signature):
        self.sender, self.send_seq, self.seq, self.before, self.signature = sender, send_seq, seq, before, signature

    def fed(self):
        return u32(self.sender) + u64(self.send_seq) + u64(self.seq) + self.before + u64(len(self.signature)) + self.signature


class Node:
    """A node under Tally in the directory of the nodes 1, 2 and 3."""

    ots_type, listed = 3, (1, 2, 3)

    def __init__(self, number, first_seq):
        self.number, self.key, self.next_seq, self.end = number, Key(number, self.ots_type), first_seq, sha256()
        self.total, self.entries, self.signed, self.sent, self.heard, self.awaited = 0, 0, [], {}, {}, []
        self.log(1, u32(number))

    def log(self, kind, content):
        """Logs an entry, and gives its number and the hash before it."""
        place = self.next_seq, self.end
        self.end = entry_hash(self.end, self.next_seq, kind, content)
        self.next_seq, self.entries = self.next_seq + 1, self.entries + 1
        return place

    def sign(self, entropy, k):
        """Signs the last entry as the signature number k of a call."""
        seq = self.next_seq - 1
        signature = self.key.sign(u64(seq) + self.end, sha256(entropy, u32(k)))
        self.signed.append(u32(self.number) + u64(seq) + self.end + u64(len(signature)) + signature)
        return signature

    def send(self, outputs, entropy, k):
        messages = []
        for receiver, payload in outputs:
            if receiver != self.number and receiver in self.listed:
                seq, before = self.log(2, u32(receiver) + payload)
                self.sent[seq] = Message(self.number, receiver, seq, before, self.sign(entropy, k + len(messages)), payload)
                self.awaited.append(seq)
                messages.append(self.sent[seq])
        return messages

    def timer(self, moment, entropy):
        self.log(4, u64(moment))
        return self.send([(self.number + 1, b"A" + u64(moment))], entropy, 0)

    def receive(self, message, entropy):
        """The acknowledgement and the messages. Nothing where another message of the sender with the number was received."""
        sent = message.sender, message.seq
        if sent in self.heard:
            kept, ack = self.heard[sent]
            return (ack, []) if kept.fed() == message.fed() else None
        seq, before = self.log(3, message.quote())
        ack = Ack(self.number, message.seq, seq, before, self.sign(entropy, 0))
        self.heard[sent] = message, ack
        if len(message.payload) != 9 or message.payload[:1] != b"A":
            return ack, []
        self.total = min(2**64 - 1, self.total + int.from_bytes(message.payload[1:], "big"))
        return ack, self.send([(message.sender, b"T" + u64(self.total))], entropy, 1)

    def checkpoint(self):
        return self.log(5, u64(self.total))[0]

    def accept(self, ack):
        self.awaited.remove(ack.send_seq)


def message_with(key, seq, payload):
    """Node 1's message with the payload, after 32 zero bytes in its log."""
    before = bytes(32)
    statement = u64(seq) + entry_hash(before, seq, 2, u32(2) + payload)
    return Message(1, 2, seq, before, key.sign(statement, bytes([9]) * 32), payload)


def message_to_2(key, seq, number):
    """Node 1's message that adds the number, after 32 zero bytes in its log."""
    return message_with(key, seq, b"A" + u64(number))


def of_call(number):
    return bytes([number]) * 32


def spent():
    node, key, digest = Node(2, 1), Key(1, 3), hashlib.sha256()
    for message in node.timer(9, of_call(1)):
        digest.update(message.fed())
    for seq in range(2, 17):
        message = message_to_2(key, seq, 1)
        for entropy in (seq, seq | 64):
            ack, answers = node.receive(message, of_call(entropy))
            digest.update(ack.fed() + b"".join(answer.fed() for answer in answers))
    assert (node.entries, len(node.signed), len(node.awaited), LEAVES - node.key.next_leaf) == (33, 31, 16, 1)
    return [digest.digest(), node.end]


def exchange():
    asking, answering, digest = Node(1, 1), Node(2, 1), hashlib.sha256()
    for turn in range(16):
        (ask,) = asking.timer(turn + 1, of_call(turn))
        ack, (answer,) = answering.receive(ask, of_call(turn | 64))
        asking.accept(ack)
        second_ack, none = asking.receive(answer, of_call(turn | 128))
        answering.accept(second_ack)
        assert (ask.seq, answer.seq, none) == (3 * turn + 3, 2 * turn + 3, [])
        digest.update(ask.fed() + ack.fed() + answer.fed() + second_ack.fed())
    for node, entries in (asking, 49), (answering, 33):
        assert (node.entries, len(node.signed), node.awaited, node.key.next_leaf) == (entries, LEAVES, [], LEAVES)
    return [digest.digest(), asking.end, answering.end]


def checkpoint():
    node, digest = Node(2, 5), hashlib.sha256()
    ack, (answer,) = node.receive(message_to_2(Key(1, 3), 2, 7), of_call(1))
    assert node.checkpoint() == 8
    (told,) = node.timer(10, of_call(2))
    assert node.awaited == [7, 10] and (node.entries, len(node.signed)) == (6, 3)
    digest.update(ack.fed() + 3 * (answer.fed() + told.fed()) + b"".join(node.signed))
    return [digest.digest(), node.end]


def messages():
    sent = entry_hash(bytes([0x55]) * 32, 7, 2, u32(2) + b"hello")
    signature = Key(1, 4).sign(u64(7) + sent, bytes([9]) * 32)
    quote = Message(1, 2, 7, bytes([0x55]) * 32, signature, b"hello").quote()
    received = entry_hash(bytes([0x66]) * 32, 11, 3, quote)
    return [sent, sha256(signature), received, sha256(Key(2, 4).sign(u64(11) + received, bytes([8]) * 32))]


def taken():
    """Node 2 receives one of three messages of number 4, and one of number 5."""
    node, key, digest = Node(2, 1), Key(1, 3), hashlib.sha256()
    first, second, third, fourth = [message_with(key, seq, payload) for seq, payload in ((4, b"X"), (4, b"Y"), (4, b"X"), (5, b"Y"))]
    ack, none = node.receive(first, of_call(1))
    assert (node.receive(second, of_call(2)), node.receive(third, of_call(3)), node.receive(first, of_call(4))) == (None, None, (ack, none))
    first_end = node.end
    digest.update(ack.fed() + node.receive(fourth, of_call(5))[0].fed())
    assert (node.entries, len(node.signed), node.awaited, node.key.next_leaf) == (3, 2, [], 2)
    return [first_end, digest.digest(), node.end]


def renewed():
    """Node 2 answers messages until no leaf of its key is left, and one more by its key 1."""
    node, key = Node(2, 1), Key(1, 3)
    for seq in range(2, 18):
        node.receive(message_to_2(key, seq, 1), of_call(seq))
    assert (node.entries, node.key.next_leaf) == (33, LEAVES)
    spent_end, node.key = node.end, Key(2, 4, 1)
    ack, (answer,) = node.receive(message_to_2(key, 18, 1), of_call(18))
    assert (node.entries, len(node.signed), node.key.next_leaf) == (35, 34, 2)
    assert len(ack.signature) == len(answer.signature) == 1293
    return [spent_end, sha256(ack.fed() + answer.fed()), node.end]


def two_keys():
    """Node 1's keys 0 and 1, and the signature text of number 5 and a hash of 32 bytes 7 by each."""
    statement = u64(5) + bytes([7]) * 32
    keys = [Key(1, 4), Key(1, 4, 1)]
    texts = [key.sign(statement, bytes(32)) for key in keys]
    assert [len(text) for text in texts] == [1292, 1293]
    return [key.public() for key in keys] + texts


def split_texts():
    """The digests of signatures that are too long to be shown."""
    nines = bytes([9])
    return [sha256(text + b"M") for text in (b"\x08" + 1290 * nines, b"\x00" + 9322 * nines, 1291 * nines, 9323 * nines)]


def contradiction():
    """The digests of node 1's signatures of number 5: with a hash of bytes 8, and with one of bytes 7."""
    key = Key(1, 4)
    return [sha256(key.sign(u64(5) + bytes([byte]) * 32, bytes(32))) for byte in (8, 7)]


def directory_of_three():
    """The older text of the directory of the nodes 1, 2 and 3."""
    return [b"PRDIRECT" + u32(3) + b"".join(u32(number) + Key(number, 3).public() for number in (1, 2, 3))]


def ends():
    """The ends of logs: node 2's first entry, node 1 after a tick of its timer, and node 2 after 4,095 checkpoints."""
    new, ticked, full = Node(2, 1), Node(1, 1), Node(2, 1)
    new_end = new.end
    ticked.timer(1, of_call(1))
    for seq in range(2, 4097):
        assert full.checkpoint() == seq
    assert (ticked.entries, full.entries) == (3, 4096)
    return [new_end, ticked.end, full.end]


def round_of_calls():
    """Each call of a node once: node 1 asks, node 2 answers, and makes a checkpoint."""
    asking, answering = Node(1, 1), Node(2, 1)
    (ask,) = asking.timer(1, of_call(1))
    ack, (answer,) = answering.receive(ask, of_call(2))
    assert answering.receive(ask, of_call(3)) == (ack, [])
    asking.accept(ack)
    assert answering.checkpoint() == 4 and (asking.awaited, answering.awaited) == ([], [3])
    return [sha256(ask.fed() + ack.fed() + answer.fed()), asking.end, answering.end]


VALUES = {
    "directories.txt": list,
    "signatures.txt": lambda: split_texts() + two_keys(),
    "pools.txt": contradiction,
    "messages.txt": messages,
    "nodes.txt": lambda: directory_of_three() + round_of_calls() + taken() + spent() + exchange() + checkpoint(),
    "keys.txt": lambda: directory_of_three() + renewed(),
    "refusals.txt": lambda: directory_of_three() + ends(),
}


def digests_in(text):
    """The digests in the answers of a script."""
    answers = [line.partition("=>")[2] for line in text.splitlines() if not line.lstrip().startswith("#")]
    return set(re.findall(r"(?<![0-9a-f])[0-9a-f]{64}(?![0-9a-f])", "\n".join(answers)))


def faults_in(name, text, values):
    """How many values are missing in the script, and how many digests in its answers are no values."""
    for value in values:
        print(value.hex(), "stands in" if value.hex() in text else "is not in", name)
    unknown = digests_in(text) - {value.hex() for value in values}
    for digest in sorted(unknown):
        print(digest, "is not computed here, and stands in an answer of", name)
    return sum(value.hex() not in text for value in values) + len(unknown)


def main():
    scripts = os.path.join(os.path.dirname(os.path.abspath(__file__)), "..", "..", "crates", "probe", "data")
    faults = 0
    for name, values_of in VALUES.items():
        with open(os.path.join(scripts, name), encoding="utf-8") as file:
            faults += faults_in(name, file.read(), values_of())
    sys.exit(faults != 0)


if __name__ == "__main__":
    main()
