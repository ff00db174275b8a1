#!/usr/bin/env python3
"""Makes journals over Python's hashlib and struct alone, as docs/FORMATS.md says of a journal's file, of a journal of items and of a node's
journal, and compares them with what the tests of durable_store and node_journals hold, and with the page's own examples.

It shares no code with the crates: keys, logs and nodes under Tally are those of nodes.py. In the tests each text stands as hexadecimal
digits behind a comment `// journal_texts.py: NAME`. A text that is another one, or has a name that is not known here, and a name that has no
text are told, and end this with status 1.
"""

import os
import re
import struct
import sys

from nodes import Key, Node, entry_hash, message_to_2, of_call, sha256, u8, u32, u64

TOP = os.path.join(os.path.dirname(os.path.abspath(__file__)), "..", "..")
PAGE = os.path.join(TOP, "docs", "FORMATS.md")
KEPT = os.path.join(TOP, "crates", "durable_tests", "src", "texts.rt")
REBUILT = os.path.join(TOP, "crates", "recovery_tests", "src", "texts.rt")
MARKED = re.compile(r'// journal_texts\.py: ([a-z0-9 ]+)\n[^"\n]*"([0-9a-f]*)"')
W4, W8 = 3, 4
ONES, TWOS = bytes([1]) * 32, bytes([2]) * 32


# ---- a journal's file


def head(text, gate=255):
    """What stands before a text in its block: the gate, the length, and what that lacks of 2^32 - 1."""
    return struct.pack(">BII", gate, len(text), 2**32 - 1 - len(text))


def block(text, gate=255):
    return head(text, gate) + text


def journal(texts):
    """A file at rest: a block a text, and the closed gate."""
    return b"".join(block(text) for text in texts) + u8(0)


def staged(texts, group):
    """The file of the texts before the gate of a group behind them is opened."""
    first, *others = group
    return journal(texts)[:-1] + block(first, 0) + b"".join(block(text) for text in others) + u8(0)


# ---- a journal of items


def counted(text):
    return u32(len(text)) + text


def directory(keys):
    """The encoding of a directory: of each node its number and its keys."""
    listed = (u32(node) + u8(len(of_node)) + b"".join(key.public() for key in of_node) for node, of_node in keys)
    return b"PRDIREC2" + u32(len(keys)) + b"".join(listed)


def statement(key, seq, entry):
    """The item of node 1's statement that the entry with this number has this hash."""
    return u8(1) + u32(1) + u64(seq) + entry + counted(key.sign(u64(seq) + entry, of_call(9)))


def signed_segment(key, contents):
    """A key's signature of a log from 1 on that has TIMER entries with these contents."""
    end = sha256()
    for seq, content in enumerate(contents, 1):
        end = entry_hash(end, seq, 4, content)
    return key.sign(u64(len(contents)) + end, of_call(9))


def kept():
    """By name, the texts of a journal of two items under Tally. The items are statements of node 1, which give its entry 5 two hashes. And the
    signature of a segment of node 2, whose text has 8,388,435 bytes. It makes the longest group with a basis whose program has a name of four."""
    one, two = Key(1, W8), Key(2, W8)
    program, nodes = b"PRKEPT01" + b"tally", directory([(1, [one]), (2, [two])])
    first, second = statement(one, 5, ONES), statement(one, 5, TWOS)
    contents = [*63 * [bytes(131_072)], bytes(128_730)]
    signature = signed_segment(two, contents)
    segment = u8(2) + u32(2) + sha256() + u32(64) + b"".join(u64(0) + u8(4) + counted(content) for content in contents) + counted(signature)
    assert len(journal([b"PRKEPT01" + b"four", nodes, segment])) == 8_388_608 + 1
    texts = {
        "program": block(program),
        "directory head": head(nodes),
        "directory": nodes,
        "item head": head(first),
        "first item": first,
        "second item": second,
        "staged head": head(second, 0),
        "store head": b"PRSTORE2" + u64(2),
        "counted head": u32(len(first)),
        "long signature": signature,
    }
    wholes = {
        ("program", "directory head", "directory", "item head", "first item", "item head", "second item", "end"): journal([program, nodes, first, second]),
        ("program", "directory head", "directory", "item head", "first item", "staged head", "second item", "end"): staged([program, nodes, first], [second]),
        ("store head", "counted head", "first item", "counted head", "second item"): b"PRSTORE2" + u64(2) + counted(first) + counted(second),
    }
    return texts, wholes


# ---- a node's journal


class Third(Node):
    """A node that signs by a key of W8."""

    ots_type = W8


def beginning(node, first_seq, listed, key, program):
    return b"PRNODEJ1" + u32(node) + u64(first_seq) + sha256(listed) + key.public() + counted(program)


def received(message, entropy):
    """The record of a message: the entropy of the call, and the send challenge of the message behind its length."""
    sent = u32(message.sender) + u32(message.receiver) + u64(message.seq) + message.before
    return u8(1) + entropy + counted(u8(4) + sent + counted(message.signature) + counted(message.payload))


def ticked(moment, entropy):
    return u8(2) + entropy + u64(moment)


def acknowledged(ack):
    return u8(4) + u32(ack.sender) + u64(ack.send_seq) + u64(ack.seq) + ack.before + counted(ack.signature)


def rekeyed(key):
    return u8(5) + key.public()


def fed(messages):
    return b"".join(message.fed() for message in messages)


def signed(node):
    return sha256(b"".join(node.signed))


def rebuilt():
    """By name, the texts of the journal of node 2 under Tally, whose log begins at 5, and digests of what it gives, logs and signs.

    It receives node 1's message that adds 7, its timer ticks at 5, which sends to node 3, it makes a checkpoint, accepts node 3's
    acknowledgement and goes over to its key 1. Then its timer ticks once more, at 6. In what it gives, the record's kind stands before
    what each call answers. At its beginning it refuses that acknowledgement (38) and its key 0, by which it signs already (31): in place of
    an answer stands 0 and the number of the refusal."""
    node, next_key = Node(2, 5), Key(2, W4, 1)
    nodes = directory([(1, [Key(1, W8)]), (2, [Key(2, W4), next_key]), (3, [Key(3, W8)])])
    texts = {"directory": nodes, "beginning": beginning(2, 5, nodes, node.key, b"tally"), "began end": node.end, "began signed": signed(node)}
    texts |= {"key 0": rekeyed(node.key), "refused given": sha256(u8(0) + u8(38) + u8(0) + u8(31))}
    message = message_to_2(Key(1, W8), 2, 7)
    answer, answers = node.receive(message, of_call(1))
    texts |= {"received": received(message, of_call(1)), "received end": node.end, "received signed": signed(node)}
    (told,) = node.timer(5, of_call(11))
    texts |= {"ticked": ticked(5, of_call(11)), "ticked end": node.end, "ticked signed": signed(node), "ticked message": sha256(told.fed())}
    checkpoint = node.checkpoint()
    ack, _ = Third(3, 1).receive(told, of_call(3))
    node.accept(ack)
    node.key = next_key
    assert (checkpoint, told.seq, node.entries, node.awaited, len(answers)) == (10, 9, 6, [7], 1)
    texts |= {"checkpointed": u8(3), "acknowledged": acknowledged(ack), "rekeyed": rekeyed(next_key), "end": node.end}
    given = u8(1) + answer.fed() + fed(answers) + u8(2) + told.fed() + u8(3) + u64(checkpoint) + u8(4) + u8(5)
    records = ("beginning", "received", "ticked", "checkpointed", "acknowledged", "rekeyed")
    texts |= {"given": sha256(given), "file": sha256(journal([texts[name] for name in records]))}
    (last,) = node.timer(6, of_call(12))
    assert (last.seq, node.entries, len(node.signed), node.awaited) == (12, 8, 4, [7, 12])
    texts |= {"last ticked": ticked(6, of_call(12)), "last given": sha256(u8(2) + last.fed()), "last end": node.end, "last signed": signed(node)}
    return texts, {}


# ---- comparing


def quoted(path):
    """The texts that stand in a file of tests, each with its name, in their order."""
    with open(path, encoding="utf-8") as file:
        return MARKED.findall(file.read())


def faults_of(path, texts, wholes):
    """What is wrong with the texts that a file of tests has: with each, and with what they make together."""
    found, short = quoted(path), os.path.relpath(path, TOP)
    digits = dict(found)
    for name, text in texts.items():
        if digits.get(name) != text.hex():
            yield f"{short}: {name} is {text.hex()}"
    for name in sorted(digits.keys() - texts.keys()):
        yield f"{short}: {name} is not known"
    if len(digits) < len(found):
        yield f"{short}: a name has two texts"
    for names, whole in wholes.items():
        if "".join("00" if name == "end" else digits.get(name, "?") for name in names) != whole.hex():
            yield f"{short}: together these do not make what they should: {', '.join(names)}"


def faults_of_page():
    """What is wrong with the examples of the page."""
    with open(PAGE, encoding="utf-8") as file:
        page = file.read()
    for said, example in (
        ("This is a journal of the texts 07 and the empty one, in hexadecimal:", journal([bytes([7]), b""])),
        (
            "These are the records of a tick at moment 5 with 32 bytes 0x0b as entropy, and of a checkpoint, in hexadecimal:",
            ticked(5, of_call(11)) + u8(3),
        ),
    ):
        lines = re.match(r"\n\n((?:    .*\n)+)", page.partition(said)[2])
        digits = re.sub(r"\s", "", lines[1].replace("0b0b..0b", 32 * "0b")) if lines else ""
        if digits != example.hex():
            yield f"docs/FORMATS.md: {said} {example.hex()}"


def main():
    faults = [*faults_of(KEPT, *kept()), *faults_of(REBUILT, *rebuilt()), *faults_of_page()]
    for fault in faults:
        print(fault)
    if not faults:
        print("the journals in tests, and those of the page, are as the page says")
    sys.exit(1 if faults else 0)


if __name__ == "__main__":
    main()
