"""Inputs of `explain`, of each of which `cases.txt` has by hand what is told: each reason of a deviation, each form of proof, each kind of open
challenge, and trust.

They are signed here over Python's hashlib alone, by the keys of checks/reference/stores.py: two nodes under Tally, of which node 1 asks when its
timer ticks. `cases` gives a name, what is asked for (store or proof), the two lines, and the hashes that the sentences name.
"""

import os
import sys

TOP = os.path.dirname(os.path.dirname(os.path.dirname(os.path.abspath(__file__))))
sys.path.insert(0, f"{TOP}/checks/reference")

from nodes import Message, entry_hash, sha256, u8, u32, u64
from stores import LOG, ONES, TWOS, ZEROS, Keys, changed, demand, directory, end_of, export, text

INIT, SEND, RECV, TIMER, CHECKPOINT = 1, 2, 3, 4, 5
ASK = b"A" + u64(5)
BEGUN = [(1, INIT, u32(1)), (2, TIMER, u64(5))]


def asking(*more):
    """Node 1's log up to where its program asks node 2, and what stands there instead."""
    return BEGUN + list(more)


def begun(*more):
    """Node 2's INIT, and what stands behind it."""
    return [(1, INIT, u32(2)), *more]


def hash_of(entries):
    return end_of(sha256(), entries).hex()


def proof(form, *parts):
    return u8(form) + b"".join(text(part) for part in parts)


class Case:
    """Keys of its own, and the input that is made of what they sign."""

    def __init__(self, name, subject="store"):
        self.name, self.subject, self.keys, self.hashes = name, subject, Keys(), {}

    def of(self, *items):
        evidence = export(items) if self.subject == "store" else items[0]
        lines = directory(self.keys).hex() + "\n" + evidence.hex() + "\n"
        return self.name, self.subject, lines.encode(), self.hashes

    def log(self, node, entries):
        return self.keys.segment(node, sha256(), entries)


def quoting_itself(case):
    """Node 2's RECV of a message that node 2 itself signed."""
    sent = entry_hash(ZEROS, 7, SEND, u32(2) + b"hello")
    message = Message(2, 2, 7, ZEROS, case.keys.sign(2, 7, sent), b"hello")
    return case.log(2, begun((2, RECV, message.quote())))


def quoting_another_key(case):
    """Node 2's RECV of a message that node 1 signed by its key 0, where the signature names key 1."""
    message = case.keys.message(1, 7, b"hello")
    named = changed(message, {"signature": u8(1) + message.signature})
    return case.log(2, begun((2, RECV, named.quote())))


def deviations():
    """Each reason of a deviation."""
    case = Case("SeqOrder")
    yield case.of(case.log(2, begun((5, TIMER, u64(10)), (4, TIMER, u64(20)))))
    case = Case("BadInit")
    yield case.of(case.log(2, [(1, TIMER, u64(10))]))
    case = Case("BadInit of another node")
    yield case.of(case.log(2, [(1, INIT, u32(1))]))
    case = Case("BadKind")
    yield case.of(case.log(2, begun((2, 9, b"?"))))
    case = Case("BadKind of a second INIT")
    yield case.of(case.log(2, begun((2, INIT, u32(2)))))
    case = Case("BadContent")
    yield case.of(case.log(2, begun((2, TIMER, b"noon"))))
    case = Case("BadReceipt of the node itself")
    yield case.of(quoting_itself(case))
    case = Case("BadReceipt of another key")
    yield case.of(quoting_another_key(case))
    case = Case("BadReceipt of another payload")
    message = case.keys.message(1, 7, b"hello")
    yield case.of(case.log(2, begun((2, RECV, changed(message, {"payload": b"hullo"}).quote()))))
    case = Case("MissingOutput")
    yield case.of(case.log(1, asking((3, TIMER, u64(6)))))
    case = Case("ExtraOutput")
    yield case.of(case.log(2, begun((2, SEND, u32(1) + b"<b>hi</b>"))))
    case = Case("WrongOutput")
    yield case.of(case.log(1, asking((3, SEND, u32(2) + b"hello"))))
    case = Case("WrongCheckpoint")
    yield case.of(case.log(2, begun((2, CHECKPOINT, u64(5)))))
    case = Case("DuplicateReceipt")
    message = case.keys.message(1, 7, b"hello")
    yield case.of(case.log(2, begun((2, RECV, message.quote()), (3, RECV, message.quote()))))
    case = Case("DuplicateReceipt of another message")
    one, other = case.keys.message(1, 7, b"hello"), case.keys.message(1, 7, b"hullo")
    case.hashes["ONE"] = entry_hash(ZEROS, 7, SEND, u32(2) + b"hello").hex()
    case.hashes["OTHER"] = entry_hash(ZEROS, 7, SEND, u32(2) + b"hullo").hex()
    yield case.of(case.log(2, begun((2, RECV, one.quote()), (3, RECV, other.quote()))))


def proofs():
    """Each form of proof, and each way in which a statement and a segment contradict each other."""
    case = Case("proof of two statements", "proof")
    yield case.of(proof(1, case.keys.auth(1, 5, ONES), case.keys.auth(1, 5, TWOS)))
    for name, seq in ("otherwise", 4), ("before the log", 0):
        case = Case(f"proof of a statement and a segment: {name}", "proof")
        case.hashes["FOURTH"] = hash_of(LOG[:4])
        yield case.of(proof(2, case.keys.auth(2, seq, ONES), case.log(2, LOG)))
    case = Case("proof of a statement and a segment: no such entry", "proof")
    yield case.of(proof(2, case.keys.auth(2, 2, ONES), case.log(2, begun((3, TIMER, u64(10))))))
    case = Case("proof of a statement and a segment: before its start", "proof")
    case.hashes["SECOND"] = hash_of(LOG[:2])
    yield case.of(proof(2, case.keys.auth(2, 2, ONES), case.keys.segment(2, end_of(sha256(), LOG[:2]), LOG[2:])))
    case = Case("proof of a segment", "proof")
    yield case.of(proof(3, case.log(2, begun((2, CHECKPOINT, u64(5))))))


def others():
    """Statements in several places, open challenges, and trust."""
    case = Case("two hashes")
    message = case.keys.message(1, 7, b"hello")
    case.hashes["QUOTED"] = entry_hash(ZEROS, 7, SEND, u32(2) + b"hello").hex()
    yield case.of(case.keys.auth(1, 7, ONES), case.log(2, begun((2, RECV, message.quote()))), demand(message))
    case = Case("two faults")
    signed = [case.keys.auth(2, seq, hash) for seq, hash in ((2, ONES), (9, ONES), (9, TWOS))]
    yield case.of(*signed, case.log(2, begun((2, CHECKPOINT, u64(5)))), case.keys.audit((12, ONES)))
    case = Case("before and behind a segment")
    signed = [case.keys.auth(2, seq, hash) for seq, hash in ((1, ONES), (1, TWOS), (2, ONES), (9, ONES))]
    yield case.of(*signed, case.keys.segment(2, end_of(sha256(), LOG[:2]), LOG[2:]))
    case = Case("open audits")
    case.hashes.update(THIRD=hash_of(LOG[:3]), SIXTH=hash_of(LOG))
    end = (6, end_of(sha256(), LOG))
    yield case.of(case.keys.audit(end), case.keys.audit((3, end_of(sha256(), LOG[:3])), end))
    case = Case("an open send")
    yield case.of(demand(case.keys.message(1, 7, b"hello")))
    case = Case("an answered send")
    message = case.keys.message(1, 7, b"hello")
    yield case.of(demand(message), case.keys.ack(message))
    case = Case("trust")
    yield case.of(case.log(2, LOG), case.keys.auth(2, 6, end_of(sha256(), LOG)))
    case = Case("nothing")
    yield case.of()


def cases():
    yield from deviations()
    yield from proofs()
    yield from others()


def mails():
    """A relay that loses a mail, as `mailbox_tour` wrote it: nodes under Mailbox."""
    with open(f"{TOP}/crates/mailbox_tour/stdout", encoding="utf-8") as it:
        directory, store = it.read().split("== dropped_mail\n")[1].split("\n--")[0].split()
    yield "a dropped mail", "store", f"{directory}\n{store}\n".encode(), {}
