"""Tests of examples/network: a witness or a relay that is killed has all that it answered by, and a leaf that signed two texts is found."""

import asyncio
import json
import os
import socket
import subprocess
import sys
import time

import pytest
from scene import KEYS, LISTED, TOP

from bulwynef import JournalInUse, KeptNode, KeptStore, Node, Program, Store, audit_challenge, statement_of, statements_of, texts_in

NETWORK = os.path.join(TOP, "examples", "network")
sys.path.insert(0, NETWORK)
import afterwards
import leaves
import protocol

FETCH = 0x80 << 56
SECONDS = 60


def two_histories():
    """Two acknowledgements of node 1 under one number."""
    with Node(LISTED, 2, KEYS[2], Program.MAILBOX) as two:
        two.timer(FETCH), two.timer(FETCH)
        messages = [two.message(seq) for seq in two.waiting()]
    acks = []
    for message in messages:
        with Node(LISTED, 1, KEYS[1], Program.MAILBOX) as one:
            acks.append(one.answer(message))
    return acks


def free_port():
    with socket.socket() as it:
        it.bind((protocol.HOST, 0))
        return it.getsockname()[1]


class Running:
    """A process of the network."""

    def __init__(self, script, port, told):
        told = {"directory": LISTED.hex(), "seed_of_link": 1, "lose": 0, "repeat": 0, "reorder": 0, "delay": 0, "seconds": SECONDS, "age": 0, **told}
        words = [sys.executable, os.path.join(NETWORK, script)]
        self.port, self.process = port, subprocess.Popen(words, stdin=subprocess.PIPE, stdout=subprocess.PIPE)
        self.process.stdin.write(json.dumps(told).encode())
        self.process.stdin.close()
        assert self.process.stdout.readline() == b"ready\n"

    def asked(self, kind, body=b""):
        return asyncio.run(protocol.asked(self.port, kind, body, 20))

    def said(self):
        return json.loads(self.asked(protocol.REPORT))["said"]

    def killed(self):
        self.process.kill()
        self.process.wait()
        self.process.stdout.close()


@pytest.fixture
def running():
    begun = []
    yield begun
    for it in begun:
        it.killed()


@pytest.fixture
def begin(tmp_path, running):
    """Begins a witness."""

    def run(kept="kept", port=None, other=None):
        port = port or free_port()
        told = {"ports": {1: free_port(), 2: free_port()}, "port": port, "other": other or free_port(), "kept": str(tmp_path / kept)}
        running.append(Running("witness.py", port, told))
        return running[-1]

    return run


@pytest.fixture
def begin_relay(tmp_path, running):
    """Begins relay 1, which has nobody to talk to."""

    def run(may_begin=False):
        port, key = free_port(), KEYS[1]
        told = {"me": 1, "keys": [(key.key_id.hex(), key.seed.hex(), key.lms_type, key.ots_type)], "witnesses": [free_port()], "fault": None}
        told |= {"journal": str(tmp_path / "relay"), "handed_on": str(tmp_path / "handed_on"), "may_begin": may_begin, "most_mails": 0, "every": 1}
        running.append(Running("relay.py", port, told | {"ports": {1: port, 2: free_port()}}))
        return running[-1]

    return run


def has(witness, items):
    """Whether each item is in what the witness exports."""
    with Store(LISTED, Program.MAILBOX) as store:
        store.load(witness.asked(protocol.EXPORT))
        return not any(store.take(item) for item in items)


def taken(items):
    return b"".join(map(protocol.with_length, items))


def test_a_killed_witness_exposes_whom_it_exposed(begin):
    acks = two_histories()
    witness = begin()
    assert witness.asked(protocol.TAKE, taken(acks)) == bytes([1]) * len(acks)
    witness.killed()
    again = begin()
    assert again.said()["1"] == "exposed" and has(again, acks)


def test_a_killed_witness_has_the_challenge_that_it_answered(begin):
    with Node(LISTED, 2, KEYS[2], Program.MAILBOX) as two:
        two.timer(FETCH)
        message = two.message(two.waiting()[0])
    witness = begin()
    assert witness.asked(protocol.CHALLENGE, message) == b""
    witness.killed()
    again = begin()
    assert again.said()["1"] == "suspected" and has(again, [message])


def test_a_killed_witness_has_what_it_got_by_exchange(begin):
    ports = free_port(), free_port()
    one, other = begin("one", *ports), begin("other", *ports[::-1])
    assert set(one.asked(protocol.TAKE, taken(two_histories()))) == {1}
    until = time.monotonic() + SECONDS
    while other.said()["1"] != "exposed":
        assert time.monotonic() < until
    other.killed(), one.killed()
    assert begin("other", *ports[::-1]).said()["1"] == "exposed"


def test_what_was_torn_is_cut_off_and_the_rest_stays(begin, tmp_path):
    first, second = two_histories()
    witness = begin()
    assert witness.asked(protocol.TAKE, taken([first])) == bytes([1])
    witness.killed()
    whole = (tmp_path / "kept").read_bytes()
    for torn in (b"\0\0", second):
        (tmp_path / "kept").write_bytes(whole + torn)
        witness = begin()
        assert witness.said()["1"] != "exposed"
        assert witness.asked(protocol.TAKE, taken([second])) == bytes([1])
        witness.killed()
        assert {first, second} < set(texts_in(tmp_path / "kept"))
        again = begin()
        assert again.said()["1"] == "exposed"
        again.killed()


def test_what_is_no_evidence_is_dropped_and_the_rest_is_taken(begin, tmp_path):
    acks = two_histories()
    witness = begin()
    assert witness.asked(protocol.TAKE, taken([acks[0], b"", acks[1][:-1], acks[1]])) == bytes([1, 0, 0, 1])
    assert json.loads(witness.asked(protocol.REPORT))["refused"] == 2 and has(witness, acks) and set(acks) < set(texts_in(tmp_path / "kept"))
    with pytest.raises(JournalInUse):
        KeptStore(tmp_path / "kept", Program.MAILBOX, LISTED)


def test_a_killed_relay_is_the_node_that_it_was(begin_relay, tmp_path):
    with Node(LISTED, 2, KEYS[2], Program.MAILBOX) as two:
        for _ in range(3):
            two.timer(FETCH)
        messages = [two.message(seq) for seq in two.waiting()]
    answers = []
    for message in messages:
        relay = begin_relay(may_begin=not answers)
        answers.append(relay.asked(protocol.ANSWER, message))
        assert answers[-1][0] == protocol.ACK
        for before, answer in zip(messages, answers):
            assert relay.asked(protocol.ANSWER, before) == answer
        assert relay.asked(protocol.ANSWER, audit_challenge(statement_of(answers[0], 1)))[0] == protocol.SEGMENT
        relay.killed()
    relay = afterwards.Relay(1, LISTED, [KEYS[1]], [str(tmp_path / "relay")], str(tmp_path / "handed_on"))
    assert len(relay.received()) == 3 and afterwards.broken([relay], [*answers, *messages]) == ([], 3)


# ---- what is looked at afterwards


def test_a_leaf_that_signed_two_texts_is_found():
    first, second = two_histories()
    assert statement_of(first, 1)[49:53] == statement_of(second, 1)[49:53]
    for items in ([first], [second], [first, first]):
        assert leaves.signed_twice(it for item in items for it in statements_of(item)) == []
    assert leaves.signed_twice(it for item in (first, second) for it in statements_of(item)) == [(1, 0, 0)]
    assert leaves.signed_twice(leaves.statements_in_store([first, second], LISTED, Program.MAILBOX)) == [(1, 0, 0)]


def test_a_leaf_is_found_by_what_a_segment_quotes_and_by_no_false_quote():
    """Node 2 sends two messages by one leaf: the one stands in a segment of node 1 alone, the other in an item."""
    with Node(LISTED, 2, KEYS[2], Program.MAILBOX) as two, Node(LISTED, 2, KEYS[2], Program.MAILBOX, first_seq=9) as twin:
        two.timer(FETCH), twin.timer(FETCH)
        sent, other = [it.message(it.waiting()[0]) for it in (two, twin)]
    with Node(LISTED, 1, KEYS[1], Program.MAILBOX) as one:
        segment = one.answer(audit_challenge(statement_of(one.answer(sent), 1)))
    assert [*leaves.quotes_in(segment)] == [sent]
    assert leaves.signed_twice(leaves.statements_in_store([segment, other], LISTED, Program.MAILBOX)) == [(2, 0, 0)]
    signature = sent[53 : 53 + int.from_bytes(sent[49:53], "big")]
    turned = signature[:60] + bytes([signature[60] ^ 1]) + signature[61:]
    assert leaves.signed_twice(leaves.statements_in_store([segment.replace(signature, turned), other], LISTED, Program.MAILBOX)) == []


def test_a_key_of_a_node_has_leaves_of_its_own():
    statement = b"\1" + bytes(44) + (13 + 32).to_bytes(4, "big") + b"\3" + (7).to_bytes(4, "big") + bytes(40)
    assert leaves.leaf_of(statement)[0] == (0, 3, 7)
    statement = b"\1" + bytes(44) + (12 + 32).to_bytes(4, "big") + (7).to_bytes(4, "big") + bytes(40)
    assert leaves.leaf_of(statement)[0] == (0, 0, 7)


def test_what_was_acknowledged_and_is_missing_is_reported(tmp_path):
    import hashlib

    one, two = tmp_path / "one", tmp_path / "two"
    begun = [KeptNode(path, Program.MAILBOX, LISTED, me, [KEYS[me]], may_begin=True) for path, me in ((two, 2), (one, 1))]
    with begun[0] as sender, begun[1] as keeper:
        sender.timer(FETCH)
        message = sender.message(sender.waiting()[0])
        ack = keeper.answer(message)
        sender.accept_ack(ack)
        with Node(LISTED, 1, KEYS[1], Program.MAILBOX) as twin:
            twin.checkpoint()
            lost = twin.answer(message)
    (tmp_path / "told").write_bytes(hashlib.sha256(ack).digest())

    def relays(of_one):
        path = tmp_path / "none"
        path.write_bytes(b"")
        files = (1, of_one, path), (2, two, tmp_path / "told")
        return [afterwards.Relay(me, LISTED, [KEYS[me]], [str(journal)], str(handed_on)) for me, journal, handed_on in files]

    whole = [ack]
    assert [*afterwards.missing(relays(one), whole)] == [] and afterwards.broken(relays(one), whole) == ([], 2)
    (wrong,) = afterwards.missing(relays(one), [message])
    assert "items that witnesses acknowledged to relay 2" in wrong
    empty = tmp_path / "empty"
    with KeptNode(empty, Program.MAILBOX, LISTED, 1, [KEYS[1]], may_begin=True):
        pass
    assert "messages of relay 2" in [*afterwards.missing(relays(empty), whole)][0]
    assert afterwards.broken(relays(empty), whole)[0] == ["the journal of relay 1 does not have all that the relay signed"]
    wrong, _ = afterwards.broken(relays(one), [ack, lost])
    assert sorted(wrong) == ["leaf 0 of key 0 of relay 1 signed two texts", "the journal of relay 1 does not have all that the relay signed"]
