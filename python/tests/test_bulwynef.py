"""Tests of the package: two nodes, a witness, a liar, and what is refused. Values come from the formats, and from second_opinion/."""

import copy
import hashlib
import os
import pickle
import subprocess
import sys

import pytest
from scene import KEYS, LISTED, TOP, exchanged, first_message

from bulwynef import Indication, Key, Node, Program, Refusal, Store, audit_challenge, check_proof, directory, explain_proof, statements_of

SECOND = os.path.join(TOP, "second_opinion", "check.py")


@pytest.fixture(scope="module")
def listed():
    return LISTED


def second_opinion(*words_and_texts):
    words = ["--program", "tally", *(it for it in words_and_texts if isinstance(it, str))]
    lines = "".join(it.hex() + "\n" for it in words_and_texts if isinstance(it, bytes))
    return subprocess.run([sys.executable, SECOND, *words, "-"], input=lines, capture_output=True, text=True).stdout


def test_public_key_is_the_rfc_s(listed):
    key = KEYS[1].public()
    assert key[:8] == bytes.fromhex("0000000500000004") and key[8:24] == KEYS[1].key_id and len(key) == 56


def test_a_message_is_challenged_acknowledged_and_told_twice(listed):
    message, ack, lie = exchanged()
    with Store(listed, Program.TALLY) as store:
        assert store.take(message) and not store.take(message)
        assert store.indication(2) is Indication.SUSPECTED and store.proof(2) is None
        assert store.challenges(2) == [message] and store.challenges(1) == []
        assert store.take(ack) and store.challenges(2) == []
        assert store.indication(2) is Indication.TRUSTED
        assert store.take(lie)
        assert store.indication(2) is Indication.EXPOSED
        assert second_opinion("--store", listed, store.export()) == "1 trusted\n2 exposed\n"
        proof = store.proof(2)
        assert check_proof(listed, proof, Program.TALLY) == 2
        assert second_opinion(listed, proof).splitlines()[0] == "exposes 2"


def basis_of(program, listed):
    """The lines that say of which program and directory the rest is."""
    return f"program {program}\ndirectory {hashlib.sha256(listed).hexdigest()}\n"


def report_in(text):
    """The lines of nodes: those behind the basis and the line for the whole that begin with no blank."""
    basis = basis_of("tally", LISTED)
    assert text.startswith(basis)
    return "".join(f"{line}\n" for line in text[len(basis) :].splitlines()[1:] if not line.startswith(" "))


def test_what_is_said_is_explained(listed):
    message, ack, lie = exchanged()
    with Store(listed, Program.TALLY) as store:
        store.take(message)
        assert report_in(store.explain()) == second_opinion("--store", listed, store.export()) == "1 trusted\n2 suspected\n"
        store.take(ack), store.take(lie)
        assert report_in(store.explain()) == second_opinion("--store", listed, store.export()) == "1 trusted\n2 exposed\n"
        proof = store.proof(2)
        assert report_in(explain_proof(listed, proof, Program.TALLY)) == "2 exposed\n"
        assert "  Node 2 signed two hashes for entry 2 of its log.\n" in explain_proof(listed, proof, Program.TALLY)
    for bad, number in ((proof[:-1], 40), (proof + b"0", 43)):
        with pytest.raises(Refusal) as refused:
            explain_proof(listed, bad, Program.TALLY)
        assert refused.value.number == number


def test_stores_exchange_what_they_have(listed):
    message, ack, lie = exchanged()
    with Store(listed, Program.TALLY) as left, Store(listed, Program.TALLY) as right:
        left.take(message), left.take(ack), right.take(lie)
        assert left.apply(right.pack(left.summary(right.outline()))) == 1
        assert left.includes(right) and not right.includes(left)
        assert right.apply(left.pack(right.summary())) == 2
        assert left.export() == right.export()
        with Store(listed, Program.TALLY) as third:
            assert third.load(left.export()) == 3 and third.merge(right) == 0
            assert third.export() == left.export()


def test_a_segment_answers_an_audit(listed):
    with Node(listed, 1, KEYS[1], Program.TALLY) as one, Node(listed, 2, KEYS[2], Program.TALLY) as two, Store(listed, Program.TALLY) as store:
        one.timer(5)
        message = first_message(one)
        audit = audit_challenge(statements_of(message)[0])
        assert store.take(audit) and store.indication(1) is Indication.SUSPECTED and store.challenges(1) == [audit]
        segment = one.answer(audit)
        assert segment[0] == 2 and store.take(segment) and store.indication(1) is Indication.TRUSTED
        for node, challenge, number in ((one, two.answer(message), 72), (two, audit, 70)):
            with pytest.raises(Refusal) as refused:
                node.answer(challenge)
            assert refused.value.number == number


def test_a_program_is_named(listed):
    unnamed = (Store, lambda listed: Node(listed, 1, KEYS[1]), lambda listed: check_proof(listed, b"\3"), lambda listed: explain_proof(listed, b"\3"))
    for call in unnamed:
        with pytest.raises(TypeError):
            call(listed)
    for program in Program:
        with Store(listed, program) as store:
            assert store.explain().startswith(basis_of(program.name.lower(), listed))


def test_the_numbers_of_indications_are_none_of_nothing():
    assert [it.value for it in Indication] == [1, 2, 3] and [it.name for it in Indication] == ["TRUSTED", "SUSPECTED", "EXPOSED"]


def entries_of(log):
    """The number, the kind and the content of each entry, by the bytes that docs/FORMATS.md gives."""
    while log:
        end = 13 + int.from_bytes(log[9:13], "big")
        yield int.from_bytes(log[:8], "big"), log[8], log[13:end]
        log = log[end:]


def test_a_node_shows_its_log(listed):
    with Node(listed, 1, KEYS[1], Program.TALLY, first_seq=7) as one:
        one.timer(5)
        one.checkpoint()
        ticked, total = (5).to_bytes(8, "big"), bytes(8)
        sent = b"\0\0\0\2A" + ticked
        assert list(entries_of(one.history())) == [(7, 1, b"\0\0\0\1"), (8, 4, ticked), (9, 2, sent), (10, 5, total)]
        assert one.history() == one.history()


def test_a_node_goes_over_to_its_next_key():
    keys = [Key(bytes(15) + bytes([n]), bytes(31) + bytes([n])) for n in (8, 9)]
    text = directory({1: [key.public() for key in keys], 2: [KEYS[2].public()]})
    with Node(text, 1, keys[0], Program.TALLY) as one, Store(text, Program.TALLY) as store:
        assert one.remaining() == 32
        one.timer(1)
        assert one.remaining() == 31 and one.checkpoint() == 4
        one.next_key(keys[1])
        one.timer(2)
        assert one.remaining() == 31
        assert all(store.take(one.message(seq)) for seq in one.waiting())
        with pytest.raises(Refusal) as refused:
            one.next_key(keys[0])
        assert refused.value.number == 31


def test_refusals_have_number_name_and_sentence(listed):
    with pytest.raises(Refusal) as refused:
        Store(listed[:-1], Program.TALLY)
    assert (refused.value.number, refused.value.name) == (24, "Truncated") and refused.value.sentence.endswith(".")
    with pytest.raises(Refusal) as refused:
        Node(listed, 3, KEYS[1], Program.TALLY)
    assert refused.value.number == 30
    with pytest.raises(Refusal) as refused:
        Node(listed, 2, KEYS[1], Program.TALLY)
    assert refused.value.number == 31


def test_handles_are_closed_once_and_not_copied(listed):
    store = Store(listed, Program.TALLY)
    assert store.merge(store) == 0 and store.includes(store)
    store.close()
    store.close()
    for call in (lambda: store.indication(1), lambda: store.merge(store), lambda: store.includes(store)):
        with pytest.raises(Refusal) as refused:
            call()
        assert refused.value.number == 110
    with pytest.raises(TypeError):
        copy.copy(store)
    with pytest.raises(TypeError):
        pickle.dumps(store)


def test_two_directories_and_two_programs(listed):
    other = directory({1: [KEYS[1].public()]})
    with Store(listed, Program.TALLY) as store, Store(other, Program.TALLY) as lesser, Store(listed, Program.MAILBOX) as mails:
        for beside, number in ((lesser, 112), (mails, 111)):
            with pytest.raises(Refusal) as refused:
                store.merge(beside)
            assert refused.value.number == number
        assert store.merge(store) == 0 and store.includes(store)
