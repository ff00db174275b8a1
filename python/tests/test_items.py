"""Tests of the items that a witness makes of others. Expected bytes are laid out by docs/FORMATS.md, over hashlib."""

import hashlib

import pytest
from scene import KEYS, LISTED, exchanged, first_message, node_of

from bulwynef import Indication, Program, Refusal, Store, audit_challenge, check_proof, directory, send_challenge, statement_of, statements_of

SEND, RECV = 2, 3


def with_length(data):
    return len(data).to_bytes(4, "big") + data


def field(item, at):
    end = at + 4 + int.from_bytes(item[at : at + 4], "big")
    return item[at + 4 : end], end


def statement(node, seq, before, kind, content, sig):
    """The item of tag 1 on an entry."""
    digest = hashlib.sha256(before + seq + bytes([kind]) + hashlib.sha256(content).digest()).digest()
    return b"\1" + node + seq + digest + with_length(sig)


def sent(item):
    """The statement of the sender of a message."""
    sig, at = field(item, 49)
    return statement(item[1:5], item[9:17], item[17:49], SEND, item[5:9] + field(item, at)[0], sig)


def received(item):
    """The statement of the receiver of an acknowledgement."""
    sig, at = field(item, 49)
    payload, at = field(item, at)
    content = item[1:5] + item[9:17] + item[17:49] + with_length(sig) + payload
    return statement(item[5:9], item[at : at + 8], item[at + 8 : at + 40], RECV, content, field(item, at + 40)[0])


def audit(last, first=None):
    """The demand for the log of a statement's node, by the bytes of docs/FORMATS.md."""
    return b"\3" + last[1:5] + (b"\0" if first is None else b"\1" + first[5:]) + last[5:]


def refusal_of(call, *words):
    with pytest.raises(Refusal) as refused:
        call(*words)
    return refused.value.number


def segment_of(node, challenge):
    answer = node.answer(challenge)
    assert answer[0] == 2
    return answer


def test_each_item_has_its_statements():
    with node_of(1) as one, node_of(2) as two:
        one.timer(5), one.timer(6)
        messages = [one.message(seq) for seq in one.waiting()]
        ack = two.answer(messages[0])
        first, last = map(sent, messages)
        assert [statements_of(message) for message in messages] == [[first], [last]]
        assert statements_of(ack) == [first, received(ack)] == [statement_of(ack), statement_of(ack, 1)]
        assert statements_of(first) == [first] and statements_of(audit(last)) == [last]
        assert statements_of(audit(last, first)) == [first, last]
        segment = segment_of(one, audit(last))
        assert statements_of(segment) == [last]
        with Store(LISTED, Program.TALLY) as store:
            assert all(store.take(item) for item in (first, last, received(ack), segment))
    for number, item in ((40, b""), (40, ack[:-1]), (41, b"\6" + ack[1:]), (43, ack + b"0")):
        assert refusal_of(statements_of, item) == refusal_of(statement_of, item) == number
    assert refusal_of(statement_of, ack, 2) == refusal_of(statement_of, first, 1) == 116


def test_challenges_are_those_of_the_formats():
    message, ack, lie = exchanged()
    with node_of(1) as one:
        one.timer(5), one.timer(6)
        first, last = (statements_of(one.message(seq))[0] for seq in one.waiting())
    assert audit_challenge(last) == audit_challenge(last, b"") == audit(last)
    assert audit_challenge(last, first) == audit(last, first)
    assert send_challenge(message) == send_challenge(ack) == message
    other = statements_of(ack)[1]
    for number, words in ((48, (first, last)), (48, (last, last)), (48, (last, other)), (41, (message,)), (41, (last, message))):
        assert refusal_of(audit_challenge, *words) == number
    for number, words in ((40, (b"",)), (40, (last[:-1], first)), (43, (last, first + b"0")), (40, (last[:-1], first[:-1]))):
        assert refusal_of(audit_challenge, *words) == number
    for number, item in ((41, last), (41, audit(last)), (40, b""), (40, message[:-1]), (43, ack + b"0")):
        assert refusal_of(send_challenge, item) == number


def test_who_forks_at_two_numbers_is_exposed_by_an_audit():
    """Two logs of node 2 by one key, of which nothing is signed under one number in both: only the log itself shows it."""
    with node_of(1) as one, node_of(2) as two, node_of(2, first_seq=2) as liar:
        one.timer(5), one.timer(6)
        first, second = (one.message(seq) for seq in one.waiting())
        two.answer(first)
        said = [statements_of(node.answer(message))[1] for node, message in ((two, second), (liar, first))]
        with Store(LISTED, Program.TALLY) as store:
            assert all(store.take(each) for each in said)
            assert store.indication(2) is Indication.TRUSTED
            demand = audit_challenge(said[0])
            assert store.take(demand) and store.indication(2) is Indication.SUSPECTED and store.challenges(2) == [demand]
            assert store.take(segment_of(two, demand)) and store.indication(2) is Indication.EXPOSED
            assert check_proof(LISTED, store.proof(2), Program.TALLY) == 2


def test_an_acknowledgement_is_accepted_where_a_store_takes_it():
    """One bit of an acknowledgement is turned, in each field and every few bytes: nothing is accepted, and the message waits."""
    with node_of(1) as one, node_of(2) as two, Store(LISTED, Program.TALLY) as store:
        one.timer(5)
        ack = two.answer(first_message(one))
        waiting = one.waiting()
        for place in [*range(1, 70), *range(70, len(ack), 37), *range(len(ack) - 1300, len(ack) - 1290)]:
            spoiled = ack[:place] + bytes([ack[place] ^ 1]) + ack[place + 1 :]
            assert refusal_of(one.accept_ack, spoiled) in (38, 40, 41, 42, 43), place
            assert refusal_of(store.take, spoiled) in (40, 41, 42, 43, 44, 45, 49), place
            assert one.waiting() == waiting
        one.accept_ack(ack)
        assert one.waiting() == [] and store.take(ack)


def test_an_acknowledgement_of_another_message_is_refused():
    """A second node 1 by the same key sends something else under the same number; its acknowledgement is valid, and not of what was sent."""
    with node_of(1) as one, node_of(1) as other, node_of(2) as two:
        one.timer(5), other.timer(6)
        assert one.waiting() == other.waiting()
        ack = two.answer(first_message(other))
        assert refusal_of(one.accept_ack, ack) == 38 and one.waiting() == other.waiting()
        other.accept_ack(ack)
        assert other.waiting() == []


def test_a_directory_of_other_keys_takes_nothing_of_these():
    strange = directory({1: [KEYS[2].public()], 2: [KEYS[1].public()]})
    message, ack, lie = exchanged()
    with Store(strange, Program.TALLY) as store:
        for item in (message, ack, *statements_of(ack)):
            assert refusal_of(store.take, item) == 49
