"""Tests of nodes with journals: a rebuilt node is the node that it was, whatever failed or was killed when."""

import os
import random
import signal
import threading

import pytest
from disks import Disk, Failing
from scene import LISTED, in_a_child

from bulwynef import Journal, JournalInUse, KeptNode, Key, Node, Program, Refusal, Store, audit_challenge, directory, journals
from bulwynef import kept as module
from bulwynef import library, statement_of, statements_of, texts_in

SECONDS = 60
MINE = [Key(bytes(15) + bytes([n]), bytes(31) + bytes([n]), 5, 3) for n in (1, 7)]
OTHER = Key(bytes(15) + b"\2", bytes(31) + b"\2", 5, 3)
BOTH = directory({1: [key.public() for key in MINE], 2: [OTHER.public()]})


@pytest.fixture
def path(tmp_path):
    return tmp_path / "node"


def entropy(number):
    return number.to_bytes(32, "big")


def plain(first_seq=1):
    return Node(BOTH, 1, MINE[0], Program.TALLY, first_seq)


def other_node():
    return Node(BOTH, 2, OTHER, Program.TALLY)


def opened(path, may_begin=False, **words):
    return KeptNode(path, Program.TALLY, BOTH, 1, MINE, may_begin=may_begin, **words)


def begun(path, **words):
    return opened(path, may_begin=True, **words)


def refusal_of(call, *words):
    with pytest.raises(Refusal) as refused:
        call(*words)
    return refused.value.number


def waiting_of(node):
    return [node.message(seq) for seq in node.waiting()]


def said(node):
    """What a node says that changes nothing of it."""
    return node.history(), node.remaining(), waiting_of(node)


def rebuilt(path, copy):
    """What the node of a copy of the journal says."""
    copy.write_bytes(path.read_bytes())
    with opened(copy) as again:
        return said(again)


def messages_to_one(count, first_seq=1):
    """Messages of a relay to node 1, which is the next one of node 0."""
    sender = Key(bytes(15) + b"\3", bytes(31) + b"\3", 6, 3)
    listed = directory({0: [sender.public()], 1: [key.public() for key in MINE], 2: [OTHER.public()]})
    with Node(listed, 0, sender, Program.TALLY, first_seq) as node:
        for moment in range(count):
            node.timer(moment)
        return listed, waiting_of(node)


TO_ONE, MESSAGES = messages_to_one(8)


def to_one(path, may_begin=False):
    return KeptNode(path, Program.TALLY, TO_ONE, 1, MINE, may_begin=may_begin)


def of_one():
    return Node(TO_ONE, 1, MINE[0], Program.TALLY)


# ---- what is recorded


def test_a_kept_node_does_what_a_node_does_and_comes_back_at_each_record(path, tmp_path):
    """Each call has the same answer as that of a node without a journal; after each the journal is that of just that node."""
    copy = tmp_path / "copy"
    with Node(TO_ONE, 2, OTHER, Program.TALLY) as two, of_one() as node:
        steps = [lambda it, n: it.timer(5, entropy(n)), lambda it, n: it.answer(MESSAGES[0], entropy(n)), lambda it, n: it.checkpoint()]
        steps += [lambda it, n: it.accept_ack(two.answer(it.message(it.waiting()[0]), entropy(0))), lambda it, n: it.next_key(MINE[1])]
        steps += [lambda it, n: it.timer(2**64 - 1, entropy(n)), lambda it, n: it.answer(MESSAGES[3], entropy(n)), lambda it, n: it.checkpoint()]
        with to_one(path, True) as kept:
            assert said(kept) == said(node) and len(texts_in(path)) == 1
            for number, step in enumerate(steps):
                assert step(kept, number) == step(node, number)
                assert said(kept) == said(node) and len(texts_in(path)) == number + 2
                copy.write_bytes(path.read_bytes())
                with to_one(copy) as again, of_one() as once_more:
                    assert said(again) == said(node)
                    # it goes on as the other one would
                    for count, before in enumerate(steps[: number + 1]):
                        before(once_more, count)
                    again.timer(9, entropy(99)), once_more.timer(9, entropy(99))
                    assert again.answer(MESSAGES[7], entropy(98)) == once_more.answer(MESSAGES[7], entropy(98)) and said(again) == said(once_more)
        for _ in range(3):
            before = path.read_bytes()
            with to_one(path) as again:
                assert said(again) == said(node) and path.read_bytes() == before


def test_the_texts_are_those_of_the_formats(path):
    with begun(path, first_seq=7) as kept:
        kept.timer(5, b"\x0b" * 32)
        kept.checkpoint()
    first, *records = texts_in(path)
    import hashlib

    name = b"\0\0\0\5tally"
    assert first == b"PRNODEJ1" + bytes([0, 0, 0, 1]) + (7).to_bytes(8, "big") + hashlib.sha256(BOTH).digest() + MINE[0].public() + name
    assert records == [b"\2" + b"\x0b" * 32 + (5).to_bytes(8, "big"), b"\3"]
    assert all(key.seed not in path.read_bytes() for key in MINE)


def test_entropy_is_the_system_s(path, tmp_path):
    for at in (path, tmp_path / "other"):
        with to_one(at, True) as kept:
            kept.timer(1)
            kept.answer(MESSAGES[0])
    (_, tick, receipt), (_, other_tick, other_receipt) = texts_in(path), texts_in(tmp_path / "other")
    assert tick[:1] + tick[33:] == other_tick[:1] + other_tick[33:] and receipt[33:] == other_receipt[33:]
    assert len({tick[1:33], receipt[1:33], other_tick[1:33], other_receipt[1:33]}) == 4


def test_what_changes_nothing_is_not_recorded(path):
    with to_one(path, True) as kept:
        ack = kept.answer(MESSAGES[0])
        before = path.read_bytes(), said(kept)
        assert kept.answer(MESSAGES[0]) == ack
        segment = kept.answer(audit_challenge(statement_of(ack, 1)))
        assert segment[0] == 2 and (path.read_bytes(), said(kept)) == before
        kept.timer(1)
        message = waiting_of(kept)[-1]
        with Node(TO_ONE, 2, OTHER, Program.TALLY) as two:
            theirs = two.answer(message)
        kept.accept_ack(theirs)
        before = path.read_bytes(), said(kept)
        kept.accept_ack(theirs)
        assert (path.read_bytes(), said(kept)) == before
    with to_one(path) as again:
        assert again.answer(MESSAGES[0]) == ack and again.answer(audit_challenge(statement_of(ack, 1))) == segment
        assert (path.read_bytes(), said(again)) == before


def test_strangers_write_nothing_into_the_journal(path):
    with to_one(path, True) as kept, of_one() as node:
        kept.timer(1, entropy(1)), node.timer(1, entropy(1))
        with Node(TO_ONE, 2, OTHER, Program.TALLY) as two:
            ack = two.answer(waiting_of(kept)[0])
        message, before = MESSAGES[0], (path.read_bytes(), said(kept))
        turned = message[:100] + bytes([message[100] ^ 1]) + message[101:]
        mine = waiting_of(kept)[0]
        others = mine, ack, statement_of(message), statement_of(ack, 1), audit_challenge(statement_of(message))
        for item in (b"", b"\7", message[:-1], message + b"0", turned, *others):
            assert refusal_of(kept.answer, item) == refusal_of(node.answer, item)
        for item in (b"", b"\7", ack[:-1], message, ack[:100] + bytes([ack[100] ^ 1]) + ack[101:], ack[:-1] + bytes([ack[-1] ^ 1])):
            assert refusal_of(kept.accept_ack, item) == refusal_of(node.accept_ack, item)
        for words in ((1, b"short"), (2**64, entropy(1)), (-1, entropy(1))):
            with pytest.raises((Refusal, ValueError)):
                kept.timer(*words)
        assert refusal_of(kept.answer, message, b"short") == 117
        assert refusal_of(kept.next_key, OTHER) == 128
        assert (path.read_bytes(), said(kept)) == before


def test_a_call_that_the_node_refuses_is_refused_again_by_the_rebuilt_one(path, tmp_path):
    with begun(path) as kept:
        for moment in range(32):
            kept.timer(moment)
        assert kept.remaining() == 0 and refusal_of(kept.timer, 1) == 36 and refusal_of(kept.next_key, MINE[0]) == 31
        assert len(texts_in(path)) == 35
        kept.next_key(MINE[1])
        kept.timer(40)
        now = said(kept)
        assert rebuilt(path, tmp_path / "copy") == now


def test_ticks_of_a_group_have_one_pair_of_syncs(path, tmp_path, monkeypatch):
    class Counting(Disk):
        calls = []

        def does(self, name, call, *words):
            self.calls.append(name)
            return call(*words)

    with begun(path) as kept:
        monkeypatch.setattr(journals, "os", Counting())
        assert kept.timer_all([]) == [] and kept.timer_all(range(30)) == [None] * 30 and Counting.calls == ["pwrite", "fsync"] * 2
        told = kept.timer_all(range(30, 34))
        assert told[:2] == [None, None] and [refusal.number for refusal in told[2:]] == [36, 36]
        monkeypatch.undo()
        assert len(kept.waiting()) == 32 and len(texts_in(path)) == 35 and len({text[1:33] for text in texts_in(path)}) == 35
        assert rebuilt(path, tmp_path / "copy") == said(kept)
        for moments in ([1, 2**64], [1, -1], [1, "2"]):
            with pytest.raises((ValueError, TypeError)):
                kept.timer_all(moments)
        assert len(texts_in(path)) == 35 and kept.closed_by == 0
    assert kept.closed_by == 110


# ---- journals that are refused


def test_a_node_begins_once(path):
    assert refusal_of(opened, path) == 126 and path.read_bytes() == b""
    path.unlink()
    with begun(path) as kept:
        kept.timer(1)
        now = said(kept)
    for start in (opened, begun):
        with start(path) as again:
            assert said(again) == now
    path.unlink()
    assert refusal_of(opened, path) == 126


def test_a_journal_of_something_else_is_refused_and_not_changed(path):
    with begun(path) as kept:
        kept.timer(1)
        kept.next_key(MINE[1])
    torn = path.read_bytes() + b"torn"
    path.write_bytes(torn)
    words = {"path": path, "program": Program.TALLY, "directory": BOTH, "node": 1, "keys": MINE}
    cases = [({"program": Program.RELAY}, 123), ({"program": 9}, 113), ({"directory": LISTED}, 124), ({"directory": b""}, 24)]
    of_another_seed = [Key(MINE[0].key_id, bytes(32)), MINE[1]]
    cases += [({"keys": keys}, 128) for keys in (MINE[1:], MINE[:1], [OTHER], of_another_seed)]
    for other, number in cases:
        assert refusal_of(lambda: KeptNode(**{**words, **other})) == number
    for other in ({"node": 2}, {"node": 2**32}, {"keys": []}, {"keys": [MINE[0], MINE[0]]}):
        with pytest.raises(ValueError):
            KeptNode(**{**words, **other})
    assert path.read_bytes() == torn
    with KeptNode(**{**words, "keys": MINE[::-1]}) as again:
        assert again.remaining() == 32


def test_what_a_new_node_may_not_begin_by(path):
    words = {"path": path, "program": Program.TALLY, "directory": BOTH, "node": 1, "keys": MINE, "may_begin": True}
    high = Key(bytes(16), bytes(32), 9, 4)
    for other, number in (({"node": 3}, 30), ({"keys": [OTHER]}, 31), ({"program": 9}, 113), ({"directory": b"PRDIREC2"}, 24), ({"keys": [high]}, 4)):
        assert refusal_of(lambda: KeptNode(**{**words, **other})) == number
        assert path.read_bytes() == b""
    with KeptNode(**words) as kept:
        kept.timer(1)


def test_texts_that_are_no_records_are_refused(tmp_path, path):
    with begun(path) as kept:
        kept.timer(1)
    first, tick = texts_in(path)
    strange = {"first": ([tick], 127), "store": ([b"PRKEPT01tally"], 127), "record": ([first, tick, b"\6"], 129), "twice": ([first, first], 129)}
    for name, (texts, number) in strange.items():
        at = tmp_path / name
        with Journal(at) as journal:
            journal.append(texts)
        left = at.read_bytes() + b"torn"
        at.write_bytes(left)
        assert refusal_of(opened, at) == number and at.read_bytes() == left
    damaged = bytearray(path.read_bytes())
    damaged[3] ^= 4
    path.write_bytes(damaged)
    assert refusal_of(opened, path) == 122 and path.read_bytes() == damaged


# ---- disks that fail


def test_each_write_and_sync_that_fails(path, tmp_path, monkeypatch):
    """After 120 the node goes on; after 121 it is closed. Either way the journal is that of the node before or after the call."""
    calls = [lambda it: it.timer(5, entropy(1)), lambda it: it.answer(MESSAGES[0], entropy(1)), lambda it: it.checkpoint()]
    calls.append(lambda it: it.next_key(MINE[1]))
    for place, call in enumerate(calls):
        for after, number in enumerate([120, 121, 121, 121]):
            at = tmp_path / f"node{place}{after}"
            kept = to_one(at, True)
            kept.timer(1, entropy(0))
            before = said(kept)
            with of_one() as node:
                node.timer(1, entropy(0))
                call(node)
                behind = said(node)
            monkeypatch.setattr(journals, "os", Failing(after))
            assert refusal_of(call, kept) == number
            monkeypatch.undo()
            if number == 120:
                assert said(kept) == before
                call(kept)
                assert said(kept) == behind
            else:
                for again in (call, said, lambda it: it.answer(MESSAGES[0]), lambda it: it.accept_ack(b""), lambda it: it.is_safe_to_resume([])):
                    assert refusal_of(again, kept) in (121, 40)
            kept.close()
            with to_one(at) as again:
                assert said(again) in ((behind,) if number == 120 else (before, behind))
                again.timer(2)


def test_a_beginning_that_is_not_written_is_no_node(path, monkeypatch):
    for after in range(8):
        monkeypatch.setattr(journals, "os", Failing(after))
        with pytest.raises((Refusal, OSError)):
            begun(path)
        monkeypatch.undo()
        if not texts_in(path):
            assert refusal_of(opened, path) == 126
        with begun(path) as kept:
            assert kept.remaining() == 32
        path.unlink()


def test_a_call_that_is_not_done_behind_its_record_closes_the_node(path, tmp_path, monkeypatch):
    """Want of memory, and an interrupt at whatever call of the system or of the library."""

    def stops(error):
        def call(*_):
            raise error

        return call

    calls = {"timer": ("call", lambda it: it.timer(5, entropy(1))), "checkpoint": ("told", lambda it: it.checkpoint())}
    calls["next_key"] = "call", lambda it: it.next_key(MINE[1])
    calls["timer_all"] = "call", lambda it: it.timer_all([5]) if isinstance(it, KeptNode) else it.timer(5, entropy(1))
    monkeypatch.setattr(module.os, "urandom", lambda count: entropy(1)[:count])
    for name, (what, call) in calls.items():
        for error, number in ((Refusal(99), 130), (KeyboardInterrupt(), None), (MemoryError(), None)):
            at = tmp_path / f"{name}{type(error).__name__}"
            kept = to_one(at, True)
            monkeypatch.setattr(module, what, stops(error))
            if number:
                assert refusal_of(call, kept) == number
            else:
                with pytest.raises(type(error)):
                    call(kept)
            monkeypatch.setattr(module, what, getattr(library, what))
            assert refusal_of(call, kept) == refusal_of(said, kept) == kept.closed_by == 130
            with to_one(at) as again, of_one() as node:
                call(node)
                assert said(again) == said(node)


def test_an_interrupt_at_each_call_of_the_system_closes_the_node(tmp_path, monkeypatch):
    for after in range(4):
        at, calls = tmp_path / f"node{after}", []
        kept = to_one(at, True)
        before = said(kept)

        class Interrupted(Disk):
            def does(self, name, call, *words):
                calls.append(name)
                if len(calls) > after:
                    raise KeyboardInterrupt
                return call(*words)

        monkeypatch.setattr(journals, "os", Interrupted())
        with pytest.raises(KeyboardInterrupt):
            kept.answer(MESSAGES[0], entropy(1))
        monkeypatch.undo()
        assert refusal_of(said, kept) == refusal_of(kept.timer, 1) == 130
        with to_one(at) as again, of_one() as node:
            node.answer(MESSAGES[0], entropy(1))
            assert said(again) in (before, said(node))


def test_an_answer_is_given_once_the_record_is_synced(path, monkeypatch):
    """Of the system's calls and those of the library, the node's call is the last."""
    order = []

    class Noting(Disk):
        def does(self, name, call, *words):
            order.append(name)
            return call(*words)

    with to_one(path, True) as kept:
        monkeypatch.setattr(journals, "os", Noting())
        found = {name: getattr(library.LIBRARY, name) for name in ("bulwynef_node_answer", "bulwynef_node_timer")}
        for name, call in found.items():
            monkeypatch.setattr(library.LIBRARY, name, lambda *words, name=name, call=call: order.append(name) or call(*words))
        kept.answer(MESSAGES[0])
        kept.timer(1)
        assert order == [*["pwrite", "fsync"] * 2, "bulwynef_node_answer", *["pwrite", "fsync"] * 2, "bulwynef_node_timer"]


# ---- old copies


def test_an_old_copy_of_a_journal_is_seen_by_what_witnesses_hold(path, tmp_path):
    old = tmp_path / "old"
    with to_one(path, True) as kept:
        first = kept.answer(MESSAGES[0])
        old.write_bytes(path.read_bytes())
        second = kept.answer(MESSAGES[1])
        kept.timer(3)
        held = [first, second, *waiting_of(kept), *MESSAGES, kept.answer(audit_challenge(statement_of(second, 1)))]
        assert kept.is_safe_to_resume(held) and kept.is_safe_to_resume([]) and kept.is_safe_to_resume(iter(held))
        assert kept.is_safe_to_resume([it for item in held for it in statements_of(item)])
    with to_one(path) as again:
        assert again.is_safe_to_resume(held)
    with to_one(old) as again:
        assert again.is_safe_to_resume([first, *MESSAGES]) and again.is_safe_to_resume([])
        for item in (second, statement_of(second, 1), held[4], held[-1]):
            assert not again.is_safe_to_resume([item]) and not again.is_safe_to_resume([first, item])
        # what is not valid says nothing: anybody can write it
        lie = statement_of(second, 1)
        assert again.is_safe_to_resume([lie[:-1] + bytes([lie[-1] ^ 1]), lie[:5] + bytes(8) + lie[13:]])
        assert refusal_of(again.is_safe_to_resume, [second[:-1]]) == 40
        # and this is why it matters: the old copy signs another text by the same leaf
        third = again.answer(MESSAGES[2])
        assert statement_of(third, 1)[49:53] == statement_of(second, 1)[49:53] and statement_of(third, 1)[1:45] != statement_of(second, 1)[1:45]


# ---- one process at a time, and processes that are killed


def test_a_journal_is_one_node_s(path):
    with to_one(path, True) as kept:
        with pytest.raises(JournalInUse):
            to_one(path)

        def tries(into):
            refused = 0
            for call in (lambda: kept.timer(1), lambda: kept.answer(MESSAGES[0]), kept.checkpoint, kept.history, lambda: kept.next_key(MINE[1])):
                try:
                    call()
                except RuntimeError:
                    refused += 1
            kept.close()
            os.write(into, bytes([refused]))

        before = path.read_bytes()
        child, told = in_a_child(tries)
        with told:
            assert told.read() == b"\5"
        os.waitpid(child, 0)
        assert path.read_bytes() == before
        kept.timer(1)
    assert refusal_of(kept.timer, 1) == refusal_of(kept.history) == 110
    kept.close()


def test_threads_share_a_kept_node(path, tmp_path):
    with begun(path) as kept:
        threads = [threading.Thread(target=lambda: [kept.timer(1) for _ in range(4)]) for _ in range(6)]
        for thread in threads:
            thread.start()
        for thread in threads:
            thread.join(SECONDS)
            assert not thread.is_alive()
        assert kept.remaining() == 8 and rebuilt(path, tmp_path / "copy") == said(kept)


SENDER = Key(bytes(15) + b"\5", bytes(31) + b"\5", 6, 3)
# Keys of 32 leaves: a message that is answered takes two.
WORKERS = [Key(bytes(14) + bytes([n, 6]), bytes(30) + bytes([n, 6]), 5, 1) for n in range(3)]
WORK = directory({0: [SENDER.public()], 1: [key.public() for key in WORKERS]})


def worker(path):
    return KeptNode(path, Program.TALLY, WORK, 1, WORKERS, may_begin=True)


def work(path, messages, into):
    """Answers four messages at most, from the first that the journal does not have, and goes over to the next key if one is spent; tells each
    answer behind its length, and then that it is done."""
    with worker(path) as node:
        texts = texts_in(path)
        at, keys = sum(text[:1] == b"\1" for text in texts), sum(text[:1] == b"\5" for text in texts)
        os.write(into, b"open")
        for message in messages[at : at + 4]:
            if node.remaining() < 2:
                keys += 1
                node.next_key(WORKERS[keys])
            ack = node.answer(message)
            os.write(into, len(ack).to_bytes(4, "big") + ack)
        os.write(into, b"\xff" * 4)
        signal.pause()


def next_of(told):
    """The next answer that is told; none behind the last one, or where the child ended."""
    length = told.read(4)
    if len(length) < 4 or length == b"\xff" * 4:
        return None
    ack = told.read(int.from_bytes(length, "big"))
    return ack if len(ack) == int.from_bytes(length, "big") else None


def leaves(items):
    """The texts that were signed by each leaf of each key of node 1."""
    signed = {}
    for item in items:
        for it in statements_of(item):
            if it[1:5] == b"\0\0\0\1":
                signature = it[49:]
                key, signature = (signature[0], signature[1:]) if len(signature) % 32 == 13 else (0, signature)
                signed.setdefault((key, signature[:4]), set()).add(it[5:45])
    return signed


def test_a_node_that_is_killed_signs_each_leaf_once_and_keeps_what_it_answered(path):
    with Node(WORK, 0, SENDER, Program.TALLY) as sender:
        for moment in range(40):
            sender.timer(moment)
        messages = waiting_of(sender)
    chance, answered, times, there = random.Random(13), [], 0, []
    while len(there) < len(messages) and times < 100:
        times += 1
        child, told = in_a_child(lambda into: work(path, messages, into))
        with told:
            assert told.read(4) == b"open"
            answered += filter(None, (next_of(told) for _ in range(min(chance.randrange(4), len(messages) - len(there)))))
            threading.Event().wait(chance.random() * 0.005)
            os.kill(child, signal.SIGKILL)
            os.waitpid(child, 0)
            answered += iter(lambda: next_of(told), None)
        there = messages[: sum(text[:1] == b"\1" for text in texts_in(path))]
        if times == 5:
            # a second start behind a kill, and a torn end
            with worker(path):
                pass
            path.write_bytes(path.read_bytes() + b"torn")
    with worker(path) as node:
        assert len(there) >= len(answered) > 0
        everything = [node.answer(message) for message in there] + waiting_of(node)
        assert all(ack in everything for ack in answered)
        segment = node.answer(audit_challenge(statement_of(everything[len(there) - 1], 1)))
        signed = leaves([*answered, *everything, segment])
        assert times >= 10 and len(signed) >= 2 * len(answered) and all(len(texts) == 1 for texts in signed.values())
        with Store(WORK, Program.TALLY) as witness:
            for item in [*everything, segment]:
                witness.take(item)
            assert witness.indication(1).name == "TRUSTED"


def test_an_acknowledgement_of_another_message_of_its_number_is_not_recorded(path):
    with KeptNode(path, Program.TALLY, WORK, 0, [SENDER], may_begin=True) as node, Node(WORK, 0, SENDER, Program.TALLY) as other:
        node.timer(1)
        other.timer(2)
        [seq] = other.waiting()
        assert node.waiting() == [seq] and node.message(seq) != other.message(seq)
        with Node(WORK, 1, WORKERS[0], Program.TALLY) as receiver:
            ack = receiver.answer(other.message(seq))
        before = path.read_bytes()
        assert refusal_of(node.accept_ack, ack) == 38
        assert path.read_bytes() == before and node.waiting() == [seq]
        other.accept_ack(ack)
        assert other.waiting() == []


# ---- the library's own view of a journal


def test_the_library_reads_and_writes_journals_as_this_package_does(path, tmp_path):
    chance = random.Random(17)
    for text in (b"", b"\7", os.urandom(300), bytes(8_388_599)):
        assert library.text("journal_block", text, len(text)) == journals.block_of(text)
    assert refusal_of(library.text, "journal_block", bytes(8_388_600), 8_388_600) == 42
    whole = b"".join(map(journals.block_of, [b"one", b"", b"three"])) + b"\0"
    files = [whole[:length] for length in range(len(whole) + 1)] + [whole + chance.randbytes(n) for n in range(40)]
    for _ in range(300):
        changed = bytearray(whole + chance.randbytes(chance.randrange(3)))
        changed[chance.randrange(len(changed))] ^= 1 << chance.randrange(8)
        files.append(bytes(changed))
    files += [front + bytes(8_388_608 + more) for front in (b"\0", whole) for more in (0, 1)]
    for data in files:
        path.write_bytes(data)
        try:
            end = library.told(library.SIZE, "journal_end", data, len(data))
        except Refusal as refusal:
            assert refusal.number == 122 and refusal_of(texts_in, path) == 122
        else:
            assert journals.size_of(texts_in(path)) == end
