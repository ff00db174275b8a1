"""Tests of stores with journals: what is on the disk when, what is refused, disks that fail, and processes that are killed."""

import os
import random
import signal
import threading

import pytest
from disks import Disk, Dribbling, Failing
from scene import KEYS, LISTED, exchanged, in_a_child

from bulwynef import Journal, JournalInUse, KeptStore, Key, Node, Program, Refusal, Store, directory, journals, texts_in

BASIS = [b"PRKEPT01tally", LISTED]
SECONDS = 60
ASKS = {
    "indication": lambda store: store.indication(2),
    "proof": lambda store: store.proof(2),
    "challenges": lambda store: store.challenges(2),
    "explain": lambda store: store.explain(),
    "export": lambda store: store.export(),
    "outline": lambda store: store.outline(),
    "summary": lambda store: store.summary(),
    "pack": lambda store: store.pack(store_of([]).summary()),
    "includes": lambda store: store.includes(store_of([])),
}


@pytest.fixture
def path(tmp_path):
    return tmp_path / "store"


@pytest.fixture(scope="module")
def items():
    """A message and two acknowledgements that expose node 2, in an order that is not that of their bytes."""
    message, ack, lie = exchanged()
    assert not [message, ack, lie] == sorted([message, ack, lie]) or [ack, message, lie] != sorted([message, ack, lie])
    return [ack, message, lie]


def store_of(items):
    store = Store(LISTED, Program.TALLY)
    for item in items:
        store.take(item)
    return store


def opened(path, program=Program.TALLY, listed=LISTED):
    return KeptStore(path, program, listed)


def exported(path):
    with opened(path) as store:
        return store.export()


def refusal_of(call, *words):
    with pytest.raises(Refusal) as refused:
        call(*words)
    return refused.value.number


def said(store):
    return {name: ask(store) for name, ask in ASKS.items()}


# ---- what is kept


def test_a_kept_store_says_what_a_store_says(path, items):
    with opened(path) as kept, Store(LISTED, Program.TALLY) as store:
        assert said(kept) == said(store) and path.read_bytes() == b"\0"
        for count, item in enumerate(items, 1):
            assert kept.take(item) and store.take(item)
            assert texts_in(path) == [*BASIS, *items[:count]]
            assert not kept.take(item)
            assert said(kept) == said(store)
            assert kept.includes(store) and store.includes(kept) and store.merge(kept) == 0
    for _ in range(3):
        before = path.read_bytes()
        with opened(path) as again:
            assert said(again) == said(store_of(items)) and path.read_bytes() == before
            assert not any(again.take(item) for item in items)


def test_a_group_has_one_pair_of_syncs(path, items, monkeypatch):
    class Counting(Disk):
        calls = []

        def does(self, name, call, *words):
            self.calls.append(name)
            return call(*words)

    with opened(path) as kept:
        monkeypatch.setattr(journals, "os", Counting())
        bad = items[0][:-1]
        told = kept.take_all([items[0], bad, items[1], items[0]])
        assert [told[place] for place in (0, 2, 3)] == [True, True, False] and told[1].number == 40
        assert Counting.calls == ["pwrite", "fsync"] * 2
        assert kept.take_all(items) == [False, False, True] and len(Counting.calls) == 8
        assert kept.take_all([]) == [] and kept.take_all(items) == [False] * 3 and not kept.take(items[0]) and len(Counting.calls) == 8
    assert texts_in(path) == [*BASIS, *items]


def test_what_is_refused_changes_nothing(path, items):
    with opened(path) as kept:
        kept.take(items[0])
        before, left = said(kept), path.read_bytes()
        broken = items[1][:100] + bytes([items[1][100] ^ 1]) + items[1][101:]
        calls = [(kept.take, broken, 49), (kept.take, b"", 40), (kept.take, b"\7", 41)]
        calls += [(kept.load, b"PRSTORE2", 40), (kept.apply, b"PRPACK01" + bytes(7), 40)]
        for call, text, number in calls:
            assert refusal_of(call, text) == number
        assert [it.number for it in kept.take_all([broken, b"", b"\7"])] == [49, 40, 41]
        for call in (kept.take, kept.load, kept.apply, kept.take_all):
            with pytest.raises(TypeError):
                call(7)
        with Store(directory({1: [KEYS[1].public()]}), Program.TALLY) as lesser, Store(LISTED, Program.MAILBOX) as mails:
            assert refusal_of(kept.merge, lesser) == 112 and refusal_of(kept.merge, mails) == 111
        assert said(kept) == before and path.read_bytes() == left


def test_what_comes_from_other_stores_is_kept(path, items):
    other = store_of(items)
    calls = lambda it: it.load(other.export()), lambda it: it.apply(other.pack(it.summary())), lambda it: it.merge(other)
    for number, call in enumerate(calls):
        at = path.with_name(f"store{number}")
        with opened(at) as kept:
            kept.take(items[1])
            assert call(kept) == 2 and call(kept) == 0 and kept.merge(kept) == 0
            assert texts_in(at)[3:] == sorted([items[0], items[2]]) and kept.export() == other.export()
        assert exported(at) == other.export()


def test_a_kept_store_is_merged_into_a_kept_store(path, items):
    with opened(path) as left, opened(path.with_name("right")) as right:
        left.take(items[0]), right.take_all(items[1:])
        assert left.merge(right) == 2 and right.merge(left) == 1
    assert exported(path) == exported(path.with_name("right")) == store_of(items).export()


def test_an_older_text_of_a_directory_has_the_journal_of_its_encoding(path, items):
    older = b"PRDIRECT" + LISTED[8:12] + b"".join(LISTED[at : at + 4] + LISTED[at + 5 : at + 61] for at in (12, 73))
    with opened(path, listed=older) as kept:
        kept.take_all(items)
    assert texts_in(path)[:2] == BASIS and exported(path) == store_of(items).export()


# ---- journals that are refused


def test_a_journal_of_something_else_is_refused(path, items, tmp_path):
    with opened(path) as kept:
        kept.take_all(items)
    torn = path.read_bytes() + b"torn"
    path.write_bytes(torn)
    other = directory({1: [KEYS[1].public()]})
    assert refusal_of(opened, path, Program.RELAY) == 123 and refusal_of(opened, path, Program.TALLY, other) == 124
    assert refusal_of(opened, path, 9) == 113 and refusal_of(opened, path, Program.TALLY, b"PRDIREC2") == 24
    assert path.read_bytes() == torn
    strange = {"none": ([], None), "program": ([b"PRNODEJ1"], 123), "half": (BASIS[:1], 124), "basis": (BASIS, None)}
    strange["item"] = [*BASIS, items[0], b""], 125
    for name, (texts, number) in strange.items():
        at = tmp_path / name
        with Journal(at) as journal:
            journal.append(texts)
        left = at.read_bytes() + b"\xff"
        at.write_bytes(left)
        if number is None:
            assert exported(at) == store_of([]).export()
            with opened(at) as kept:
                kept.take_all(items)
            assert exported(at) == store_of(items).export()
        else:
            assert refusal_of(opened, at) == number and at.read_bytes() == left


def test_the_place_of_a_bad_item_is_reported(path, items):
    with Journal(path) as journal:
        journal.append([*BASIS, items[0], items[1][:-1], items[2]])
    with pytest.raises(Refusal) as refused:
        opened(path)
    assert (refused.value.number, refused.value.name, refused.value.place) == (125, "BadItem", 3) and "text 3" in str(refused.value)
    assert refused.value.__cause__.number == 40


def test_a_byte_that_was_changed_is_refused_and_nothing_is_cut(path, items):
    with opened(path) as kept:
        kept.take_all(items)
    whole, chance, gates, at = path.read_bytes(), random.Random(3), [], 0
    for text in texts_in(path):
        gates.append(at)
        at += 9 + len(text)
    for place in sorted(chance.sample(range(at), 100)) + [gate + step for gate in gates for step in range(1, 9)]:
        if place not in gates:
            damaged = bytearray(whole)
            damaged[place] ^= 1 << chance.randrange(8)
            path.write_bytes(damaged)
            assert refusal_of(opened, path) in (122, 123, 124, 125) and path.read_bytes() == damaged
    for gate in gates:
        path.write_bytes(whole[:gate] + b"\1" + whole[gate + 1 :])
        assert exported(path) == store_of(items).export()


def test_a_torn_end_has_no_item(path, items):
    with opened(path) as kept:
        kept.take_all(items[:2])
    whole, chance = path.read_bytes(), random.Random(5)
    group = b"\xff" + len(items[2]).to_bytes(4, "big") + (2**32 - 1 - len(items[2])).to_bytes(4, "big") + items[2] + b"\0"
    for length in [*range(12), *chance.sample(range(len(group)), 20), len(group)]:
        path.write_bytes(whole + group[1 : 1 + length])
        assert exported(path) == store_of(items[:2]).export() and path.read_bytes() == whole


# ---- disks that fail


def test_a_full_disk_is_tried_again(path, items, monkeypatch):
    with opened(path) as kept:
        kept.take(items[0])
        before, left = said(kept), path.read_bytes()
        other = store_of(items)
        calls = [lambda: kept.take(items[1]), lambda: kept.take_all(items), lambda: kept.load(other.export()), lambda: kept.merge(other)]
        calls.append(lambda: kept.apply(other.pack(kept.summary())))
        for call in calls:
            monkeypatch.setattr(journals, "os", Failing(0))
            assert refusal_of(call) == 120
            monkeypatch.undo()
            assert said(kept) == before and path.read_bytes() == left
        assert kept.take_all(items) == [False, True, True]
    assert exported(path) == other.export()


def test_a_store_that_lost_a_group_says_nothing_more(path, items, monkeypatch):
    calls = {"take": lambda it: it.take(items[1]), "take_all": lambda it: it.take_all(items)}
    calls["load"] = lambda it: it.load(store_of(items).export())
    for after in (1, 2, 3):
        for name, call in calls.items():
            at = path.with_name(f"{name}{after}")
            kept = opened(at)
            kept.take(items[0])
            monkeypatch.setattr(journals, "os", Failing(after))
            assert refusal_of(call, kept) == 121
            monkeypatch.undo()
            for ask in (*ASKS.values(), lambda it: it.take(items[0]), lambda it: it.take(b""), lambda it: it.merge(store_of([]))):
                assert refusal_of(ask, kept) == 121
            kept.close()
            assert refusal_of(ASKS["export"], kept) == 121
            given = {"take": items[:2], "take_all": items, "load": items}[name]
            assert exported(at) in (store_of(items[:1]).export(), store_of(given).export())


def test_a_call_that_is_interrupted_closes_the_store(path, items, monkeypatch):
    for after in range(4):
        at = path.with_name(f"store{after}")
        kept, calls = opened(at), []
        kept.take(items[0])

        class Interrupted(Disk):
            def does(self, name, call, *words):
                calls.append(name)
                if len(calls) > after:
                    raise KeyboardInterrupt
                return call(*words)

        monkeypatch.setattr(journals, "os", Interrupted())
        with pytest.raises(KeyboardInterrupt):
            kept.take_all(items)
        monkeypatch.undo()
        assert refusal_of(kept.export) == refusal_of(kept.take, items[1]) == 121
        assert exported(at) in (store_of(items[:1]).export(), store_of(items).export())


def test_want_of_memory_behind_a_written_group_closes_the_store(path, items, monkeypatch):
    from bulwynef import kept as module

    kept = opened(path)

    def none_left(*_):
        raise Refusal(99)

    monkeypatch.setattr(module, "told", none_left)
    assert refusal_of(kept.take, items[0]) == 121
    monkeypatch.undo()
    assert refusal_of(kept.export) == 121 and exported(path) == store_of(items[:1]).export()


def test_a_group_that_is_too_long_changes_nothing(path, items, monkeypatch):
    from bulwynef import kept as module

    room = sum(9 + len(text) for text in [*BASIS, *items[:2]])
    monkeypatch.setattr(journals, "MOST_GROUP", room)
    monkeypatch.setattr(module, "MOST_GROUP", room)
    with opened(path) as kept:
        assert refusal_of(kept.take_all, items) == 118 and said(kept) == said(store_of([])) and path.read_bytes() == b"\0"
        assert kept.take_all(items[:2]) == [True, True] and kept.take_all(items) == [False, False, True]
    with opened(path.with_name("loaded")) as kept:
        assert kept.load(store_of(items).export()) == 3 and kept.export() == store_of(items).export()
    assert texts_in(path.with_name("loaded")) == [*BASIS, *sorted(items)]
    longest = 9 + max(map(len, items))
    for most in (longest - 1, longest + sum(9 + len(text) for text in BASIS) - len(items[0]) + len(items[1]) - 1):
        monkeypatch.setattr(module, "MOST_GROUP", most)
        with opened(path.with_name("small")) as kept:
            assert refusal_of(kept.load, store_of(items).export()) == 118 and said(kept) == said(store_of([]))


def test_groups_of_a_large_export_that_the_disk_stops(path, items, monkeypatch):
    """A crash or a fault between the groups of one export leaves those before it: then the store is closed, and says nothing."""
    from bulwynef import kept as module

    room = sum(9 + len(text) for text in [*BASIS, max(items, key=len)])
    monkeypatch.setattr(module, "MOST_GROUP", room)
    kept = opened(path)
    monkeypatch.setattr(journals, "os", Failing(4))
    assert refusal_of(kept.load, store_of(items).export()) == 121
    monkeypatch.setattr(journals, "os", os)
    assert refusal_of(kept.export) == 121
    assert exported(path) == store_of(sorted(items)[:1]).export()


def test_no_question_is_answered_before_the_disk_has_the_item(path, items, monkeypatch):
    at_work, goes_on, said_so = threading.Event(), threading.Event(), []

    class Slow(Disk):
        def does(self, name, call, *words):
            if name == "fsync":
                at_work.set()
                assert goes_on.wait(SECONDS)
            return call(*words)

    with opened(path) as kept:
        kept.take(items[0])
        monkeypatch.setattr(journals, "os", Slow())
        takes = threading.Thread(target=lambda: said_so.append(("taken", kept.take(items[2]))))
        takes.start()
        assert at_work.wait(SECONDS)
        asks = [threading.Thread(target=lambda ask=ask: said_so.append(("said", ask(kept)))) for ask in (ASKS["indication"], ASKS["export"])]
        for thread in asks:
            thread.start()
            thread.join(0.3)
            assert thread.is_alive()
        assert said_so == []
        goes_on.set()
        for thread in (takes, *asks):
            thread.join(SECONDS)
        assert ("taken", True) in said_so and ("said", store_of([items[0], items[2]]).export()) in said_so
    monkeypatch.undo()


# ---- one process at a time, and processes that are killed


def test_a_store_is_one_process_s(path, items):
    with opened(path) as kept:
        kept.take(items[0])
        with pytest.raises(JournalInUse):
            opened(path)

        def tries(into):
            refused = 0
            for ask in (*ASKS.values(), lambda it: it.take(items[1]), lambda it: it.take_all(items), lambda it: it.load(b"")):
                try:
                    ask(kept)
                except RuntimeError:
                    refused += 1
            kept.close()
            os.write(into, bytes([refused]))

        child, told = in_a_child(tries)
        with told:
            assert told.read() == bytes([len(ASKS) + 3])
        os.waitpid(child, 0)
        assert kept.take(items[1])
    assert refusal_of(kept.take, items[0]) == refusal_of(kept.export) == 110
    assert exported(path) == store_of(items[:2]).export()


def test_short_writes_go_on(path, items, monkeypatch):
    monkeypatch.setattr(journals, "os", Dribbling())
    with opened(path) as kept:
        kept.take_all(items)
    assert exported(path) == store_of(items).export()


MANY = Key(bytes(16), bytes(32), 6, 2)
MANY_LISTED = directory({1: [MANY.public()], 2: [KEYS[2].public()]})


def many(count):
    """Messages of one node."""
    with Node(MANY_LISTED, 1, MANY, Program.TALLY) as node:
        for moment in range(count):
            node.timer(moment)
        return [node.message(seq) for seq in node.waiting()]


def takes(path, items, into):
    """Takes items behind those that are there, some at a time, and acknowledges each call by how many there are."""
    with KeptStore(path, Program.TALLY, MANY_LISTED) as kept:
        at, step = len(texts_in(path)[2:]), 0
        while True:
            step = step % 3 + 1
            group = items[at : at + step]
            assert kept.take(group[0]) if step == 1 else all(kept.take_all(group))
            at += step
            os.write(into, at.to_bytes(4, "big"))


def test_what_a_killed_process_acknowledged_is_there(path):
    items, chance, reached = many(160), random.Random(11), 0
    for times in range(100):
        child, told = in_a_child(lambda into: takes(path, items, into))
        with told:
            said = told.read(4)
            threading.Event().wait(chance.random() * 0.02)
            os.kill(child, signal.SIGKILL)
            os.waitpid(child, 0)
            said += told.read()
        reached = int.from_bytes(said[-4:], "big") if said else reached
        texts = texts_in(path)[2:]
        assert texts == items[: len(texts)] and reached <= len(texts)
        if times % 10 == 0 or len(texts) > 80:
            with KeptStore(path, Program.TALLY, MANY_LISTED) as kept, Store(MANY_LISTED, Program.TALLY) as given:
                assert all(given.take(item) for item in texts) and kept.export() == given.export()
        reached = len(texts)
        if reached > 80:
            path.unlink()
            reached = 0
