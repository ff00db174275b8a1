"""Tests of journals: what a file stands for, what is cut and what is refused, disks that fail, locks, and processes that are killed."""

import os
import random
import resource
import signal
import subprocess
import sys
import threading

import pytest
from disks import Dribbling, Failing, Fast, Watching
from scene import in_a_child

from bulwynef import Journal, JournalInUse, Refusal, journals, texts_in

SECONDS = 60
# the journal of the texts 07 and the empty one (docs/FORMATS.md)
EXAMPLE = bytes.fromhex("ff 00000001 fffffffe 07 ff 00000000 ffffffff 00")
MOST_GROUP = 8_388_608


@pytest.fixture
def path(tmp_path):
    return tmp_path / "journal"


def block(text):
    """A block, by the words of docs/FORMATS.md."""
    return b"\xff" + len(text).to_bytes(4, "big") + (2**32 - 1 - len(text)).to_bytes(4, "big") + text


def file_of(*texts):
    return b"".join(map(block, texts)) + b"\0"


def refusal_of(call, *words):
    with pytest.raises(Refusal) as refused:
        call(*words)
    return refused.value.number


def opened(path):
    with Journal(path) as journal:
        return journal.texts


# ---- what a file stands for


def test_a_file_is_as_the_formats_have_it(path):
    with Journal(path) as journal:
        assert journal.texts == [] and path.read_bytes() == b"\0" and journal.length == 0
        journal.append([b"\7", b""])
        assert path.read_bytes() == EXAMPLE and journal.length == len(EXAMPLE) - 1
    assert opened(path) == texts_in(path) == [b"\7", b""]
    assert path.stat().st_mode & 0o777 == 0o600


def test_groups_stand_one_behind_the_other(path):
    given = []
    for number in range(5):
        with Journal(path) as journal:
            assert journal.texts == given
            for group in ([bytes([number])], [], [b"", bytes(number)], [os.urandom(5000)] * 3):
                journal.append(iter(group))
                given += group
        assert path.read_bytes() == file_of(*given)


def test_a_new_file_has_at_most_one_byte_whatever_it_is(path):
    for byte in (b"", b"\0", b"\1", b"\xff"):
        path.write_bytes(byte)
        assert opened(path) == [] and path.read_bytes() == b"\0"


def test_texts_are_given_in_order_before_anything_is_changed(path):
    torn = file_of(b"one", b"two") + b"torn"
    path.write_bytes(torn)
    given = []

    def stops(texts):
        given.append(next(texts))
        raise KeyError("enough")

    with pytest.raises(KeyError):
        Journal(path, stops)
    assert given == [b"one"] and path.read_bytes() == torn
    with Journal(path, lambda texts: given.append(next(texts))) as journal:
        assert given == [b"one", b"one"] and journal.texts == [] and path.read_bytes() == file_of(b"one", b"two")
        journal.append([b"three"])
    assert texts_in(path) == [b"one", b"two", b"three"]


def test_looking_at_a_file_changes_nothing(path):
    for left in (b"", b"\1", EXAMPLE, EXAMPLE + b"torn"):
        path.write_bytes(left)
        assert texts_in(path) == ([b"\7", b""] if len(left) > 1 else []) and path.read_bytes() == left
    with pytest.raises(FileNotFoundError):
        texts_in(path.with_name("another"))
    path.write_bytes(EXAMPLE[:-1])
    assert refusal_of(texts_in, path) == 122


# ---- what a crash leaves, and what it does not


@pytest.fixture
def fast(monkeypatch):
    monkeypatch.setattr(journals, "os", Fast())


def test_a_torn_end_is_cut_at_each_byte(path, fast):
    before, chance = file_of(b"first", b"", b"second"), random.Random(1)
    group = file_of(b"third", b"", os.urandom(40))
    for length in range(len(group) + 1):
        for behind in (group[1 : 1 + length], chance.randbytes(length), b"\xff" * length, bytes(length)):
            path.write_bytes(before + behind)
            for _ in range(2):
                assert opened(path) == [b"first", b"", b"second"]
                assert path.read_bytes() == before
    path.write_bytes(before[:-1] + group)
    assert opened(path)[3:5] == [b"third", b""]


def test_what_was_cut_off_is_written_over(path):
    path.write_bytes(EXAMPLE + block(b"lost") + b"\0")
    with Journal(path) as journal:
        journal.append([b"kept"])
    assert path.read_bytes() == file_of(b"\7", b"", b"kept")


def test_at_most_a_group_stands_behind_the_closed_gate(path):
    for front in (b"\0", EXAMPLE):
        path.write_bytes(front + bytes(MOST_GROUP))
        assert opened(path) == ([] if front == b"\0" else [b"\7", b""]) and path.read_bytes() == front
        path.write_bytes(front + bytes(MOST_GROUP + 1))
        assert refusal_of(Journal, path) == 122 and path.stat().st_size == len(front) + MOST_GROUP + 1


def test_each_damage_of_a_head_is_refused_and_nothing_is_cut(path, fast):
    whole = file_of(b"first", bytes(300), b"third")
    heads = [0, 14, 14 + 309]
    for start in heads:
        for place in range(start + 1, start + 9):
            for bit in range(8):
                damaged = bytearray(whole)
                damaged[place] ^= 1 << bit
                path.write_bytes(damaged)
                assert refusal_of(Journal, path) == 122
                assert path.read_bytes() == damaged
        for gate in (1, 2, 128, 254):
            path.write_bytes(whole[:start] + bytes([gate]) + whole[start + 1 :])
            assert opened(path) == [b"first", bytes(300), b"third"]


def test_a_file_that_lost_its_end_is_refused_at_each_length(path, fast):
    whole = file_of(b"first", b"", b"third")
    for length in range(2, len(whole)):
        path.write_bytes(whole[:length])
        assert refusal_of(Journal, path) == 122 and path.read_bytes() == whole[:length]


def test_a_length_that_is_too_long_takes_no_memory(path):
    path.write_bytes(b"\xff" + (2**32 - 1).to_bytes(4, "big") + bytes(4) + b"short" + b"\0")
    assert refusal_of(Journal, path) == 122


def test_a_crash_at_any_moment_leaves_all_of_a_group_or_nothing(path, monkeypatch):
    for chance, (left, given) in enumerate([(b"", []), (b"\5", []), (EXAMPLE, [b"\7", b""]), (EXAMPLE + b"torn off", [b"\7", b""])]):
        path.write_bytes(left)
        disk = Watching(path, chance)
        monkeypatch.setattr(journals, "os", disk)
        with Journal(path) as journal:
            opening = len(disk.moments)
            journal.append([b"new", b"", b"newer"])
        monkeypatch.setattr(journals, "os", Fast())
        outcomes = {True: 0, False: 0}
        for moment, crashed in enumerate(disk.left(40)):
            path.write_bytes(crashed)
            texts = opened(path)
            assert texts in (given, [*given, b"new", b"", b"newer"]), (moment, crashed)
            assert texts == given or moment >= 40 * opening
            outcomes[texts == given] += 1
            assert opened(path) == texts
        assert min(outcomes.values()) > 0


# ---- disks that fail


def test_each_call_of_an_append_that_fails(path, monkeypatch):
    # which refusal each call's failure is, by its place: the group's write, its sync, the gate, its sync
    for after, (name, number) in enumerate([("pwrite", 120), ("fsync", 121), ("pwrite", 121), ("fsync", 121)]):
        for part in (0, 0.5, 1):
            path.write_bytes(EXAMPLE)
            journal = Journal(path)
            disk = Failing(after, part=part)
            monkeypatch.setattr(journals, "os", disk)
            assert refusal_of(journal.append, [b"new", bytes(50)]) == number and disk.calls[after] == name
            monkeypatch.undo()
            if number == 120:
                assert path.read_bytes() == EXAMPLE and journal.closed_by == 0
                journal.append([b"another"])
                assert path.read_bytes() == file_of(b"\7", b"", b"another")
            else:
                assert journal.closed_by == 121
                assert refusal_of(journal.append, [b"more"]) == refusal_of(journal.append, []) == 121
                journal.close()
                assert refusal_of(journal.append, [b"more"]) == 121
                assert opened(path) in ([b"\7", b""], [b"\7", b"", b"new", bytes(50)])
            journal.close()


def test_a_journal_that_can_t_be_put_back_is_closed(path, monkeypatch):
    for times in (2, 3):
        path.write_bytes(EXAMPLE)
        journal = Journal(path)
        disk = Failing(0, times) if times == 2 else Failing(0)
        if times == 3:
            # the write and the sync behind the cut fail
            disk.does = lambda name, call, *words: call(*words) if name == "ftruncate" else Failing(0).does(name, call, *words)
        monkeypatch.setattr(journals, "os", disk)
        assert refusal_of(journal.append, [b"new"]) == 121
        monkeypatch.undo()
        assert refusal_of(journal.append, [b"new"]) == 121
        assert opened(path) == [b"\7", b""]


def test_the_cause_is_the_system_s(path, monkeypatch):
    journal = Journal(path)
    monkeypatch.setattr(journals, "os", Failing(0))
    with pytest.raises(Refusal) as refused:
        journal.append([b"new"])
    monkeypatch.undo()
    assert refused.value.name == "DiskFailed" and isinstance(refused.value.__cause__, OSError) and "full" not in str(refused.value)
    journal.close()


def test_each_call_of_an_opening_that_fails(path, monkeypatch):
    for left, texts in ((b"", []), (b"\5", []), (EXAMPLE + b"torn", [b"\7", b""])):
        for after in range(4):
            path.write_bytes(left)
            disk = Failing(after)
            monkeypatch.setattr(journals, "os", disk)
            with pytest.raises(OSError):
                Journal(path)
            monkeypatch.undo()
            assert len(disk.calls) == after + 1
            assert opened(path) == texts


def test_a_file_that_can_t_be_made_is_no_journal(tmp_path):
    for path, error in ((tmp_path / "none" / "journal", FileNotFoundError), (tmp_path, IsADirectoryError)):
        with pytest.raises(error):
            Journal(path)
    os.mkfifo(tmp_path / "pipe")
    with pytest.raises((ValueError, OSError)):
        Journal(tmp_path / "pipe")


def test_a_file_that_the_system_lets_grow_no_more(path):
    """The system writes a part of a group, and refuses the rest: what was written is cut off."""

    def appends_until(into):
        with Journal(path) as journal:
            journal.append([bytes(500)])
            resource.setrlimit(resource.RLIMIT_FSIZE, (1000, resource.RLIM_INFINITY))
            numbers = [refusal_of(journal.append, [bytes(700)]) for _ in range(3)]
            journal.append([b"small"])
            os.write(into, bytes(numbers))

    child, told = in_a_child(appends_until)
    with told:
        assert told.read() == bytes([120] * 3)
    os.waitpid(child, 0)
    assert opened(path) == [bytes(500), b"small"]


def test_short_writes_go_on(path, monkeypatch):
    monkeypatch.setattr(journals, "os", Dribbling())
    with Journal(path) as journal:
        journal.append([b"one", os.urandom(99)])
        journal.append([b"two"])
    assert texts_in(path)[::2] == [b"one", b"two"]


def test_a_call_that_is_interrupted_closes_the_journal(path, monkeypatch):
    for after in range(4):
        path.write_bytes(EXAMPLE)
        journal, calls = Journal(path), []

        class Interrupted(Dribbling):
            def does(self, name, call, *words):
                calls.append(name)
                if len(calls) > after:
                    raise KeyboardInterrupt
                return call(*words)

        monkeypatch.setattr(journals, "os", Interrupted())
        with pytest.raises(KeyboardInterrupt):
            journal.append([b"new"])
        monkeypatch.undo()
        assert refusal_of(journal.append, [b"new"]) == 121
        assert opened(path) in ([b"\7", b""], [b"\7", b"", b"new"])


def test_a_group_has_a_longest_length(path):
    with Journal(path) as journal:
        longest = bytes(MOST_GROUP - 18)
        assert refusal_of(journal.append, [longest, b"1"]) == 118 and path.read_bytes() == b"\0"
        journal.append([longest, b""])
        assert journal.length == MOST_GROUP
        journal.append([b"more"])
    assert [len(text) for text in texts_in(path)] == [len(longest), 0, 4]


def test_texts_are_bytes(path):
    with Journal(path) as journal:
        for text in ("00", None, 7):
            with pytest.raises(TypeError):
                journal.append([b"one", text])
        assert journal.texts == [] and path.read_bytes() == b"\0"
        journal.append([bytearray(b"one"), memoryview(b"two")])
    assert texts_in(path) == [b"one", b"two"]


def test_a_closed_journal_takes_no_text(path):
    journal = Journal(path)
    journal.close()
    journal.close()
    assert refusal_of(journal.append, [b"new"]) == refusal_of(journal.append, []) == 110 and journal.closed_by == 110
    assert texts_in(path) == []


# ---- locks, threads and children

HOLDS = """
import sys, time
from bulwynef import Journal
journal = Journal(sys.argv[1])
print("open", flush=True)
time.sleep(60)
"""


def test_a_file_is_one_process_s(path):
    with subprocess.Popen([sys.executable, "-c", HOLDS, str(path)], stdout=subprocess.PIPE) as holds:
        assert holds.stdout.readline() == b"open\n"
        before = path.read_bytes()
        with pytest.raises(JournalInUse) as refused:
            Journal(path)
        assert str(path) in str(refused.value) and path.read_bytes() == before
        assert texts_in(path) == []
        holds.kill()
    assert opened(path) == []


def test_a_file_is_one_journal_s(path):
    with Journal(path) as journal:
        for _ in range(2):
            with pytest.raises(JournalInUse):
                Journal(path)
        linked = path.with_name("linked")
        linked.symlink_to(path)
        with pytest.raises(JournalInUse):
            Journal(linked)
        journal.append([b"still here"])
    assert opened(path) == [b"still here"]


def test_threads_share_a_journal(path):
    with Journal(path) as journal:
        threads = [threading.Thread(target=lambda n=n: [journal.append([bytes([n]), bytes([n])]) for _ in range(20)]) for n in range(6)]
        for thread in threads:
            thread.start()
        for thread in threads:
            thread.join(SECONDS)
            assert not thread.is_alive()
    texts = texts_in(path)
    assert texts[::2] == texts[1::2] and sorted(texts) == sorted(bytes([n]) for n in range(6) for _ in range(40))


def test_a_child_is_refused_its_parent_s_journal_and_holds_no_lock(path):
    journal = Journal(path)
    journal.append([b"parent's"])

    def tries(into):
        for call in (lambda: journal.append([b"child's"]), lambda: journal.append([])):
            try:
                call()
            except RuntimeError as error:
                os.write(into, str("fork" in str(error)).encode())
        journal.close()
        os.write(into, b".")
        signal.pause()

    child, told = in_a_child(tries)
    with told:
        assert told.read(9) == b"TrueTrue."
        assert texts_in(path) == [b"parent's"]
        journal.append([b"parent's"])
        journal.close()
        # the child lives, and has not the lock
        assert opened(path) == [b"parent's"] * 2
        os.kill(child, signal.SIGKILL)
        os.waitpid(child, 0)


def killed(path, appends, seconds):
    """What a child acknowledges of what it appends, until it is killed."""
    child, told = in_a_child(lambda into: appends(path, into))
    with told:
        first = told.read(4)
        threading.Event().wait(seconds)
        os.kill(child, signal.SIGKILL)
        os.waitpid(child, 0)
        return first + told.read()


def appends(path, into):
    """Appends numbers in groups of three, and acknowledges each group by its first one, in four bytes."""
    with Journal(path) as journal:
        number = len(journal.texts)
        while True:
            journal.append([(number + step).to_bytes(4, "big") + bytes(number % 700) for step in range(3)])
            os.write(into, number.to_bytes(4, "big"))
            number += 3


def test_what_a_killed_process_acknowledged_is_there(path):
    chance = random.Random(7)
    for _ in range(100):
        acknowledged = killed(path, appends, chance.random() * 0.01)
        last = int.from_bytes(acknowledged[-4:], "big")
        texts = opened(path)
        assert [int.from_bytes(text[:4], "big") for text in texts] == list(range(len(texts)))
        assert len(texts) in (last + 3, last + 6)
    assert len(texts) >= 300


def test_a_journal_is_neither_copied_nor_pickled(path):
    import copy
    import pickle

    with Journal(path) as journal:
        for call in (copy.copy, copy.deepcopy, pickle.dumps):
            with pytest.raises(TypeError):
                call(journal)
