"""Tests of objects that threads share, and of those that a child has which was forked off."""

import os
import signal
import threading

import pytest
from scene import KEYS, LISTED, exchanged, first_message, node_of

from bulwynef import Key, Node, Program, Refusal, Store

SECONDS = 60
# each method, called with words for which the library would do or refuse something
NODE_CALLS = {
    "timer": lambda node: node.timer(7),
    "waiting": lambda node: node.waiting(),
    "message": lambda node: node.message(3),
    "answer": lambda node: node.answer(b"\4"),
    "history": lambda node: node.history(),
    "accept_ack": lambda node: node.accept_ack(b"\5"),
    "checkpoint": lambda node: node.checkpoint(),
    "remaining": lambda node: node.remaining(),
    "next_key": lambda node: node.next_key(KEYS[2]),
}
STORE_CALLS = {
    "take": lambda store: store.take(b"\4"),
    "load": lambda store: store.load(store_text()),
    "merge": lambda store: store.merge(Store(LISTED, Program.TALLY)),
    "includes": lambda store: store.includes(Store(LISTED, Program.TALLY)),
    "indication": lambda store: store.indication(1),
    "proof": lambda store: store.proof(1),
    "challenges": lambda store: store.challenges(1),
    "explain": lambda store: store.explain(),
    "export": lambda store: store.export(),
    "outline": lambda store: store.outline(),
    "summary": lambda store: store.summary(),
    "pack": lambda store: store.pack(b""),
    "apply": lambda store: store.apply(b""),
}


def store_text():
    with Store(LISTED, Program.TALLY) as store:
        return store.export()


def at_once(*calls):
    """What the calls raise, each in a thread of its own that begins when all do; a thread that does not end fails the test."""
    raised, begin = [], threading.Barrier(len(calls))

    def run(call):
        begin.wait()
        try:
            call()
        except BaseException as error:
            raised.append(error)

    threads = [threading.Thread(target=run, args=(call,), daemon=True) for call in calls]
    for thread in threads:
        thread.start()
    for thread in threads:
        thread.join(SECONDS)
        assert not thread.is_alive(), "threads wait for one another"
    return raised


def test_threads_share_a_node():
    with node_of(1) as one:
        assert at_once(*[lambda: [one.timer(9) for _ in range(4)]] * 6, lambda: [one.history() for _ in range(40)]) == []
        assert one.remaining() == 32 - 24 and len(set(one.waiting())) == 24


def test_threads_share_stores_and_merge_them_crosswise():
    message, ack, lie = exchanged()
    with Store(LISTED, Program.TALLY) as left, Store(LISTED, Program.TALLY) as right:
        left.take(message), right.take(lie)
        calls = [lambda: left.merge(right), lambda: right.merge(left), lambda: left.includes(right), lambda: right.includes(left)]
        calls += [lambda: left.take(ack), lambda: right.explain(), lambda: left.export()]
        assert at_once(*[lambda call=call: [call() for _ in range(60)] for call in calls]) == []
        left.merge(right), right.merge(left)
        assert left.export() == right.export() and left.challenges(1) == []


def test_a_store_that_is_closed_beside_a_call_is_closed_behind_it():
    for _ in range(20):
        store = Store(LISTED, Program.TALLY)
        raised = at_once(lambda: [store.outline() for _ in range(5)], store.close)
        assert all(isinstance(error, Refusal) and error.number == 110 for error in raised)


def in_a_child(tell):
    """What a child that is forked off tells, or how it ended."""
    out, into = os.pipe()
    child = os.fork()
    if child == 0:
        try:
            signal.alarm(SECONDS)
            os.write(into, str(tell()).encode())
        finally:
            os._exit(0)
    os.close(into)
    with os.fdopen(out, "rb") as told:
        said = told.read().decode()
    _, status = os.waitpid(child, 0)
    return said if os.WIFEXITED(status) else f"ended by signal {os.WTERMSIG(status)}"


def refused(calls, it):
    """The names of the calls that are refused as those of another process are."""
    found = []
    for name, call in calls.items():
        try:
            call(it)
        except RuntimeError as error:
            found += [name] if "fork" in str(error) else []
        except Refusal:
            pass
    return found


def test_a_child_is_refused_each_call_on_its_parent_s_handles():
    for kind, calls in ((Node, NODE_CALLS), (Store, STORE_CALLS)):
        assert set(calls) == {name for name in vars(kind) if not name.startswith("_")}
    with node_of(1) as one, Store(LISTED, Program.TALLY) as store:
        one.timer(5)
        log, leaves = one.history(), one.remaining()
        assert in_a_child(lambda: refused(NODE_CALLS, one)) == str(list(NODE_CALLS))
        assert in_a_child(lambda: refused(STORE_CALLS, store)) == str(list(STORE_CALLS))
        assert in_a_child(lambda: in_a_child(lambda: refused(NODE_CALLS, one))) == str(list(NODE_CALLS))
        assert (one.history(), one.remaining()) == (log, leaves)
        one.timer(6)
        assert one.remaining() == leaves - 1 and store.export() == store_text()


def test_a_parent_s_store_is_not_merged_into_one_of_a_child():
    with Store(LISTED, Program.TALLY) as store:

        def merged():
            with Store(LISTED, Program.TALLY) as own:
                calls = {"merge": own.merge, "includes": own.includes, "into": store.merge}
                return refused(calls, store) + refused({"from": store.merge, "within": store.includes}, own)

        assert in_a_child(merged) == "['merge', 'includes', 'into', 'from', 'within']"


def test_a_child_opens_handles_of_its_own_and_closes_none_of_its_parent():
    with node_of(1) as one, Store(LISTED, Program.TALLY) as store:

        def works():
            one.close(), store.close()
            with one, Store(LISTED, Program.TALLY) as own:
                return own.export().hex()

        assert in_a_child(works) == store_text().hex()
        one.timer(5)
        assert store.take(first_message(one))


def test_a_child_does_not_wait_for_a_thread_that_it_lacks():
    with node_of(1) as one:
        with one._mine():
            taken = threading.Thread(target=lambda: None)
            taken.start(), taken.join()
            told = []
            forks = threading.Thread(target=lambda: told.append(in_a_child(lambda: (refused(NODE_CALLS, one), one.close()))), daemon=True)
            forks.start()
            forks.join(SECONDS)
        assert told == [str((list(NODE_CALLS), None))]


def test_a_key_shows_no_seed():
    key = Key(bytes(range(16)), b"seedseedseedseedseedseedseedseed")
    for shown in (repr(key), str(key), f"{key}", f"{key!r}", f"{[key]}", f"{ {1: key} }", "%r" % (key,)):
        assert "seedseed" not in shown and key.seed.hex() not in shown and repr(key.key_id) in shown
    with pytest.raises(Refusal) as raised:
        Node(LISTED, 1, key, Program.TALLY)
    assert "seedseed" not in str(raised.value) and key == Key(bytes(range(16)), b"seed" * 8)
