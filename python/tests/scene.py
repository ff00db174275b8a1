"""What several tests begin with: two nodes of Tally, a message and two acknowledgements of one node under one number."""

import os
import signal

from bulwynef import Key, Node, Program, directory

TOP = os.path.dirname(os.path.dirname(os.path.dirname(os.path.abspath(__file__))))
KEYS = {n: Key(bytes(15) + bytes([n]), bytes(31) + bytes([n])) for n in (1, 2)}
LISTED = directory({n: [key.public()] for n, key in KEYS.items()})


def node_of(me, first_seq=1):
    """A node of Tally."""
    return Node(LISTED, me, KEYS[me], Program.TALLY, first_seq)


def first_message(node):
    return node.message(node.waiting()[0])


def exchanged():
    """A message of node 1, the acknowledgement of node 2, and one of a second node 2 by the same key."""
    with node_of(1) as one, node_of(2) as two, node_of(2) as liar:
        one.timer(5)
        message = first_message(one)
        ack = two.answer(message)
        assert two.answer(message) == ack
        one.accept_ack(ack)
        assert one.waiting() == []
        one.timer(6)
        return message, ack, liar.answer(first_message(one))


def in_a_child(does, seconds=60):
    """A child that was forked off, and what it writes; it ends after some time."""
    out, into = os.pipe()
    child = os.fork()
    if child == 0:
        try:
            os.close(out)
            signal.alarm(seconds)
            does(into)
        finally:
            os._exit(0)
    os.close(into)
    return child, open(out, "rb")
