#!/usr/bin/env python3
"""Makes the lines on stores that the program evidence_vectors answers, over Python's hashlib alone, and compares them with those at
the end of its standard input; `--write` writes them there.

It shares no code with the crates: the items are signed and spelled here again, from the formats (docs/FORMATS.md) and RFC 8554, and
what a store says of the nodes stands beside each set of items.
"""

import os
import sys

from nodes import Key, Message, Node, entry_hash, sha256, u8, u32, u64

INIT, SEND, RECV, TIMER, CHECKPOINT = 1, 2, 3, 4, 5
ZEROS, ONES, TWOS = bytes(32), bytes([1]) * 32, bytes([2]) * 32


def text(content):
    return u32(len(content)) + content


class Keys:
    """The keys of the nodes 1 and 2 (H5, W4 or another type of LM-OTS), two of each, and what they sign by those with the present
    number."""

    def __init__(self, ots_type=3):
        self.ots_type, self.number, self.keys = ots_type, 0, {}

    def key(self, node, number):
        if (node, number) not in self.keys:
            self.keys[node, number] = Key(node, self.ots_type, number)
        return self.keys[node, number]

    def sign(self, node, seq, digest, c=9):
        return self.key(node, self.number).sign(u64(seq) + digest, bytes([c]) * 32)

    def auth(self, node, seq, digest, c=9):
        return u8(1) + u32(node) + u64(seq) + digest + text(self.sign(node, seq, digest, c))

    def segment(self, node, before, entries):
        signature = self.sign(node, entries[-1][0], end_of(before, entries))
        return spelled_segment(node, before, entries, signature)

    def log_from(self, place):
        return self.segment(2, end_of(sha256(), LOG[: place - 1]), LOG[place - 1 :])

    def message(self, sender, seq, payload):
        receiver = 3 - sender
        sent = entry_hash(ZEROS, seq, SEND, u32(receiver) + payload)
        return Message(sender, receiver, seq, ZEROS, self.sign(sender, seq, sent), payload)

    def ack(self, message, seq=11):
        received = entry_hash(ZEROS, seq, RECV, message.quote())
        return u8(5) + spelled(message) + u64(seq) + ZEROS + text(self.sign(message.receiver, seq, received))

    def receiving(self, message, change):
        content = message.quote()
        content = content[:-1] + u8(content[-1] ^ change)
        entries = [(1, INIT, u32(message.receiver)), (2, RECV, content)]
        return self.segment(message.receiver, sha256(), entries)

    def quoting(self, message, **changes):
        """Node 2's INIT and the RECV of the message, in which the fields are changed."""
        return self.segment(2, sha256(), [(1, INIT, u32(2)), (2, RECV, changed(message, changes).quote())])

    def received(self, *messages):
        """Node 2's INIT, and a RECV of each of the messages."""
        return self.segment(2, sha256(), [(1, INIT, u32(2)), *((2 + i, RECV, it.quote()) for i, it in enumerate(messages))])

    def quoting_later(self, message, **changes):
        """The same from a CHECKPOINT on."""
        return self.segment(2, ZEROS, [(7, CHECKPOINT, u64(0)), (8, RECV, changed(message, changes).quote())])

    def audit(self, *statements):
        """The challenge to node 2 to show its log up to a statement, from another one on or from its beginning."""
        signed = [u64(seq) + digest + text(self.sign(2, seq, digest)) for seq, digest in statements]
        return u8(3) + u32(2) + u8(len(signed) - 1) + b"".join(signed)


LOG = [(1, INIT, u32(2)), (2, TIMER, u64(10)), (3, CHECKPOINT, u64(0)), (4, TIMER, u64(20)), (5, TIMER, u64(30)), (6, CHECKPOINT, u64(0))]


def logged(place):
    """Node 2's statement on its entry at the place."""
    return place, end_of(sha256(), LOG[:place])


SENT = [(1, INIT, u32(1)), (2, TIMER, u64(10)), (3, SEND, u32(2) + b"A" + u64(10))]


def end_of(before, entries):
    """The hash of the last entry."""
    for entry in entries:
        before = entry_hash(before, *entry)
    return before


def spelled_segment(node, before, entries, signature):
    spelled = b"".join(u64(seq) + u8(kind) + text(content) for seq, kind, content in entries)
    return u8(2) + u32(node) + before + u32(len(entries)) + spelled + text(signature)


def changed(message, changes):
    return Message(**{**vars(message), **changes})


def turned(content):
    """The bytes, of which the last is another one."""
    return content[:-1] + u8(content[-1] ^ 1)


def sending():
    """What node 1 sends to node 2 as a node does, and its log up to there, which the message's signature ends."""
    (message,) = Node(1, 1).timer(10, bytes(32))
    assert (message.receiver, message.seq, message.before) == (2, 3, end_of(sha256(), SENT[:2]))
    return message, spelled_segment(1, sha256(), SENT, message.signature)


def spelled(message):
    head = u32(message.sender) + u32(message.receiver) + u64(message.seq) + message.before
    return head + text(message.signature) + text(message.payload)


def demand(message):
    return u8(4) + spelled(message)


def directory(keys):
    text = b"PRDIREC2" + u32(2)
    for node in (1, 2):
        text += u32(node) + u8(2)
        for number in (0, 1):
            key = keys.key(node, number)
            text += u32(5) + u32(key.ots_type) + key.identifier + key.tree[1]
    return text


def export(items, magic=b"PRSTORE2"):
    items = sorted(set(items))
    return magic + u64(len(items)) + b"".join(text(item) for item in items)


def demand_and_other_ack():
    k = Keys()
    return [demand(k.message(1, 7, b"hello")), k.ack(k.message(1, 8, b"hello"))]


def demand_and_ack():
    k = Keys()
    message = k.message(1, 7, b"hello")
    return [demand(message), k.ack(message)]


def demand_and_receipt(change):
    k = Keys()
    message = k.message(1, 7, b"hello")
    return [demand(message), k.receiving(message, change)]


def checkpoint(k):
    return k.segment(2, ZEROS, [(7, CHECKPOINT, u64(0))])


def beginning(k):
    return k.segment(2, sha256(), [(3, INIT, u32(2))])


TRUSTED = "trusted 0 -"
NOTHING = f"1 {TRUSTED} 2 {TRUSTED}"
FIRST = f"1 exposed 0 1 2 {TRUSTED}"
SECOND = f"1 {TRUSTED} 2 exposed 0 2"
BOTH = "1 exposed 0 1 2 exposed 0 2"
OPEN = f"1 {TRUSTED} 2 suspected 1 -"
OPEN_AND_SECOND = f"1 {TRUSTED} 2 exposed 1 2"


def quotes(message):
    """Segments of node 2 that quote node 1's message, and what a store says that has one of them, also with node 1's own log."""
    k = Keys()
    # as it was sent
    yield k.quoting(message), NOTHING
    # otherwise than node 1 signed it, each field in turn: that exposes node 2, and nothing is held against node 1, whose log has
    # another entry under the number 2, and another hash under the number 3
    yield k.quoting(message, seq=2), SECOND
    yield k.quoting(message, before=ONES), SECOND
    yield k.quoting(message, signature=turned(message.signature)), SECOND
    yield k.quoting(message, payload=turned(message.payload)), SECOND
    # so it does where the log is shown from a checkpoint on
    yield k.quoting_later(message, seq=2), SECOND


def cases():
    """Items, signed in the order of the list, and what a store that has them says of the nodes 1 and 2."""
    k = Keys()
    # two signatures on one number and hash
    yield [k.auth(1, 5, ONES, 0), k.auth(1, 5, ONES, 1)], NOTHING
    k = Keys()
    # two hashes of one number
    yield [k.auth(1, 5, ONES), k.auth(1, 5, TWOS)], FIRST
    k = Keys()
    # a statement on a number within a segment, with another hash
    yield [k.log_from(3), k.auth(2, 4, ZEROS)], SECOND
    k = Keys()
    # the same by a message that another node received
    yield [k.log_from(3), k.receiving(k.message(2, 4, b"X"), 0)], SECOND
    k = Keys()
    # a statement on the number just before a segment, with another hash
    yield [checkpoint(k), k.auth(2, 6, ONES)], SECOND
    k = Keys()
    # a statement two numbers before a segment
    yield [checkpoint(k), k.auth(2, 5, ONES)], NOTHING
    k = Keys()
    # a statement on a number before the log's first
    yield [beginning(k), k.auth(2, 2, ONES)], SECOND
    # a message that the acknowledgement of one with another number does not answer, that its own does, and that a segment with it does
    yield demand_and_other_ack()[:1], OPEN
    yield demand_and_other_ack(), OPEN
    yield demand_and_ack(), NOTHING
    yield demand_and_receipt(0), NOTHING
    # a receipt that its sender did not sign so: it answers nothing, and exposes who logged it
    yield demand_and_receipt(1), OPEN_AND_SECOND
    k = Keys()
    # a demand from the second entry on, a part that begins behind that, and the whole log
    audit, part, whole = k.audit(logged(2), logged(6)), k.log_from(3), k.log_from(1)
    yield [audit, part], OPEN
    yield [audit, part, whole], NOTHING
    yield from of_two_keys()
    yield from of_one_number()
    yield from of_beginnings()
    yield from of_statements()


def of_two_keys():
    """What nodes sign by one and by the other of their keys."""
    k = Keys()
    statement, part = k.auth(1, 5, ONES), k.log_from(3)
    k.number = 1
    # one statement by both keys, and two hashes of one number
    yield [statement, k.auth(1, 5, ONES)], NOTHING
    yield [statement, k.auth(1, 5, TWOS)], FIRST
    # a segment, and a statement by the other key that contradicts it
    yield [part, k.auth(2, 4, ZEROS)], SECOND
    # a message that is acknowledged, that a segment quotes, and that one quotes without the number of its key
    message = k.message(1, 7, b"hello")
    yield [demand(message), k.ack(message)], NOTHING
    yield [demand(message), k.received(message)], NOTHING
    yield [demand(message), k.quoting(message, signature=message.signature[1:])], OPEN_AND_SECOND


def of_one_number():
    """Messages of node 1 to node 2 under one number: X and Y, and X once more, by another signature."""
    k = Keys()
    first, second, again = (k.message(1, 7, payload) for payload in (b"X", b"Y", b"X"))
    later, other = k.message(1, 8, b"X"), k.message(2, 7, b"X")
    # what answers the one answers the other, and the two hashes expose node 1
    yield [demand(second), k.ack(first)], FIRST
    yield [demand(second), k.received(first)], FIRST
    yield [demand(again), k.ack(first)], NOTHING
    yield [demand(again), k.received(first)], NOTHING
    # what is of another number or of another sender answers nothing
    yield [demand(first), k.received(later)], OPEN
    yield [demand(first), k.ack(other)], OPEN
    # a node that receives the number twice is exposed, wherever in its log it does
    yield [k.received(first, first)], SECOND
    yield [k.received(first, later, again)], SECOND
    yield [k.received(first, second)], BOTH
    yield [k.received(first, later)], NOTHING


def of_beginnings():
    """A demand for the log from its beginning on."""
    k = Keys()
    audit, part, whole = k.audit(logged(6)), k.log_from(3), k.log_from(1)
    other = k.segment(2, sha256(), [(1, INIT, u32(2)), (6, TIMER, u64(10))])
    # a part that begins with a CHECKPOINT has the entry, and shows no beginning; another log has a beginning, and not the entry
    yield [audit], OPEN
    yield [audit, part], OPEN
    yield [audit, other], OPEN_AND_SECOND
    yield [audit, part, whole], NOTHING


def holders():
    """Items that hold a statement of node 2 on the number 4, each with its keys, and what a store says once something contradicts that."""
    k = Keys()
    # a demand for the log, as its end and as its beginning; and one for the whole log
    yield k, k.audit((1, ONES), (4, ONES)), OPEN_AND_SECOND
    k = Keys()
    yield k, k.audit((4, ONES), (9, ONES)), OPEN_AND_SECOND
    k = Keys()
    yield k, k.audit((4, ONES)), OPEN_AND_SECOND
    # a demand to acknowledge node 2's message, which node 1 does not, and an acknowledgement of it
    k = Keys()
    yield k, demand(k.message(2, 4, b"X")), "1 suspected 1 - 2 exposed 0 2"
    k = Keys()
    yield k, k.ack(k.message(2, 4, b"X")), SECOND
    # node 2's acknowledgement of a message
    k = Keys()
    yield k, k.ack(k.message(1, 7, b"hello"), 4), SECOND
    # a segment's end
    k = Keys()
    yield k, k.segment(2, ZEROS, [(4, CHECKPOINT, u64(0))]), SECOND


def of_statements():
    """What holds a statement, beside another one on its number, and beside a segment that has another entry there."""
    for k, item, said in holders():
        yield [item, k.auth(2, 4, TWOS)], said
        yield [item, k.log_from(3)], said


class Parts:
    """Node 2's log, which receives two messages of node 1, in parts that overlap."""

    def __init__(self):
        self.keys = k = Keys()
        self.message = k.message(1, 8, b"Y")
        received = [(2, RECV, k.message(1, 7, b"X").quote()), (4, RECV, self.message.quote())]
        self.log = sorted([*received, *((seq, kind, content) for seq, kind, content in LOG if seq not in (2, 4))])

    def part(self, first, last):
        return self.keys.segment(2, end_of(sha256(), self.log[: first - 1]), self.log[first - 1 : last])

    def logged(self, place):
        return place, end_of(sha256(), self.log[:place])


def of_parts():
    """Items that speak of one log, each list in the order of signing, and what a store says that has them."""
    p = Parts()
    k = p.keys
    # demands for the second message and for the log's end, and parts that overlap each other: each shows the message, and the last one
    # the end
    demands = [demand(p.message), k.audit(p.logged(4), p.logged(6))]
    parts = [p.part(1, 4), p.part(3, 5), p.part(3, 6)]
    # statements with other hashes: on the last entry, which contradicts the last part alone, and on the message, which each part quotes;
    # and the entries of the second part behind another hash
    last, sent, other = k.auth(2, 6, ONES), k.auth(1, 8, ONES), k.segment(2, ONES, p.log[2:5])
    yield [*demands, *parts[:2]], OPEN
    yield [*demands, *parts], NOTHING
    yield [last, *parts], SECOND
    yield [sent, *parts], FIRST
    yield [parts[1], other], SECOND
    yield [*demands, last, sent, *parts, other], BOTH


def orders(items):
    """What two witnesses take of the items: all of them, in their order and in the opposite one; every other one each; and all of them from
    the middle on, beside the first alone."""
    middle = len(items) // 2
    yield items, items[::-1]
    yield items[::2], items[1::2]
    yield [*items[middle:], *items[:middle]], items[:1]


def store(first, second, said):
    """The line of two witnesses that took these items."""
    items = {*first, *second}
    return f"store {spell(first)} {spell(second)} {len(items)} {said} {sha256(export(items)).hex()}"


def lines():
    yield "directory " + directory(Keys()).hex()
    # each set of items, taken by both witnesses in two orders, and parted between them
    for items, said in cases():
        yield store(items, items[::-1], said)
        yield store(items[:1], items[1:], said)
    # what is quoted, alone and beside the log of its sender
    message, log = sending()
    for segment, said in quotes(message):
        yield store([segment], [], said)
        yield store([segment], [log], said)
    # six items, taken by two witnesses in turns, doubled, or by one of them alone
    k = Keys()
    six = [*(k.auth(1, 5, ONES, c) for c in (0, 1, 9)), k.auth(1, 5, TWOS), k.log_from(3), k.auth(2, 4, ZEROS)]
    for first, second in (((0, 2, 4), (5, 3, 1)), ((5, 3, 1), (0, 2, 4)), ((4, 0, 5, 1), (5, 4, 3, 2, 1, 0)), ((2, 3, 4, 5, 0, 1), (3, 3)), ((), (1, 5, 0, 4, 2, 3))):
        yield store([six[i] for i in first], [six[i] for i in second], BOTH)
    yield store([], [], NOTHING)
    # one log in parts, in each of these orders
    for items, said in of_parts():
        for first, second in orders(items):
            yield store(first, second, said)
    # a text of two items, as it is written and as it was before there were second keys, cut off at each place, lengthened, and with its
    # items turned, before a store that has another one
    k = Keys()
    items = [k.auth(1, 5, ONES), k.auth(1, 5, TWOS)]
    for magic in (b"PRSTORE2", b"PRSTORE1"):
        yield f"cuts {spell([k.auth(2, 5, ONES)])} {export(items, magic).hex()} {16 + 4 + len(items[0])}"


def spell(items):
    return ",".join(item.hex() for item in items) or "-"


HEAD = "# What stores say of items, as checks/reference/stores.py writes it.\n"


def main():
    path = os.path.join(os.path.dirname(os.path.abspath(__file__)), "..", "..", "crates", "evidence_vectors", "stdin")
    text = "".join(line + "\n" for line in lines())
    with open(path, encoding="utf-8") as file:
        items, head, stores = file.read().partition(HEAD)
    if "--write" in sys.argv:
        stores = text
        with open(path, "w", encoding="utf-8") as file:
            file.write(items + HEAD + text)
    same = head == HEAD and stores == text
    print("the lines are those of", path if same else "no file: they differ")
    sys.exit(not same)


if __name__ == "__main__":
    main()
