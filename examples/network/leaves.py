"""Which texts each leaf of each key signed, by all statements that stand in stores, in journals and in the nodes that are rebuilt of these.

LMS is stateful: whoever has two texts that one leaf signed may sign others by it. So no leaf of a node signs two, whatever was killed when.
"""

from collections import defaultdict

import protocol
from bulwynef import Refusal, Store, statement_of, statements_of


def entries_of(log):
    """The number, the kind and the content of each entry of a log."""
    at = 0
    while at < len(log):
        content, end = protocol.field(log, at + 9)
        yield int.from_bytes(log[at : at + 8], "big"), log[at + 8], content
        at = end


def quotes_in(segment):
    """The messages that a segment's RECV entries quote, genuinely or not."""
    receiver, count, at = segment[1:5], int.from_bytes(segment[37:41], "big"), 41
    for _ in range(count):
        kind = segment[at + 8]
        content, at = protocol.field(segment, at + 9)
        if kind == protocol.RECV:
            signature, end = protocol.field(content, 44)
            yield protocol.message_of(content[:4], receiver, content[4:44], signature, content[end:])


def statements_in_store(items, listed, program):
    """The statements of the items of a store, and those that its segments quote genuinely."""
    quotes = {}
    for item in items:
        yield from statements_of(item)
        if item[0] == protocol.SEGMENT:
            quotes.update(dict.fromkeys(quotes_in(item)))
    with Store(listed, program) as store:
        for message in quotes:
            try:
                store.take(message)
            except Refusal:
                continue
            yield statement_of(message)


def statements_in_journal(records, node):
    """The statements of others that the records of a node's journal have."""
    for record in records:
        if record[0] == protocol.RECEIVED:
            yield statement_of(protocol.received(record))
        elif record[0] == protocol.ACKNOWLEDGED:
            yield statement_of(protocol.acknowledged(record, node.message), 1)


def statements_of_node(records, node):
    """What a rebuilt node signed: each message that it sent, and each that it received, whose acknowledgement it gives again."""
    received = set()
    for seq, kind, content in entries_of(node.history()):
        if kind == protocol.SEND:
            yield statement_of(node.message(seq))
        elif kind == protocol.RECV:
            received.add(content[:12])
    for message in map(protocol.received, (record for record in records if record[0] == protocol.RECEIVED)):
        if message[1:5] + message[9:17] in received:
            yield statement_of(node.answer(message), 1)


def leaf_of(statement):
    """The node, the key and the leaf of a statement, and the text that is signed: a number and a hash."""
    signature = statement[49:]
    key, signature = (signature[0], signature[1:]) if len(signature) % 32 == 13 else (0, signature)
    return (int.from_bytes(statement[1:5], "big"), key, int.from_bytes(signature[:4], "big")), statement[5:45]


def signed_by_leaf(statements):
    """The texts that each leaf signed."""
    signed = defaultdict(set)
    for statement in statements:
        leaf, text = leaf_of(statement)
        signed[leaf].add(text)
    return signed


def signed_twice(statements):
    """The leaves that signed more than one text."""
    return sorted(leaf for leaf, texts in signed_by_leaf(statements).items() if len(texts) > 1)
