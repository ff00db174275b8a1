"""Items of evidence that a witness makes of others. Nothing is verified here: a store verifies what it takes."""

from typing import List, Optional

from .library import each, text


def statement_of(item: bytes, place: int = 0) -> bytes:
    """One of the statements that an item has; 116 where there are fewer."""
    return text("statement_of", item, len(item), place)


def statements_of(item: bytes) -> List[bytes]:
    """The signed statements that an item has, as items of tag 1: of a message that of its sender, of an acknowledgement that of its message's
    sender and that of the receiver, of a segment that of its last entry, of an audit challenge those that it names, of a statement itself."""
    return each(lambda place: statement_of(item, place))


def audit_challenge(last: bytes, first: Optional[bytes] = None) -> bytes:
    """The demand for a node's log up to the entry of a statement of its, from that of another one or from the beginning."""
    first = b"" if first is None else first
    return text("audit_challenge", first, len(first), last, len(last))


def send_challenge(message: bytes) -> bytes:
    """The demand to acknowledge the message of an item, a message or an acknowledgement."""
    return text("send_challenge", message, len(message))
