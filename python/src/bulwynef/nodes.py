"""Nodes and their keys."""

import ctypes
import os
from typing import Dict, List, NamedTuple, Optional, Sequence

from .library import NODE, U8, U32, U64, Number, Opened, Program, call, each, told

KEY_LEN = 56
KEYS = Number("the count of a node's keys", U8)


class Key(NamedTuple):
    """A seed and what else makes a key (RFC 8554): trees of H5 (5) sign 32 statements, of H10 (6) 1,024. A seed signs in one node, in
    one process, once."""

    key_id: bytes
    seed: bytes
    lms_type: int = 5
    ots_type: int = 4

    @classmethod
    def new(cls, lms_type: int = 5, ots_type: int = 4) -> "Key":
        """A key of random bytes."""
        return cls(os.urandom(16), os.urandom(32), lms_type, ots_type)

    def __repr__(self) -> str:
        """All but the seed."""
        return f"Key(key_id={self.key_id!r}, seed=..., lms_type={self.lms_type!r}, ots_type={self.ots_type!r})"

    def words(self) -> List[object]:
        return [self.lms_type, self.ots_type, self.key_id, len(self.key_id), self.seed, len(self.seed)]

    def public(self) -> bytes:
        """The 56 bytes of the public key, as a directory has them."""
        room = ctypes.create_string_buffer(KEY_LEN)
        call("public_key", *self.words(), room, KEY_LEN)
        return room.raw


def directory(nodes: Dict[int, Sequence[bytes]]) -> bytes:
    """The text of a directory of nodes, each with its public keys, one to eight."""
    parts = [b"PRDIREC2", len(nodes).to_bytes(4, "big")]
    for node, keys in nodes.items():
        if any(len(key) != KEY_LEN for key in keys):
            raise ValueError(f"a key of node {node} has not {KEY_LEN} bytes")
        parts += [NODE.tested(node).to_bytes(4, "big"), bytes([KEYS.tested(len(keys))]), *keys]
    return b"".join(parts)


class Node(Opened):
    """A node that follows its program, logs what comes and goes, and signs it. It does not outlive its process, as `KeptNode` does: its
    keys must not sign in another one, and a child that is forked off is refused it."""

    def __init__(self, directory: bytes, me: int, key: Key, program: Program, first_seq: int = 1) -> None:
        super().__init__()
        with self._mine() as at:
            call("node_new", program, directory, len(directory), me, first_seq, *key.words(), at)

    def timer(self, moment: int, entropy: Optional[bytes] = None) -> None:
        """The timer ticks; what the node sends waits."""
        entropy = os.urandom(32) if entropy is None else entropy
        self._call("node_timer", moment, entropy, len(entropy))

    def waiting(self) -> List[int]:
        """The numbers of the messages that wait for their acknowledgements."""
        with self._mine() as at:
            return each(lambda place: told(U64, "node_waiting", at, place))

    def message(self, seq: int) -> bytes:
        """A message that was sent, as a challenge to acknowledge it."""
        return self._text("node_message", seq)

    def answer(self, challenge: bytes, entropy: Optional[bytes] = None) -> bytes:
        """To a message its acknowledgement, to an audit a segment of the log; what was answered before, as it was. Where 99 is raised, the
        node may have received the message: the same call again answers it."""
        entropy = os.urandom(32) if entropy is None else entropy
        return self._text("node_answer", challenge, len(challenge), entropy, len(entropy))

    def history(self) -> bytes:
        """The entries of the log, from the first to the last, each as a segment has it. Nothing is signed for it."""
        return self._text("node_history")

    def accept_ack(self, ack: bytes) -> None:
        """Accepts an acknowledgement that a store takes too, of just the message that was sent: the message waits no longer. Any other is
        refused (38)."""
        self._call("node_accept_ack", ack, len(ack))

    def checkpoint(self) -> int:
        """Logs a checkpoint, from which an audit can begin; its number."""
        return self._told(U64, "node_checkpoint")

    def remaining(self) -> int:
        """How many statements the key in use still signs."""
        return self._told(U32, "node_remaining")

    def next_key(self, key: Key) -> None:
        """Signs by another of the node's keys from now on."""
        self._call("node_next_key", *key.words())
