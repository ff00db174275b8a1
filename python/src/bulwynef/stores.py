"""Stores of evidence, and proofs."""

import ctypes
import enum
from typing import Any, List, Optional

from .errors import Refusal
from .library import U8, U32, U64, Opened, Program, call, each, text, told

NOT_EXPOSED = 115


class Indication(enum.IntEnum):
    """What the items of a store say of a node. 0 is none of them."""

    TRUSTED = 1
    SUSPECTED = 2
    EXPOSED = 3


def check_proof(directory: bytes, proof: bytes, program: Program) -> int:
    """The node that the proof convicts before anybody who has the directory and the program."""
    return told(U32, "check_proof", program, directory, len(directory), proof, len(proof))


def explain_proof(directory: bytes, proof: bytes, program: Program) -> str:
    """The lines `program NAME` and `directory SUM` (SHA-256); then whom the proof convicts under these, and why, for a person to read."""
    return text("explain_proof", program, directory, len(directory), proof, len(proof)).decode()


class Store(Opened):
    """A set of items of evidence under a directory, of nodes that follow a program. Stores of the same items export the same bytes."""

    def __init__(self, directory: bytes, program: Program) -> None:
        super().__init__()
        with self._mine() as at:
            call("store_open", program, directory, len(directory), at)

    def take(self, item: bytes) -> bool:
        """Adds an item; whether it is new."""
        return self._told(U8, "store_take", item, len(item)) == 1

    def load(self, export: bytes) -> int:
        """Adds the items of an export, all or none; how many are new."""
        return self._told(U64, "store_import", export, len(export))

    def merge(self, other: "Store") -> int:
        """Adds the items of another store, all or none; how many are new."""
        return self._of_two(U64, "store_merge", other, 0)

    def includes(self, other: "Store") -> bool:
        """Whether each item of the other store is here."""
        return self._of_two(U8, "store_includes", other, 1) == 1

    def _of_two(self, kind: Any, name: str, other: "Store", of_itself: int) -> int:
        """What the library tells of two stores, which it refuses of one handle that is given twice."""
        with self._mine(other) as at:
            is_one = other is self and self._handle.is_open
            return of_itself if is_one else told(kind, name, at, ctypes.byref(other._handle))

    def indication(self, node: int) -> Indication:
        """What the items say of a node."""
        return Indication(self._told(U8, "store_indication", node))

    def proof(self, node: int) -> Optional[bytes]:
        """A proof that convicts the node, where the items expose it."""
        try:
            return self._text("store_proof", node)
        except Refusal as refusal:
            if refusal.number != NOT_EXPOSED:
                raise
            return None

    def challenges(self, node: int) -> List[bytes]:
        """The challenges against a node that no item answers, in the order of their bytes."""
        with self._mine() as at:
            return each(lambda place: text("store_challenge", at, node, place))

    def explain(self) -> str:
        """The lines `program NAME` and `directory SUM` (SHA-256); then what the items say under these of each listed node, and why, for a person
        to read."""
        return self._text("store_explain").decode()

    def export(self) -> bytes:
        """The one text of the items."""
        return self._text("store_export")

    def outline(self) -> bytes:
        """The digest of each of the 256 buckets of items."""
        return self._text("store_outline")

    def summary(self, outline: Optional[bytes] = None) -> bytes:
        """What the store has: all of it, or against another store's outline."""
        if outline is None:
            return self._text("store_summary")
        return self._text("store_short_summary", outline, len(outline))

    def pack(self, summary: bytes) -> bytes:
        """The items that another store's summary does not name."""
        return self._text("store_pack", summary, len(summary))

    def apply(self, pack: bytes) -> int:
        """Adds the items of a pack, all or none; how many are new."""
        return self._told(U64, "store_apply", pack, len(pack))
