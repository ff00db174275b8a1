"""Stores and nodes that survive their process: each has a journal, and what it acknowledged is on the disk.

docs/FORMATS.md, "A journal of items" and "A node's journal", has the texts. The library makes them and rebuilds nodes of them. That this
code keeps the order of the steps is not proved.
"""

import contextlib
import ctypes
import hashlib
import os
from typing import Any, Dict, Iterable, Iterator, List, Optional, Sequence, Set, Tuple, Union

from .errors import Refusal
from .items import statements_of
from .journals import GROUP_TOO_LONG, HANDLE_CLOSED, HEAD, LOST, MOST_GROUP, Journal, Path, block_of, size_of
from .library import NODE, U8, U64, Opened, Program, call, text, told
from .nodes import Key, Node
from .stores import Store

BAD_ACK, MEMORY, OTHER_PROGRAM, OTHER_DIRECTORY, BAD_ITEM, EMPTY_JOURNAL, OTHER_KEY, ENDED = 38, 99, 123, 124, 125, 126, 128, 130
# the kind of a RECV entry, and the tag of a message
RECV, MESSAGE = 3, 4


class Kept(Opened):
    """What lies behind a handle, and is kept in a journal. It is closed for good where it could say something else than its journal does:
    from then on each call is refused by the number that closed it."""

    # by what a call closes it that does not end behind what it wrote
    _ends_by = LOST
    _journal: Optional[Journal] = None
    _closed_by = 0

    @contextlib.contextmanager
    def _mine(self, *others: Opened) -> Iterator[Any]:
        with super()._mine(*others) as at:
            if self._closed_by:
                raise Refusal(self._closed_by)
            yield at

    @contextlib.contextmanager
    def _keeping(self, *others: Opened) -> Iterator[Tuple[Journal, Any]]:
        """The journal and the handle, for a call that writes and then does. Until the call has ended, this counts as closed for good: whatever
        stops it, an interrupt too, leaves it so. It is open again where nothing was written, or where what was written was done."""
        with self._mine(*others) as at:
            journal = self._journal
            assert journal is not None
            before, self._closed_by = journal.length, self._ends_by
            try:
                yield journal, at
                self._closed_by = 0
            except Refusal as refusal:
                if not journal.closed_by and (journal.length == before or self._is_answer(refusal)):
                    self._closed_by = 0
                    raise
                self._closed_by = journal.closed_by or self._ends_by
                if refusal.number == self._closed_by:
                    raise
                raise Refusal(self._closed_by) from refusal
            finally:
                if self._closed_by:
                    self.close()

    def _is_answer(self, refusal: Refusal) -> bool:
        """Whether a call that is refused so behind what it wrote is done with that."""
        return False

    @property
    def closed_by(self) -> int:
        """The number by which each call is refused; 0 while it is open. Whoever finds 121 or 130 ends the process, and starts it again."""
        return self._closed_by

    def close(self) -> None:
        """Lets go of what lies behind the handle, and of the journal. What is closed stays closed; each later call is refused (110). In a
        child that was forked off it does nothing."""
        super().close()
        if self._is_mine():
            with self._held():
                self._closed_by = self._closed_by or HANDLE_CLOSED
                if self._journal is not None:
                    self._journal.close()


# ---- stores


def digest(item: bytes) -> bytes:
    return hashlib.sha256(item).digest()


def items_in(container: bytes) -> Iterator[bytes]:
    """The items of a container that the library took or made: behind eight bytes and a count, each behind its length."""
    at = 16
    while at < len(container):
        end = at + 4 + int.from_bytes(container[at : at + 4], "big")
        yield container[at + 4 : end]
        at = end


def encoding_of(directory: bytes) -> bytes:
    """The encoding of a directory that the library read: an older text (`PRDIRECT`) has another one."""
    if directory[:8] != b"PRDIRECT":
        return directory
    nodes = [directory[at : at + 60] for at in range(12, len(directory), 60)]
    return b"".join([b"PRDIREC2", directory[8:12], *(node[:4] + b"\1" + node[4:] for node in nodes)])


def groups_of(texts: Iterable[bytes], basis: List[bytes]) -> List[List[bytes]]:
    """The texts in groups that a journal takes, the basis in the first one. One that no group can have is refused (118)."""
    groups, size, is_alone = [[*basis]], size_of(basis), True
    for it in texts:
        if size + HEAD + len(it) > MOST_GROUP:
            if is_alone:
                raise Refusal(GROUP_TOO_LONG)
            groups.append([])
            size, is_alone = 0, True
        if HEAD + len(it) > MOST_GROUP:
            raise Refusal(GROUP_TOO_LONG)
        size, is_alone = size + HEAD + len(it), False
        groups[-1].append(it)
    return groups


class KeptStore(Kept, Store):
    """A store whose items are in a journal. What a call acknowledged is on the disk, and no question is answered from an item that is not.

    A group of items is checked first, then written and synced, and then taken. Where it is refused, nothing has changed, with 120 too, as
    behind a disk that is full: it may be tried again. An item that is longer than a group may be is refused (118). After 121 the store is
    closed for good, and so it is where a call is interrupted. Beside the store, each item takes some 100 bytes here."""

    def __init__(self, path: Path, program: Program, directory: bytes) -> None:
        """Opens the journal of a store, or begins it. Each of its items is checked again. A journal of another program (123) or of another
        directory (124) is refused, and one with a text that is no valid item (125); nothing of the file was changed then."""
        super().__init__(directory, program)
        self._directory, self._program = directory, program
        self._basis = [b"PRKEPT01" + Program(program).name.lower().encode(), encoding_of(directory)]
        self._known: Set[bytes] = set()
        try:
            self._journal = Journal(path, self._read)
        except BaseException:
            self.close()
            raise

    def _read(self, texts: Iterator[bytes]) -> None:
        """Takes what stands in the journal."""
        first = next(texts, None)
        if first is None:
            return
        if first != self._basis[0]:
            raise Refusal(OTHER_PROGRAM)
        if next(texts, None) != self._basis[1]:
            raise Refusal(OTHER_DIRECTORY)
        for place, item in enumerate(texts, 2):
            try:
                super().take(item)
            except Refusal as refusal:
                if refusal.number == MEMORY:
                    raise
                raise Refusal(BAD_ITEM, place) from refusal
            self._known.add(digest(item))
        self._basis = []

    def _checking(self) -> Store:
        """A store for items that are checked."""
        return Store(self._directory, self._program)

    def take(self, item: bytes) -> bool:
        """Adds an item; whether it is new."""
        with self._mine():
            name = digest(item)
            if name in self._known:
                return False
            with self._checking() as checked:
                checked.take(item)
                self._keep(checked, {name: item}, [[*self._basis, item]])
                return True

    def take_all(self, items: Iterable[bytes]) -> List[Union[bool, Refusal]]:
        """Adds items as one group, with one pair of syncs. Of each it tells whether it is new, or the refusal of it; the others are taken.
        Where the new ones take more than a group may, that is refused (118), and none is taken."""
        with self._mine(), self._checking() as checked:
            told_of, new = [], {}
            for item in items:
                name = digest(item)
                is_new: Union[bool, Refusal] = name not in self._known and name not in new
                if is_new:
                    try:
                        checked.take(item)
                        new[name] = item
                    except Refusal as refusal:
                        if refusal.number == MEMORY:
                            raise
                        is_new = refusal
                told_of.append(is_new)
            if new:
                self._keep(checked, new, [[*self._basis, *new.values()]])
            return told_of

    def load(self, export: bytes) -> int:
        """Adds the items of an export; how many are new. Where it is refused by anything but 121, none is added. They may be more than one group:
        121 or a crash may leave the first of these on the disk."""
        with self._mine(), self._checking() as checked:
            checked.load(export)
            return self._keep_all(checked, items_in(export))

    def apply(self, pack: bytes) -> int:
        """Adds the items of a pack, as `load` does; how many are new."""
        with self._mine(), self._checking() as checked:
            checked.apply(pack)
            return self._keep_all(checked, items_in(pack))

    def merge(self, other: Store) -> int:
        """Adds the items of another store, as `load` does; how many are new."""
        with self._mine(other), self._checking() as empty:
            # It adds nothing there, and is refused where the other store is under another directory, before anything is written.
            Store.merge(other, empty)
            if self.includes(other):
                return 0
            return self._keep_all(other, items_in(other.pack(self.summary())))

    def _keep_all(self, source: Store, items: Iterable[bytes]) -> int:
        """Keeps those of the items that are new, which the source has; how many."""
        new = {name: item for name, item in ((digest(item), item) for item in items) if name not in self._known}
        if new:
            self._keep(source, new, groups_of(new.values(), [*self._basis]))
        return len(new)

    def _keep(self, source: Store, new: Dict[bytes, bytes], groups: List[List[bytes]]) -> None:
        """Writes the new items in groups, and takes them of the source, which checked them."""
        with self._keeping(source) as (journal, at):
            for group in groups:
                journal.append(group)
            told(U64, "store_merge", at, ctypes.byref(source._handle))
            self._known.update(new)
            self._basis = []


# ---- nodes


def received_in(history: bytes) -> Iterator[Tuple[bytes, bytes]]:
    """The sender and the number of each message that was received, by the entries of a log as a segment has them."""
    at = 0
    while at < len(history):
        kind, start = history[at + 8], at + 13
        if kind == RECV:
            yield history[start : start + 4], history[start + 4 : start + 12]
        at = start + int.from_bytes(history[at + 9 : start], "big")


class KeptNode(Kept, Node):
    """A node with a journal: a process that opens it again has the node as it was.

    What the node is given is written and synced before it is given to it, and only then is answered. So each leaf of its keys signs one
    text, whatever is killed when. A message that is not valid is refused before, so strangers write nothing into the journal. Where memory
    runs out behind a record, or the call does not end, the node is closed for good (130): open it again."""

    def __init__(
        self, path: Path, program: Program, directory: bytes, node: int, keys: Sequence[Key], first_seq: int = 1, may_begin: bool = False
    ) -> None:
        """Rebuilds the node of its journal. `keys` are all keys that it has or may go over to; a new node begins by the first.

        A journal without a text is refused (126), unless the node may begin: say so when it starts for the first time, and never else. A
        node that begins again without its journal signs other texts by the same leaves, and anybody who sees both can sign as the node. The
        same holds of an old copy of a journal: `is_safe_to_resume`.

        Refused as the header says (bulwynef_node_rebuild), and where the journal is another node's (ValueError). Nothing of the file was
        changed then."""
        Opened.__init__(self)
        if len({key.key_id for key in keys}) < len(keys) or not keys:
            raise ValueError("a node has at least one key, and each has an identifier of its own")
        self._listed, self._program, self._node, self._keys = directory, program, NODE.tested(node), list(keys)
        self._received: Set[Tuple[bytes, bytes]] = set()
        self._first: Optional[bytes] = None
        try:
            self._journal = Journal(path, lambda texts: self._rebuild(list(texts), first_seq, may_begin))
            if self._first is not None:
                self._journal.append([self._first])
        except BaseException:
            self.close()
            raise

    def _rebuild(self, texts: List[bytes], first_seq: int, may_begin: bool) -> None:
        """Makes the node of the texts of its journal. A new one is made of the text that is to be written."""
        program, directory, node = self._program, self._listed, self._node
        if not texts and not may_begin:
            raise Refusal(EMPTY_JOURNAL)
        if not texts:
            self._first = text("node_beginning", program, directory, len(directory), node, first_seq, *self._keys[0].words())
            texts = [self._first]
        began = texts[0]
        if began[:8] == b"PRNODEJ1" and began[8:12] != node.to_bytes(4, "big"):
            raise ValueError(f"the journal is of node {int.from_bytes(began[8:12], 'big')}, and not of node {node}")
        secrets, journal = b"".join(key.key_id + key.seed for key in self._keys), b"".join([*map(block_of, texts), b"\0"])
        with self._mine() as at:
            call("node_rebuild", program, directory, len(directory), secrets, len(secrets), journal, len(journal), at)
        self._received.update(received_in(self.history()))

    def _checked(self, item: bytes) -> None:
        """Refuses an item that is not valid under the directory."""
        with Store(self._listed, self._program) as store:
            store.take(item)

    _ends_by = ENDED

    def _is_answer(self, refusal: Refusal) -> bool:
        """The node's own refusal leaves it as it was, and is so of the rebuilt one. Want of memory is no answer."""
        return refusal.number != MEMORY

    @contextlib.contextmanager
    def _given(self, record: bytes) -> Iterator[Any]:
        """The handle, for the call that the record tells, once the record is on the disk."""
        with self._keeping() as (journal, at):
            journal.append([record])
            yield at

    def timer(self, moment: int, entropy: Optional[bytes] = None) -> None:
        entropy = os.urandom(32) if entropy is None else entropy
        with self._given(text("record_timer", moment, entropy, len(entropy))) as at:
            call("node_timer", at, moment, entropy, len(entropy))

    def timer_all(self, moments: Iterable[int]) -> List[Optional[Refusal]]:
        """The timer ticks at each of the moments. Their records are one group, with one pair of syncs. Of each it tells the refusal, if there
        is one."""
        ticks = [(moment, os.urandom(32)) for moment in moments]
        records = [text("record_timer", moment, entropy, len(entropy)) for moment, entropy in ticks]
        if not records:
            return []
        with self._keeping() as (journal, at):
            journal.append(records)
            return [self._ticked(at, moment, entropy) for moment, entropy in ticks]

    def _ticked(self, at: Any, moment: int, entropy: bytes) -> Optional[Refusal]:
        """The node's own refusal of a tick, if there is one."""
        try:
            call("node_timer", at, moment, entropy, len(entropy))
        except Refusal as refusal:
            if not self._is_answer(refusal):
                raise
            return refusal
        return None

    def answer(self, challenge: bytes, entropy: Optional[bytes] = None) -> bytes:
        """To a message its acknowledgement, to an audit a segment of the log; what was answered before, as it was. An audit, and what was
        answered before, change nothing of the node, and are not recorded."""
        with self._mine():
            self._checked(challenge)
            name = challenge[1:5], challenge[9:17]
            is_new = challenge[0] == MESSAGE and challenge[5:9] == self._node.to_bytes(4, "big") and name not in self._received
            entropy = os.urandom(32) if entropy is None else entropy
            if not is_new:
                return super().answer(challenge, entropy)
            with self._given(text("record_answer", challenge, len(challenge), entropy, len(entropy))) as at:
                answer = text("node_answer", at, challenge, len(challenge), entropy, len(entropy))
            self._received.add(name)
            return answer

    def accept_ack(self, ack: bytes) -> None:
        with self._mine():
            record = text("record_ack", ack, len(ack))
            try:
                self._checked(ack)
            except Refusal as refusal:
                raise Refusal(refusal.number if refusal.number == MEMORY else BAD_ACK) from refusal
            seq = int.from_bytes(ack[9:17], "big")
            if seq not in self.waiting():
                return super().accept_ack(ack)
            message = self.message(seq)
            if ack[1 : len(message)] != message[1:]:
                # The record lacks the message, so an acknowledgement of another one must not be recorded.
                raise Refusal(BAD_ACK)
            with self._given(record) as at:
                call("node_accept_ack", at, ack, len(ack))

    def checkpoint(self) -> int:
        with self._given(text("record_checkpoint")) as at:
            return told(U64, "node_checkpoint", at)

    def next_key(self, key: Key) -> None:
        """Signs by another of the keys with which it was opened (else 128) from now on."""
        if key not in self._keys:
            raise Refusal(OTHER_KEY)
        with self._given(text("record_next_key", *key.words())) as at:
            call("node_next_key", at, *key.words())

    def is_safe_to_resume(self, items: Iterable[bytes]) -> bool:
        """Whether the node may go on, by what witnesses hold of it: whether it signed the number and the hash of each valid statement of it
        that stands in these items.

        Where it is false, the journal is an old one: the node went on behind its end, and signed. Then no key of it may ever sign again.
        True says no more than that these items show nothing else. So ask all witnesses, or never go back to a copy."""
        me = self._node.to_bytes(4, "big")
        with self._mine(), Store(self._listed, self._program) as store:
            for statement in (it for item in items for it in statements_of(item) if it[1:5] == me):
                try:
                    store.take(statement)
                except Refusal as refusal:
                    if refusal.number == MEMORY:
                        raise
                    continue
                if not self._told(U8, "node_knows", statement, len(statement)):
                    return False
        return True
