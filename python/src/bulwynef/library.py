"""The C interface, by ctypes."""

import contextlib
import ctypes
import enum
import operator
import os
from typing import Any, Dict, Iterator, List, NamedTuple, TypeVar

from .errors import Refusal
from .processes import Owned

Self = TypeVar("Self", bound="Opened")

U8, U32, U64, SIZE = ctypes.c_uint8, ctypes.c_uint32, ctypes.c_uint64, ctypes.c_size_t
OUT_OF_RANGE = 116


class Program(enum.IntEnum):
    """The programs that nodes follow."""

    TALLY = 1
    RELAY = 2
    MAILBOX = 3


class Handle(ctypes.Structure):
    _fields_ = [("at", ctypes.c_void_p), ("is_open", ctypes.c_bool)]


class Number(NamedTuple):
    """A number that a call takes: ctypes would cut it down to the bits of its type, so it is tested before."""

    name: str
    kind: Any

    @property
    def bits(self) -> int:
        return 8 * ctypes.sizeof(self.kind)

    def tested(self, word: Any) -> int:
        """The number, if the type has it."""
        number = operator.index(word)
        if not 0 <= number < 2**self.bits:
            raise ValueError(f"{self.name} {number} is not from 0 to {2**self.bits - 1}")
        return number


HANDLE, BYTES = ctypes.POINTER(Handle), ctypes.c_char_p
PROGRAM, NODE, SEQ, PLACE = Number("program", U8), Number("node", U32), Number("number", U64), Number("place", SIZE)
TEXT = [BYTES, Number("length", SIZE)]
KEY = [Number("LMS type", U32), Number("LM-OTS type", U32), *TEXT, *TEXT]
ROOM = [ctypes.POINTER(ctypes.c_char), Number("length", SIZE)]

# What each call takes; each but two answers the number of a refusal, or 0.
CALLS: Dict[str, List[Any]] = {
    "check_proof": [PROGRAM, *TEXT, *TEXT, ctypes.POINTER(U32)],
    "explain_proof": [PROGRAM, *TEXT, *TEXT, HANDLE],
    "statement_of": [*TEXT, PLACE, HANDLE],
    "audit_challenge": [*TEXT, *TEXT, HANDLE],
    "send_challenge": [*TEXT, HANDLE],
    "public_key": [*KEY, *ROOM],
    "store_open": [PROGRAM, *TEXT, HANDLE],
    "store_take": [HANDLE, *TEXT, ctypes.POINTER(U8)],
    "store_import": [HANDLE, *TEXT, ctypes.POINTER(U64)],
    "store_merge": [HANDLE, HANDLE, ctypes.POINTER(U64)],
    "store_includes": [HANDLE, HANDLE, ctypes.POINTER(U8)],
    "store_indication": [HANDLE, NODE, ctypes.POINTER(U8)],
    "store_proof": [HANDLE, NODE, HANDLE],
    "store_challenge": [HANDLE, NODE, PLACE, HANDLE],
    "store_explain": [HANDLE, HANDLE],
    "store_export": [HANDLE, HANDLE],
    "store_outline": [HANDLE, HANDLE],
    "store_summary": [HANDLE, HANDLE],
    "store_short_summary": [HANDLE, *TEXT, HANDLE],
    "store_pack": [HANDLE, *TEXT, HANDLE],
    "store_apply": [HANDLE, *TEXT, ctypes.POINTER(U64)],
    "node_new": [PROGRAM, *TEXT, NODE, Number("first number", U64), *KEY, HANDLE],
    "node_timer": [HANDLE, Number("moment", U64), *TEXT],
    "node_waiting": [HANDLE, PLACE, ctypes.POINTER(U64)],
    "node_message": [HANDLE, SEQ, HANDLE],
    "node_answer": [HANDLE, *TEXT, *TEXT, HANDLE],
    "node_history": [HANDLE, HANDLE],
    "node_accept_ack": [HANDLE, *TEXT],
    "node_checkpoint": [HANDLE, ctypes.POINTER(U64)],
    "node_remaining": [HANDLE, ctypes.POINTER(U32)],
    "node_next_key": [HANDLE, *KEY],
    "journal_block": [*TEXT, HANDLE],
    "journal_end": [*TEXT, ctypes.POINTER(SIZE)],
    "node_beginning": [PROGRAM, *TEXT, NODE, Number("first number", U64), *KEY, HANDLE],
    "record_timer": [Number("moment", U64), *TEXT, HANDLE],
    "record_answer": [*TEXT, *TEXT, HANDLE],
    "record_ack": [*TEXT, HANDLE],
    "record_checkpoint": [HANDLE],
    "record_next_key": [*KEY, HANDLE],
    "node_rebuild": [PROGRAM, *TEXT, *TEXT, *TEXT, HANDLE],
    "node_knows": [HANDLE, *TEXT, ctypes.POINTER(U8)],
    "text_copy": [HANDLE, *ROOM],
}


def load() -> ctypes.CDLL:
    """The shared library that BULWYNEF_LIBRARY names; else the one beside this file, as a wheel has it; else the system's."""
    beside = os.path.join(os.path.dirname(os.path.abspath(__file__)), "libbulwynef.so")
    try:
        library = ctypes.CDLL(os.environ.get("BULWYNEF_LIBRARY", beside if os.path.exists(beside) else "libbulwynef.so.1"))
    except OSError as error:
        raise ImportError(f"{error} (python/README.md says how it is built; BULWYNEF_LIBRARY may name it)") from None
    for name, takes in CALLS.items():
        call = getattr(library, "bulwynef_" + name)
        call.argtypes, call.restype = [it.kind if isinstance(it, Number) else it for it in takes], U8
    library.bulwynef_text_len.argtypes, library.bulwynef_text_len.restype = [HANDLE], SIZE
    library.bulwynef_close.argtypes, library.bulwynef_close.restype = [HANDLE], None
    return library


LIBRARY = load()


def call(name: str, *words: Any) -> None:
    """Calls the library with numbers that were tested; what is refused is raised."""
    takes = CALLS[name]
    if len(words) != len(takes):
        raise TypeError(f"{name} takes {len(takes)} words and not {len(words)}")
    tested = [it.tested(word) if isinstance(it, Number) else word for it, word in zip(takes, words)]
    number = getattr(LIBRARY, "bulwynef_" + name)(*tested)
    if number:
        raise Refusal(number)


def told(kind: Any, name: str, *words: Any) -> int:
    """A call that writes one number at its end."""
    room = kind()
    call(name, *words, ctypes.byref(room))
    return int(room.value)


def text(name: str, *words: Any) -> bytes:
    """A call that answers a text behind a handle at its end. The handle is closed before the room becomes bytes, so that no more than two
    copies of the text are there at once."""
    handle = Handle()
    call(name, *words, ctypes.byref(handle))
    try:
        length = LIBRARY.bulwynef_text_len(ctypes.byref(handle))
        room = ctypes.create_string_buffer(max(length, 1))
        call("text_copy", ctypes.byref(handle), room, length)
    finally:
        LIBRARY.bulwynef_close(ctypes.byref(handle))
    return room.raw[:length]


def each(at: Any) -> List[Any]:
    """What a call gives at each place, from 0 to the first at which there is nothing."""
    found: List[Any] = []
    while True:
        try:
            found.append(at(len(found)))
        except Refusal as refusal:
            if refusal.number != OUT_OF_RANGE:
                raise
            return found


class Opened(Owned):
    """What lies behind a handle: a context manager that closes it.

    Threads may share it: it has a lock, and one call at a time. A child that was forked off may not: a call there is a RuntimeError, as
    parent and child would sign by one leaf of a key."""

    def __init__(self) -> None:
        super().__init__()
        self._handle = Handle()

    @contextlib.contextmanager
    def _mine(self, *others: "Opened") -> Iterator[Any]:
        """The handle, while no other thread has it or the others."""
        with self._held(*others):
            yield ctypes.byref(self._handle)

    def _call(self, name: str, *words: Any) -> None:
        with self._mine() as at:
            call(name, at, *words)

    def _told(self, kind: Any, name: str, *words: Any) -> int:
        with self._mine() as at:
            return told(kind, name, at, *words)

    def _text(self, name: str, *words: Any) -> bytes:
        with self._mine() as at:
            return text(name, at, *words)

    def close(self) -> None:
        """Lets go of what lies behind the handle. What is closed stays closed; each later call is refused (110). In a child that was
        forked off it does nothing."""
        if self._is_mine():
            with self._held():
                LIBRARY.bulwynef_close(ctypes.byref(self._handle))

    def __enter__(self: Self) -> Self:
        return self

    def __exit__(self, *_: Any) -> None:
        self.close()

    def __del__(self) -> None:
        if hasattr(self, "_handle"):
            self.close()
