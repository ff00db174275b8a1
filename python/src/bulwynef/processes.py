"""What belongs to one process: threads may share it, and a child that is forked off may not use it."""

import contextlib
import itertools
import os
import threading
from typing import Any, Iterator, Tuple


class Process:
    """How often this process and those that it was forked off were forked off."""

    forks = 0

    @classmethod
    def has_forked(cls) -> None:
        cls.forks += 1

    @classmethod
    def name(cls) -> Tuple[int, int]:
        """This process and none before it; the system's number alone may come again."""
        return os.getpid(), cls.forks


os.register_at_fork(after_in_child=Process.has_forked)


class Owned:
    """What one process owns. Threads may share it: it has a lock, and one call at a time. In a child that was forked off each call is a
    RuntimeError."""

    # what it is called where it is refused
    _what = "handle"
    _made = itertools.count()

    def __init__(self) -> None:
        self._lock, self._process, self._number = threading.RLock(), Process.name(), next(Owned._made)

    def _is_mine(self) -> bool:
        """Whether this process made it."""
        return self._process == Process.name()

    @contextlib.contextmanager
    def _held(self, *others: "Owned") -> Iterator[None]:
        """While no other thread has it or the others, which every thread takes in one order."""
        for it in (self, *others):
            if not it._is_mine():
                raise RuntimeError(f"this {self._what} was opened before fork, and is its parent's: open another one here, with a key of its own")
        with contextlib.ExitStack() as held:
            for it in sorted((self, *others), key=lambda it: it._number):
                held.enter_context(it._lock)
            yield

    def __copy__(self) -> "Owned":
        raise TypeError(f"a {self._what} is not copied: open another one")

    def __deepcopy__(self, _: Any) -> "Owned":
        raise TypeError(f"a {self._what} is not copied: open another one")

    def __reduce__(self) -> Any:
        raise TypeError(f"a {self._what} is not pickled: it is of one process")
