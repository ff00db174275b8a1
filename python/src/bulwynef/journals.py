"""Journals: a file of texts that a crash leaves whole, by the order of steps alone.

docs/FORMATS.md, "A journal's file", has the bytes. The steps are those of the proved crate `journal`. This code is not proved. It is for POSIX
alone: it locks a file by flock, and syncs a folder.
"""

import errno
import fcntl
import os
import stat
from typing import Any, Callable, Iterable, Iterator, List, Optional, Set, Union

from .errors import Refusal
from .processes import Owned

Path = Union[str, "os.PathLike[str]"]

# How many bytes the blocks of a group may take, how many a block has before its text, and from how many bytes on a journal is full
MOST_GROUP, HEAD, MOST_BYTES = 8_388_608, 9, 1 << 60
MOST_LENGTH = 2**32 - 1
CLOSED, OPEN = b"\x00", b"\xff"
GROUP_TOO_LONG, JOURNAL_FULL, DISK_FAILED, LOST, DAMAGED, HANDLE_CLOSED = 118, 119, 120, 121, 122, 110


class JournalInUse(Exception):
    """The journal's file is open already, in another process or in this one."""


def block_of(text: bytes) -> bytes:
    """The open block of a text."""
    return b"".join((OPEN, len(text).to_bytes(4, "big"), (MOST_LENGTH - len(text)).to_bytes(4, "big"), text))


def size_of(texts: Iterable[bytes]) -> int:
    """How many bytes the blocks of the texts take."""
    return sum(HEAD + len(text) for text in texts)


# ---- reading


class Reading:
    """A journal's file that is read once, from its beginning to its end. Nothing of it is changed."""

    def __init__(self, fd: int) -> None:
        about = os.fstat(fd)
        if not stat.S_ISREG(about.st_mode):
            raise ValueError("a journal is a regular file")
        self.fd, self.length, self.end = fd, about.st_size, 0

    def __iter__(self) -> Iterator[bytes]:
        """The texts, in order. A file that no crash leaves is refused (122), where that is met."""
        with open(self.fd, "rb", buffering=1 << 20, closefd=False) as file:
            file.seek(0)
            while True:
                head = file.read(HEAD)
                if len(head) < HEAD or head[:1] == CLOSED:
                    break
                size, lack = int.from_bytes(head[1:5], "big"), int.from_bytes(head[5:], "big")
                if size + lack != MOST_LENGTH or self.length - self.end - HEAD < size:
                    raise Refusal(DAMAGED)
                text = file.read(size)
                if len(text) != size:
                    raise Refusal(DAMAGED)
                self.end += HEAD + size
                yield text
        if not self.ends_well(head):
            raise Refusal(DAMAGED)

    def ends_well(self, head: bytes) -> bool:
        """Whether a crash can leave what stands behind the blocks: of a new file at most one byte, else a closed gate, and behind it at most
        a group."""
        return self.length <= 1 or (head[:1] == CLOSED and self.length - self.end - 1 <= MOST_GROUP)


def texts_in(path: Path) -> List[bytes]:
    """The texts of a journal's file, to look at. The file is neither locked nor changed, so nobody may write it meanwhile."""
    fd = os.open(path, os.O_RDONLY)
    try:
        return list(Reading(fd))
    finally:
        os.close(fd)


# ---- the file


def write_at(fd: int, data: "bytes | memoryview", place: int) -> None:
    """Writes all of the bytes."""
    left = memoryview(data)
    while left:
        count = os.pwrite(fd, left, place)
        if count <= 0:
            raise OSError(errno.EIO, "nothing was written")
        left, place = left[count:], place + count


def sync_folder(path: Path) -> None:
    """Syncs the folder of a file, so that the file's name is there after a crash."""
    fd = os.open(os.path.dirname(os.path.abspath(path)), os.O_RDONLY)
    try:
        os.fsync(fd)
    finally:
        os.close(fd)


def lock(fd: int, path: Path) -> None:
    """Locks a file until it is closed, against everybody who locks it too."""
    try:
        fcntl.flock(fd, fcntl.LOCK_EX | fcntl.LOCK_NB)
    except BlockingIOError:
        raise JournalInUse(f"{os.fspath(path)} is in use: another process has this journal open, or this one has it open already") from None


class Files:
    """The files of this process's journals. A child that is forked off closes its copies: else it would hold the locks of its parent."""

    fds: Set[int] = set()

    @classmethod
    def let_go(cls, fd: int) -> None:
        cls.fds.discard(fd)
        os.close(fd)

    @classmethod
    def has_forked(cls) -> None:
        while cls.fds:
            os.close(cls.fds.pop())


os.register_at_fork(after_in_child=Files.has_forked)


# ---- the journal


class Journal(Owned):
    """A file of texts. At the end of `append` its texts are on the disk, and after a crash they are there all or not at all.

    It is locked as long as it is open: a second one, here or in another process, is a `JournalInUse`. Threads may share it. A child that
    was forked off may not: a call there is a RuntimeError."""

    _what = "journal"

    def __init__(self, path: Path, read: Optional[Callable[[Iterator[bytes]], Any]] = None) -> None:
        """Opens the file, or makes it, for its owner alone. All of it is read: `texts` are the texts that it has, or `read` is given them one
        after the other. Only then the end is cut off that a crash tore. A file that no crash leaves is refused (122). Where it is refused,
        or where `read` raises, nothing of it was changed."""
        super().__init__()
        self.texts: List[bytes] = []
        self._fd, self._end, self._closed_by = -1, 0, HANDLE_CLOSED
        fd = os.open(path, os.O_RDWR | os.O_CREAT | os.O_CLOEXEC, 0o600)
        Files.fds.add(fd)
        try:
            lock(fd, path)
            # What is read is on the disk then.
            os.fsync(fd)
            sync_folder(path)
            reading = Reading(fd)
            texts = iter(reading)
            (read or self.texts.extend)(texts)
            for _ in texts:
                pass
            settle(fd, reading)
        except BaseException:
            Files.let_go(fd)
            raise
        self._fd, self._end, self._closed_by = fd, reading.end, 0

    @property
    def length(self) -> int:
        """How many bytes its blocks take."""
        return self._end

    @property
    def closed_by(self) -> int:
        """0 while it is open; 110 once it was closed, 121 once a group was lost."""
        return self._closed_by

    def append(self, texts: Iterable[bytes]) -> None:
        """Adds texts, as one group. When it is done they are on the disk.

        A group that is too long (118) or one for which there is no room (119) is refused, and nothing has changed. Where a write of the
        group failed, and what was written of it could be cut off and synced, that is 120: nothing has changed, and it may be tried again.
        Where anything else failed, as a sync, it is 121: the group is there whole or not at all, and the journal is closed for good. Then
        each call is refused (121). Whoever opens the file again has what is in it."""
        group = b"".join([*map(block_of, texts), CLOSED])
        with self._held():
            if self._closed_by:
                raise Refusal(self._closed_by)
            if len(group) - 1 > MOST_GROUP:
                raise Refusal(GROUP_TOO_LONG)
            if self._end >= MOST_BYTES:
                raise Refusal(JOURNAL_FULL)
            if len(group) > 1:
                self._add(group)

    def _add(self, group: bytes) -> None:
        """Writes a group. The journal counts as lost until it is known what became of it."""
        self._closed_by = LOST
        try:
            self._stage(group)
            os.fsync(self._fd)
            write_at(self._fd, OPEN, self._end)
            os.fsync(self._fd)
            self._end += len(group) - 1
            self._closed_by = 0
        except OSError as error:
            raise Refusal(LOST) from error
        finally:
            if self._closed_by:
                self._let_go()

    def _stage(self, group: bytes) -> None:
        """Writes a group behind the closed gate, which stands in the place of the first block's. Where that fails, what was written is cut
        off."""
        try:
            write_at(self._fd, memoryview(group)[1:], self._end + 1)
        except OSError as error:
            os.ftruncate(self._fd, self._end + 1)
            os.fsync(self._fd)
            self._closed_by = 0
            raise Refusal(DISK_FAILED) from error

    def _let_go(self) -> None:
        """Closes the file, which gives up the lock."""
        fd, self._fd = self._fd, -1
        if fd >= 0:
            Files.let_go(fd)

    def close(self) -> None:
        """Closes the file. What is closed stays closed; a later `append` is refused (110). In a child that was forked off it does nothing."""
        if self._is_mine():
            with self._held():
                self._closed_by = self._closed_by or HANDLE_CLOSED
                self._let_go()

    def __enter__(self) -> "Journal":
        return self

    def __exit__(self, *_: Any) -> None:
        self.close()

    def __del__(self) -> None:
        if hasattr(self, "_closed_by"):
            self.close()


def settle(fd: int, reading: Reading) -> None:
    """Leaves a closed gate behind the blocks of a file that was read, and nothing behind it."""
    if reading.length <= 1:
        write_at(fd, CLOSED, 0)
        os.fsync(fd)
    elif reading.length > reading.end + 1:
        os.ftruncate(fd, reading.end + 1)
        os.fsync(fd)
