"""Disks that fail, and disks that a crash catches, for tests of journals: what stands in the place of `os` in bulwynef.journals."""

import errno
import os
import random

CHANGES = ("pwrite", "fsync", "ftruncate")


class Disk:
    """`os`, whose calls that change a file go through `does`."""

    def __getattr__(self, name):
        call = getattr(os, name)
        return (lambda *words: self.does(name, call, *words)) if name in CHANGES else call

    def does(self, name, call, *words):
        return call(*words)


class Fast(Disk):
    """Syncs nothing, where a test asks what stands in a file, and not whether it is on the disk."""

    def does(self, name, call, *words):
        return None if name == "fsync" else call(*words)


class Failing(Disk):
    """Lets a number of calls go well, and fails from the next one on, some times. A write that fails writes a part before."""

    def __init__(self, after, times=1, part=0.5):
        self.after, self.times, self.part, self.calls = after, times, part, []

    def does(self, name, call, *words):
        self.calls.append(name)
        if not self.after < len(self.calls) <= self.after + self.times:
            return call(*words)
        if name == "pwrite":
            fd, data, place = words
            call(fd, bytes(data)[: int(len(data) * self.part)], place)
        raise OSError(errno.ENOSPC if name == "pwrite" else errno.EIO, f"{name} failed")


class Dribbling(Disk):
    """Writes some bytes at a time."""

    def does(self, name, call, *words):
        if name != "pwrite":
            return call(*words)
        fd, data, place = words
        return call(fd, data[:5], place)


class Watching(Disk):
    """Keeps what a crash at each moment could leave of a file: what was synced, and of what was not a part, or other bytes in its place."""

    def __init__(self, file, chance=None):
        self.file, self.random = file, random.Random(chance)
        self.synced, self.behind, self.moments = file.read_bytes(), [], []

    def does(self, name, call, *words):
        if name == "fsync" and not os.path.samestat(os.fstat(words[0]), os.stat(self.file)):
            return call(*words)
        if name != "fsync":
            self.behind.append((name, bytes(words[1]) if name == "pwrite" else words[1], words[-1]))
        self.moments.append((self.synced, list(self.behind)))
        answer = call(*words)
        if name == "fsync":
            self.synced, self.behind = self.file.read_bytes(), []
        self.moments.append((self.synced, list(self.behind)))
        return answer

    def left(self, tries):
        """Files that a crash could leave, some for each moment."""
        for synced, behind in self.moments:
            for _ in range(tries):
                yield self.torn(synced, behind)

    def torn(self, synced, behind):
        """The file once each change behind the last sync was made, in part or not at all."""
        left = bytearray(synced)
        for name, what, place in behind:
            if name == "pwrite":
                left.extend(bytes(max(0, place - len(left))))
                left[place : place + len(what)] = self.mixed(bytes(left[place : place + len(what)]), what)
            elif self.random.random() < 0.5:
                del left[self.random.randint(min(what, len(left)), len(left)) :]
        return bytes(left)

    def mixed(self, before, after):
        """A write that a crash catches: at each place old, new or any bytes; the file may be longer by any part of it."""
        most = self.random.choice((len(after), self.random.randint(0, len(after))))
        kind, mixed = self.random.randrange(4), bytearray()
        for place in range(max(most, len(before))):
            old = before[place : place + 1] or b"\0"
            new = after[place : place + 1] or old
            mixed += (new, old, self.random.randbytes(1), self.random.choice((old, new)))[kind if place < most else 1]
        return bytes(mixed)
