#!/usr/bin/env python3
"""How many items a second are on the disk when they are acknowledged, by groups of 1, 16 and 256 with one sync a group, side by side.

    kept.py [FOLDER] [--seconds S]
    kept.py [FOLDER] --rebuild       instead: how long a node of 4,095 entries takes to be rebuilt, beside making its keys

The items are 1,024 messages of one node (H10, W8), of some 1.5 KB each. For so many seconds and each size, group by group and in turn:

- `Journal.append` appends the texts of a group.
- SQLite inserts a group into a table of blobs by one transaction, with journal_mode=WAL and synchronous=FULL.
- `KeptStore.take_all` takes a group, which it checks; and `Store.take` takes the same without a disk. A new store begins where all items
  were taken.

Prints of each the items a second over the whole time, and the middle one of the times of a group. FOLDER is on the disk that is measured. Needs
the package of python/ (BULWYNEF_LIBRARY may name the shared library).
"""

import argparse
import os
import resource
import sqlite3
import statistics
import subprocess
import sys
import tempfile
import time

TOP = os.path.dirname(os.path.dirname(os.path.dirname(os.path.abspath(__file__))))
try:
    import bulwynef
except ImportError:
    sys.path.insert(0, os.path.join(TOP, "python", "src"))

from bulwynef import Journal, KeptNode, KeptStore, Key, Node, Program, Store, directory

GROUPS, ITEMS, H10, W8 = (1, 16, 256), 1024, 6, 4
# A timer of Tally's adds two entries, of which the second is a message with one signature. The first entry of a log is its checkpoint.
TIMERS = 2047


def made():
    """The directory, and the items."""
    keys = [Key.new(H10), Key.new()]
    listed = directory({node: [key.public()] for node, key in enumerate(keys, 1)})
    with Node(listed, 1, keys[0], Program.TALLY) as node:
        for moment in range(ITEMS):
            node.timer(moment)
        return listed, [node.message(seq) for seq in node.waiting()]


class Kept:
    """Whoever keeps groups of items, and how long each took."""

    def __init__(self, folder, listed):
        self.folder, self.listed, self.times = folder, listed, []

    def path(self):
        return os.path.join(self.folder, f"{type(self).__name__}{len(self.times)}")

    def begin(self):
        """Begins anew, where all items were kept."""

    def timed(self, group):
        began = time.perf_counter()
        self.keep(group)
        self.times.append(time.perf_counter() - began)


class ByJournal(Kept):
    name = "journal"

    def __init__(self, *words):
        super().__init__(*words)
        self.journal = Journal(self.path())
        self.keep = self.journal.append


class BySqlite(Kept):
    name = "SQLite"

    def __init__(self, *words):
        super().__init__(*words)
        self.base = sqlite3.connect(self.path(), isolation_level=None)
        assert self.base.execute("PRAGMA journal_mode=WAL").fetchone() == ("wal",)
        self.base.execute("PRAGMA synchronous=FULL")
        self.base.execute("CREATE TABLE items (item BLOB NOT NULL)")

    def keep(self, group):
        self.base.execute("BEGIN")
        self.base.executemany("INSERT INTO items VALUES (?)", [(item,) for item in group])
        self.base.execute("COMMIT")


class ByKeptStore(Kept):
    name = "kept store"

    def begin(self):
        self.store = KeptStore(self.path(), Program.TALLY, self.listed)

    def keep(self, group):
        assert all(self.store.take_all(group))


class ByStore(Kept):
    name = "store, no disk"

    def begin(self):
        self.store = Store(self.listed, Program.TALLY)

    def keep(self, group):
        assert all([self.store.take(item) for item in group])


def measured(folder, listed, items, size, seconds):
    """What each took for groups of a size."""
    keepers = [kind(folder, listed) for kind in (ByJournal, BySqlite, ByKeptStore, ByStore)]
    groups = [items[at : at + size] for at in range(0, ITEMS, size)]
    began, turns = time.perf_counter(), 0
    while turns < len(keepers) or time.perf_counter() - began < seconds:
        group = groups[turns % len(groups)]
        for keeper in keepers:
            if group is groups[0]:
                keeper.begin()
        # Each comes first as often as any other.
        for place in range(len(keepers)):
            keepers[(turns + place) % len(keepers)].timed(group)
        turns += 1
    return keepers


# ---- a node that is rebuilt


def keys_of_node():
    """The two keys of a node, of 1,024 leaves each, and the directory."""
    keys = [Key(bytes(15) + bytes([n]), bytes(31) + bytes([n]), H10, W8) for n in (1, 2)]
    return keys, directory({1: [key.public() for key in keys], 2: [Key.new().public()]})


def grown(path):
    """Writes the journal of a node whose log has 4,095 entries; the directory."""
    keys, listed = keys_of_node()
    with KeptNode(path, Program.TALLY, listed, 1, keys, may_begin=True) as node:
        for moment in range(0, TIMERS, 256):
            if moment == ITEMS:
                node.next_key(keys[1])
            assert not any(node.timer_all(range(moment, min(moment + 256, TIMERS))))
    return listed


def opened(path, directory_path):
    """Opens the node again, and prints the times and the memory."""
    with open(directory_path, "rb") as file:
        listed = file.read()
    began = time.perf_counter()
    keys, _ = keys_of_node()
    made_at = time.perf_counter()
    with KeptNode(path, Program.TALLY, listed, 1, keys) as node:
        ended = time.perf_counter()
        entries = len(node.waiting())
    memory = resource.getrusage(resource.RUSAGE_SELF).ru_maxrss
    print(f"two keys: {made_at - began:.2f} s; rebuilt: {ended - made_at:.2f} s; {entries} messages wait; {memory} KB, the journal {os.path.getsize(path)} bytes")


def rebuild(folder):
    path, listed = os.path.join(folder, "node"), os.path.join(folder, "directory")
    with open(listed, "wb") as file:
        file.write(grown(path))
    for _ in range(3):
        subprocess.run([sys.executable, os.path.abspath(__file__), "--open", path, listed], check=True)


def main():
    if sys.argv[1:2] == ["--open"]:
        opened(*sys.argv[2:])
        return
    parser = argparse.ArgumentParser(description=__doc__, formatter_class=argparse.RawDescriptionHelpFormatter)
    parser.add_argument("folder", nargs="?")
    parser.add_argument("--seconds", type=float, default=20)
    parser.add_argument("--rebuild", action="store_true")
    words = parser.parse_args()
    if words.rebuild:
        with tempfile.TemporaryDirectory(dir=words.folder) as folder:
            rebuild(folder)
        return
    listed, items = made()
    print(f"{len(items)} items of {sum(map(len, items)) // len(items)} bytes; SQLite {sqlite3.sqlite_version}, Python {sys.version.split()[0]}")
    for size in GROUPS:
        with tempfile.TemporaryDirectory(dir=words.folder) as folder:
            for it in measured(folder, listed, items, size, words.seconds):
                rate, middle = size * len(it.times) / sum(it.times), statistics.median(it.times) * 1000
                what, count = f"groups of {size:3}, {it.name:14}", len(it.times)
                print(f"{what}: {rate:8.0f} items a second, {middle:8.2f} ms a group in the middle of {count}", flush=True)


if __name__ == "__main__":
    main()
