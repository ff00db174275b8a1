#!/usr/bin/env python3
"""Holds what `bulwynef split` writes, and what `status` says of it, to the items that second_opinion/check.py reads and to `status` of all stores.

    checks/operating/shards.py [PROGRAM]

The stores of each file of examples/, and those that distributed/evidence.py makes, are split together and each alone. Shard k must have just the items
that name a node of it, each once; the counts must be those; and `status --part k/K` of shard k must write the lines of that shard's nodes that all stores have. With
--extract shard k must have just the items whose fields name a node of it, and the statements of these nodes that segments of others quote; without
those some lines must differ. Then what is to be refused: words, files, items that are no items, a full disk.
"""

import functools
import hashlib
import os
import subprocess
import sys
import tempfile

TOP = os.path.dirname(os.path.dirname(os.path.dirname(os.path.abspath(__file__))))
sys.path[:0] = [f"{TOP}/second_opinion", f"{TOP}/checks"]
sys.dont_write_bytecode = True

from builds import builds_of
from check import Reader, quote_of, read_directory, read_item, sized, u8, u32, u64

BUILDS = sys.argv[1:] or builds_of("bulwynef")
COUNTS = (1, 2, 3, 8, 1024)
# A folder whose files are in memory, and how many bytes it must have free. bulwynef syncs each file that it writes, and on a disk that takes nearly
# all of the time
MEMORY, FREE = "/dev/shm", 1 << 30

failed = []
passed = 0


def hold(what, is_so, found=""):
    global passed
    if is_so:
        passed += 1
    else:
        failed.append(what)
        print(f"FAILED {what} {found}")


def run(*words, **how):
    done = subprocess.run(words, stdin=subprocess.DEVNULL, capture_output=True, timeout=600, **how)
    return done.returncode, done.stdout, done.stderr


def read(path):
    with open(path, "rb") as file:
        return file.read()


def write(path, data):
    with open(path, "wb") as file:
        file.write(data)
    return path


def basis_of(directory):
    return f"program tally\ndirectory {hashlib.sha256(directory).hexdigest()}\n".encode()


def items_of(store):
    """The texts of a store's items, none of them checked."""
    reader = Reader(store)
    assert reader.take(8) == b"PRSTORE2"
    items = [reader.sized(2**32) for _ in range(reader.number(8))]
    reader.end()
    return items


def named(text):
    """The nodes that an item's fields name, and those that its RECV entries name as senders."""
    item = read_item(text)
    quotes = [quote_of(entry) for entry in getattr(item, "entries", [])]
    return set(item.nodes) | {quote.sender for quote in quotes if quote is not None}


@functools.cache
def genuine(directory, text):
    """What a segment quotes genuinely under the directory's text: the sender's number, and its statement as an item."""
    item = read_item(text)
    quoted = [quote.statement(item.node) for quote, is_genuine in item.quotes(read_directory(directory)) if is_genuine] if hasattr(item, "entries") else []
    return [(it.node, u8(1) + u32(it.node) + u64(it.number) + it.hash + sized(it.signature)) for it in quoted]


def extracted(directory, items, count):
    """The items, and what their segments quote genuinely of nodes of other shards, each with the nodes that its fields name."""
    quotes = {text for item in items for sender, text in genuine(directory, item) if sender % count != read_item(item).node % count}
    return {text: set(read_item(text).nodes) for text in quotes | set(items)}


def store_of(items):
    items = sorted(items)
    return b"PRSTORE2" + len(items).to_bytes(8, "big") + b"".join(len(item).to_bytes(4, "big") + item for item in items)


def hold_split(what, build, folder, stores, count, directory=None):
    """Splits the stores together, and gives the files of the parts: of extracts under a directory."""
    items = {item: named(item) for store in stores for item in items_of(read(store))}
    prefix = f"{folder}/part"
    how = ["--extract", "--directory", directory] if directory else []
    if directory:
        items = extracted(read(directory), items, count)
    status, out, error = run(build, "split", "--parts", str(count), *how, "--output", prefix, *stores)
    parts = [f"{prefix}.{k}-of-{count}" for k in range(count)]
    dealt = {item: {node % count for node in nodes} for item, nodes in items.items()}
    wanted = [{item for item, numbers in dealt.items() if k in numbers} for k in range(count)]
    counts = "".join(f"{k}/{count} {len(part)}\n" for k, part in enumerate(wanted)).encode()
    hold(f"{what}: ends", (status, error) == (0, b""), (status, error))
    hold(f"{what}: counts", out == counts, out[:200])
    hold(f"{what}: parts", all(read(part) == store_of(kept) for part, kept in zip(parts, wanted)))
    return parts


def hold_status(what, build, directory, stores, parts, flags):
    """The lines of each shard, of its own store alone, are those that all stores have."""
    status, out, _ = run(build, "status", "--program", "tally", *flags, "--directory", directory, *stores)
    lines = out.splitlines(keepends=True)
    for k, part in enumerate(parts):
        ending, told, error = run(build, "status", "--part", f"{k}/{len(parts)}", "--program", "tally", *flags, "--directory", directory, part)
        wanted = b"".join(line for line in lines if int(line.split()[0]) % len(parts) == k)
        hold(f"{what}: status of {k}/{len(parts)}", (told, error) == (wanted, basis_of(read(directory))) and ending == (3 if b" exposed\n" in told else 0), (ending, told, error))
    hold(f"{what}: somebody is exposed or nobody", status == (3 if b" exposed\n" in out else 0), status)


def hold_quotes(what, build, folder, directory, stores, count):
    """Where the statements that are quoted are left out, some shard does not say what all stores say."""
    items = {item: set(read_item(item).nodes) for store in stores for item in items_of(read(store))}
    lines = run(build, "status", "--program", "tally", "--directory", directory, *stores)[1].splitlines(keepends=True)
    differ = []
    for k in range(count):
        part = write(f"{folder}/wrong", store_of(item for item, nodes in items.items() if k in {node % count for node in nodes}))
        told = run(build, "status", "--part", f"{k}/{count}", "--program", "tally", "--directory", directory, part)[1]
        differ += [k] if told != b"".join(line for line in lines if int(line.split()[0]) % count == k) else []
    hold(f"{what} in {count}: quotes that are left out", differ != [])


def hold_evidence(what, build, folder, directory, stores, flags=()):
    for count in COUNTS:
        for how, listed in (("", None), (" of extracts", directory)):
            parts = hold_split(f"{what} in {count}{how}", build, folder, stores, count, directory=listed)
            if count <= 8:
                hold_status(f"{what} in {count}{how}", build, directory, stores, parts, flags)
            for part in parts:
                os.remove(part)


def examples():
    for file in sorted(os.listdir(f"{TOP}/examples")):
        name, ending = os.path.splitext(file)
        if ending == ".txt" and name != "scenario":
            lines = [bytes.fromhex(line) for line in read(f"{TOP}/examples/{file}").decode().split()]
            if lines[0].startswith(b"PRDIREC") and all(line.startswith(b"PRSTORE2") for line in lines[1:]):
                yield name, lines


def hold_refused(what, number, ending, *words, **how):
    status, out, error = run(*words, **how)
    hold(what, status == 1 and out == b"" and error.startswith(b"refused %d " % number) and ending in error, (status, out[:100], error))


def hold_faults(build, folder, directory, store):
    split = [build, "split", "--parts", "2", "--output", f"{folder}/p"]
    bad = write(f"{folder}/bad", read(store)[:-1])
    hold_refused("a store that is cut off", 40, b"/bad, item ", *split, store, bad)
    hold_refused("a directory for a store", 60, b"the file is a directory", *split, directory)
    hold_refused("a missing store", 100, b"/none: ", *split, f"{folder}/none")
    hold_refused("a store for a directory", 23, b"the file is a store", *split, "--extract", "--directory", store, store)
    hold_refused("a cut store behind a directory", 40, b"/bad, item ", *split, "--extract", "--directory", directory, bad)
    hold_refused("too many bytes", 101, b": ", *split, "--most", "20", store)
    hold_refused("no folder for the parts", 102, b"refused 102 ", build, "split", "--parts", "2", "--output", f"{folder}/gone/p", store)
    hold("nothing is left of what was refused", not [name for name in os.listdir(folder) if name.startswith("p.")])
    with open("/dev/full", "wb") as full:
        done = subprocess.run([*split, store], stdin=subprocess.DEVNULL, stdout=full, stderr=subprocess.PIPE, timeout=60)
    hold("standard output on a full disk", done.returncode == 1 and done.stderr.startswith(b"refused 102 "), done)
    as_digits = write(f"{folder}/digits", read(store).hex().encode() + b"\n")
    run(*split, store)
    parts = [read(f"{folder}/p.{k}-of-2") for k in range(2)]
    hold("digits", run(*split, as_digits)[0] == 0 and [read(f"{folder}/p.{k}-of-2") for k in range(2)] == parts)
    for word in ("0", "1025", "x", "-1"):
        status, out, error = run(build, "split", "--parts", word, "--output", f"{folder}/w", store)
        hold(f"--parts {word}", (status, out) == (2, b"") and error != b"", (status, error))


def hold_words(build, folder, directory, store):
    for word in ("3/3", "0/0", "1", "1/1025", "-1/2", "a/2", "/", ""):
        status, out, error = run(build, "status", "--part", word, "--program", "tally", "--directory", directory, store)
        hold(f"--part {word}", (status, out) == (2, b"") and error != b"", (status, error))
    for words in (("--extract",), ("--directory", directory), ("--by", "range")):
        status, out, error = run(build, "split", "--parts", "2", *words, "--output", f"{folder}/w", store)
        hold(" ".join(words), (status, out) == (2, b"") and error != b"", (status, error))


def place():
    """The folder for all that is written: in memory if there is room, else none, so that `tempfile` chooses."""
    try:
        found = os.statvfs(MEMORY)
    except OSError:
        return None
    return MEMORY if found.f_bavail * found.f_frsize >= FREE else None


def main():
    for build in BUILDS:
        for name, (directory, *stores) in examples():
            with tempfile.TemporaryDirectory(dir=place()) as folder:
                nodes = write(f"{folder}/nodes", directory)
                files = [write(f"{folder}/{number}.store", store) for number, store in enumerate(stores)]
                hold_evidence(name, build, folder, nodes, files)
        with tempfile.TemporaryDirectory(dir=place()) as folder:
            subprocess.run([f"{TOP}/distributed/evidence.py", folder, "5", "9"], check=True, stdout=subprocess.DEVNULL)
            stores = [f"{folder}/00{number}.store" for number in range(5)]
            hold_evidence("nine nodes", build, folder, f"{folder}/nodes", stores)
            hold_split("one store alone", build, folder, stores[:1], 3)
            hold_quotes("nine nodes", build, folder, f"{folder}/nodes", stores, 2)
            hold_faults(build, folder, f"{folder}/nodes", stores[0])
            hold_words(build, folder, f"{folder}/nodes", stores[0])
    print(f"{passed} passed, {len(failed)} failed")
    sys.exit(1 if failed else 0)


if __name__ == "__main__":
    main()
