#!/usr/bin/env python3
"""Times the commands of node_sim on much evidence.

    commands.py PROGRAM EXAMPLE STORE [BULWYNEF]

EXAMPLE is a file whose first line is the directory, as examples/exchange.txt, and STORE a text of many items, as checks/bench/stores makes
one. Prints the processor time, the time and the greatest memory of `status` on all items in one store, of `merge` of 16, 32 and 64
stores of 1 MiB (in digits) in one line each, and the time of a union of the 64 as a tree, by one process and more at a time; and first,
where BULWYNEF is the program `bulwynef`, what `explain` takes, by one worker, for the store that `status` reads, in words and as a page. Wants GNU time
(Debian's package time).
"""
import concurrent.futures
import os
import subprocess
import sys
import tempfile
import time

LINE = 1 << 20


def items_of(store):
    """The items of a store's text, each behind its length."""
    items, place = [], 16
    while place < len(store):
        end = place + 4 + int.from_bytes(store[place : place + 4], "big")
        items.append(store[place:end])
        place = end
    return items


def line_of(items):
    return (b"PRSTORE2" + len(items).to_bytes(8, "big") + b"".join(items)).hex()


def shards_of(items, count):
    """So many stores, each as long as fits into a line of 1 MiB."""
    each = (LINE // 2 - 16) // max(len(item) for item in items)
    return [line_of(items[k * each : (k + 1) * each]) for k in range(count)]


def timed(program, words, lines, ends=(0,)):
    """Prints what a command took for the lines, and answers what it wrote."""
    with tempfile.TemporaryFile("w+") as text:
        text.write("\n".join(lines))
        text.seek(0)
        form = "%U + %S s of processor time, %e s, %M KB at most"
        done = subprocess.run(["/usr/bin/time", "-f", form, program, *words.split()], stdin=text, stdout=subprocess.PIPE, stderr=subprocess.PIPE)
        assert done.returncode in ends, done
        size = text.tell() // 1024
    what = f"{words}, {len(lines) - 1} stores, {size} KB" if lines else words
    print(f"{what}: {done.stderr.decode().strip().splitlines()[-1]}", flush=True)
    return done.stdout.decode()


def explained(program, directory, store, *more):
    """Prints what `explain` took for the store, in a file of bytes."""
    with tempfile.TemporaryDirectory() as folder:
        for name, line in (("directory", directory), ("store", store)):
            with open(f"{folder}/{name}", "wb") as file:
                file.write(bytes.fromhex(line))
        words = f"explain --workers 1 --program tally {' '.join(more)} --directory {folder}/directory {folder}/store"
        timed(program, words, [], (0, 3))


def union(program, directory, stores):
    lines = "\n".join([directory, *stores]).encode()
    return subprocess.run([program, "merge"], input=lines, stdout=subprocess.PIPE, check=True).stdout.decode().strip()


def tree(program, directory, stores, processes):
    """The union of the stores, eight at a time, by so many processes at once."""
    with concurrent.futures.ThreadPoolExecutor(processes) as pool:
        while len(stores) > 1:
            groups = [stores[k : k + 8] for k in range(0, len(stores), 8)]
            stores = list(pool.map(lambda group: union(program, directory, group), groups))
    return stores[0]


def main():
    program, example, store, *others = sys.argv[1:]
    with open(example) as file:
        directory = file.readline().strip()
    with open(store, "rb") as file:
        items = items_of(file.read())
    timed(program, "status", [directory, line_of(items)])
    for other in others:
        explained(other, directory, line_of(items))
        explained(other, directory, line_of(items), "--html", "-")
    shards = shards_of(items, 64)
    for count in (16, 32, 64):
        whole = timed(program, "merge", [directory, *shards[:count]]).strip()
    for processes in sorted({1, 2, os.cpu_count() or 1}):
        start = time.monotonic()
        same = tree(program, directory, shards, processes) == whole
        print(f"64 stores as a tree, {processes} at a time: {time.monotonic() - start:.2f} s, {'the same bytes' if same else 'OTHER BYTES'}")


if __name__ == "__main__":
    main()
