#!/usr/bin/env python3
"""Tries edits of crates/NAME/more-edits/, which the prover must refuse, right behind `rt ci`, over the libraries that it left.

    turn.py [--commit HASH] [--tell]           in turn
    turn.py NAME.. [--note]                    those of these crates
    turn.py --untried [NAME..] [--note]        those of crates, or of these, that tried.txt does not list
    .. [--minutes N] [--jobs N]

tried.txt lists the crates of which all edits were tried and refused. In turn it is five of these, which the last commit's hash chooses (HASH:
another's), and then further ones, in the order that it gives, while N minutes last (10). Then no further edit begins, and one that began has
five minutes. --tell writes whose turn it is, and tries nothing; --note puts a crate into the list once all of its edits are refused. A crate is
proved once as it stands, and each edit over what that proved; one that is still proved there is tried once more from nothing.

Ends with 1 where an edit is still proved, or cannot be applied or read, where a crate is not proved as it stands, where what was proved of it is
not what it was behind its edits, and where no edit was refused. One that the prover could not decide is told, and fails nothing.
"""

import argparse
import hashlib
import os
import re
import shutil
import subprocess
import sys
import tempfile
import threading
import time
from pathlib import Path

sys.dont_write_bytecode = True

TOP = Path(__file__).resolve().parents[2]
sys.path[:0] = [f"{TOP}/c", f"{TOP}/checks/reference"]

import library
from edits import TRIED, Misfit, applied, edits_of, tried_crates

FIRST, MINUTES, MORE = 5, 10, 300
# The bytes of memory that a check may take, as far as is planned
EACH = 4_000_000_000
REFUSED, LIMIT, BAD, PROVED, NONE = "refused", "refused by a limit of the prover", "not applied or read", "STILL PROVED", "without a verdict"
UNPROVED, FAULT = "NOT PROVED as it stands", "NOT TRIED, by a fault of this script or its machine"
# What antt says of a text that it cannot read, where an edit that makes a statement false reads well
UNREAD = re.compile(r"(?:\./)?(?:src|specs)/\S+: error: .*(is not in scope|has no field|is no name|operand is missing|expected the end|cannot continue)")


def in_turn(names, seed):
    """The names in the order that the seed gives."""
    return sorted(names, key=lambda name: hashlib.sha256(f"{seed} {name}".encode()).digest())


def words_of(crate, uses):
    """The words by which rattle checks the crate over the libraries below it."""
    kit = os.path.dirname(os.path.dirname(os.path.realpath(shutil.which("rt"))))
    is_program = (TOP / "crates" / crate / "src" / "main.rt").is_file()
    words = [f"{kit}/bin/rattle", "check", "--crate-name", crate, f"src/{'main' if is_program else 'lib'}.rt"]
    for name in dict.fromkeys([*uses[crate], "std"]):
        words += ["--extern", f"{name}={library.rlib(name) if name in uses else f'{kit}/rlibs/{name}.rlib'}"]
    for folder in [f"{kit}/rlibs", *(os.path.dirname(library.rlib(name)) for name in library.below(crate, uses))]:
        words += ["-L", f"dependency={folder}"]
    words += ["--antt-project", f"{kit}/rattle/logic/antt-project.json", "--logic-built", f"{kit}/logic_built", "--links", f"{crate}="]
    is_static = re.search(rf"^{crate} [^:#]*\bstaticlib\b", (TOP / "crates.txt").read_text(encoding="utf-8"), re.M)
    return [*words, *(["--crate-type", "staticlib"] if is_static else []), "--jobs", "1"]


def copied(folder, to):
    """Copies what a check kept, what was proved by links: a check replaces such a file, and changes none."""

    def copy(one, other):
        try:
            return os.link(one, other) if one.endswith(".oantt") else shutil.copy2(one, other)
        except OSError:
            return shutil.copy2(one, other)

    shutil.copytree(folder, to, symlinks=True, copy_function=copy)


def listing(folder):
    """What tells whether a file of the folder was changed, lost or added."""
    return {path: (found.st_ino, found.st_size, found.st_mtime_ns) for path in Path(folder).rglob("*") if not path.is_dir() for found in [path.lstat()]}


def verdict_of(words, folder, kept, seconds):
    """What the prover says of the crate in a folder, begun with what an earlier check kept; and its line for that."""
    try:
        done = subprocess.run(
            [*words, *(["--incremental", kept] if kept else [])],
            cwd=folder, stdin=subprocess.DEVNULL, stdout=subprocess.PIPE, stderr=subprocess.STDOUT, errors="replace", timeout=seconds,
        )
    except subprocess.TimeoutExpired:
        return NONE, f"{seconds:.0f} seconds were not enough"
    lines = done.stdout.rstrip("\n").split("\n")
    first = next((line for line in lines if re.match(r"\S+:\d+:\d+: error", line)), lines[-1])[:200]
    if done.returncode == 0:
        return PROVED, lines[-1][:200]
    if done.returncode == 1 and lines[-1].startswith("logic=not-proved"):
        unread = next((line for line in lines if UNREAD.match(line)), None)
        return (BAD, unread[:200]) if unread else (REFUSED, first)
    if done.returncode == 1 and "error[" in done.stdout:
        return BAD, next(line for line in lines if "error[" in line)[:200]
    return (LIMIT if done.returncode == 3 else NONE), first


class Tried:
    """The edits of crates, what was proved of the crates that come next, and what came of each edit."""

    def __init__(self, crates, room, options):
        self.uses, self.room, self.seed = library.uses(), room, options.commit
        self.end = time.monotonic() + 60 * options.minutes
        self.waiting, self.first, self.notes = list(crates), FIRST if options.is_turn else 1, options.note
        self.seeding, self.edits, self.told, self.begun, self.left, self.files = set(), [], [], [], {}, {}
        self.change = threading.Condition()

    def next(self):
        """What is to be done next: a crate that is to be proved, or an edit that is to be tried."""
        with self.change:
            while time.monotonic() < self.end:
                is_first = len(self.begun) < self.first
                if self.waiting and (is_first or not self.edits and time.monotonic() < self.end - 120):
                    self.begun.append(self.waiting.pop(0))
                    self.seeding.add(self.begun[-1])
                    return self.begun[-1], None
                if self.edits:
                    return self.edits.pop(0)
                if not self.seeding:
                    break
                self.change.wait(1)
            return None

    def prove(self, crate):
        """Proves the crate as it stands, and puts its edits into the line."""
        folder = TOP / "crates" / crate
        lacking = [name for name in library.below(crate, self.uses) if not library.is_left_by_ci(name)]
        if lacking:
            found = UNPROVED, f"rt ci left no library of {' '.join(lacking)}"
        else:
            found = verdict_of(words_of(crate, self.uses), self.copy(folder, {}, f"{crate}-as-it-stands"), f"{self.room}/{crate}", 2 * MORE)
        with self.change:
            self.seeding.discard(crate)
            if found[0] == PROVED:
                edits = edits_of(folder, "more-edits")[0]
                self.left[crate], self.files[crate] = len(edits), listing(f"{self.room}/{crate}")
                self.edits += [(crate, edit) for edit in edits]
                self.edits.sort(key=lambda it: hashlib.sha256(f"{self.seed} {it[0]} {it[1].name}".encode()).digest())
            else:
                self.told.append((crate, NONE if found[0] in (NONE, LIMIT) else UNPROVED, found[1]))
                print(f"{crate}: {self.told[-1][1]}: {found[1]}", flush=True)
            self.change.notify_all()

    def copy(self, folder, texts, name):
        """A copy of the crate with these texts in place of its own."""
        place = f"{self.room}/copies/{name}"
        for part in ("src", "specs", "proofs"):
            if (folder / part).is_dir():
                shutil.copytree(folder / part, f"{place}/{part}")
        for path, text in texts.items():
            Path(place, path).write_text(text, encoding="utf-8")
        return place

    def attempt(self, crate, edit):
        """Tries the edit over what was proved of the crate, and from nothing where it is still proved there."""
        folder, kept = TOP / "crates" / crate, f"{self.room}/{crate}-{edit.stem}"
        try:
            place = self.copy(folder, applied(edit, folder), f"{crate}-{edit.stem}")
        except Misfit as why:
            found = BAD, str(why)
        else:
            copied(f"{self.room}/{crate}", kept)
            found = verdict_of(words_of(crate, self.uses), place, kept, MORE)
            if found[0] == PROVED:
                again = verdict_of(words_of(crate, self.uses), place, None, 2 * MORE)
                found = again if again[0] != NONE else found
            shutil.rmtree(kept, ignore_errors=True)
            shutil.rmtree(place, ignore_errors=True)
        with self.change:
            self.told.append((f"{crate}/{edit.name}", *found))
            print(f"{crate}/{edit.name}: {found[0]}: {found[1]}", flush=True)
            self.left[crate] -= 1
            if self.left[crate] == 0:
                self.end_of(crate)

    def end_of(self, crate):
        """What was proved of the crate is wanted no more; and it is listed, where that is asked for and each of its edits was refused."""
        if listing(f"{self.room}/{crate}") != self.files[crate]:
            self.told.append((f"{crate}/", FAULT, "what was proved of the crate is not what it was"))
        shutil.rmtree(f"{self.room}/{crate}", ignore_errors=True)
        names = sorted({*tried_crates(), crate})
        if self.notes and all(found == REFUSED for name, found, _ in self.told if name.startswith(f"{crate}/")):
            TRIED.write_text("".join(f"{name}\n" for name in names), encoding="utf-8")
            print(f"{crate}: listed in tried.txt", flush=True)

    def work(self):
        while task := self.next():
            crate, edit = task
            try:
                self.attempt(crate, edit) if edit else self.prove(crate)
            except (OSError, ValueError, shutil.Error) as fault:
                with self.change:
                    self.seeding.discard(crate)
                    self.told.append((f"{crate}/{edit.name if edit else ''}", FAULT, str(fault)))
                    print(f"{crate}: {FAULT}: {fault}", flush=True)


def jobs_of(options):
    """How many checks run at once: one a processor, and as memory allows."""
    with open("/proc/meminfo", encoding="ascii") as file:
        free = next(int(line.split()[1]) * 1024 for line in file if line.startswith("MemAvailable"))
    return options.jobs or max(1, min(len(os.sched_getaffinity(0)), free // EACH))


def words():
    parser = argparse.ArgumentParser(description=__doc__, formatter_class=argparse.RawDescriptionHelpFormatter)
    parser.add_argument("names", nargs="*", metavar="NAME")
    parser.add_argument("--minutes", type=float, default=MINUTES)
    parser.add_argument("--jobs", type=int)
    parser.add_argument("--commit")
    parser.add_argument("--tell", action="store_true")
    parser.add_argument("--untried", action="store_true")
    parser.add_argument("--note", action="store_true")
    options = parser.parse_args()
    options.is_turn = not options.names and not options.untried
    found = subprocess.run(["git", "rev-parse", options.commit or "HEAD"], cwd=TOP, capture_output=True, text=True, check=True)
    options.commit = found.stdout.strip()
    return options


def order_of(options):
    """The crates whose edits are to be tried, in their order."""
    crates, tried = [path.parent.name for path in sorted((TOP / "crates").glob("*/more-edits")) if edits_of(path.parent, "more-edits")[0]], tried_crates()
    unknown = set(options.names) - set(crates)
    if unknown:
        sys.exit(f"no edits in more-edits/ of {' '.join(sorted(unknown))}")
    untried = [name for name in options.names or crates if name not in tried]
    order = untried if options.untried else options.names or in_turn([name for name in crates if name in tried], options.commit)
    if options.is_turn:
        print(f"more-edits: {len(order)} crates are in turn; {len(untried)} with edits are not in tried.txt yet")
    print(f"more-edits: the turn of {', '.join(order[:FIRST] if options.is_turn else order) or 'nobody'}", flush=True)
    return order


def main():
    options, began = words(), time.monotonic()
    order = order_of(options)
    if options.tell or options.untried and not order:
        return 0
    with tempfile.TemporaryDirectory(prefix="more-edits-") as room:
        tried = Tried(order, room, options)
        workers = [threading.Thread(target=tried.work) for _ in range(jobs_of(options))]
        for worker in workers:
            worker.start()
        for worker in workers:
            worker.join()
    counts = {kind: [name for name, found, _ in tried.told if found == kind] for kind in (REFUSED, LIMIT, BAD, PROVED, UNPROVED, FAULT, NONE)}
    done = sum(name.endswith(".edit") for name, *_ in tried.told)
    minutes = (time.monotonic() - began) / 60
    print(f"more-edits: {done} of {done + len(tried.edits)} edits of {', '.join(tried.begun)} in {minutes:.1f} minutes:")
    for kind, names in counts.items():
        if names:
            print(f"  {len(names)} {kind}{'' if kind == REFUSED else ': ' + ' '.join(names)}")
    return 1 if any(counts[kind] for kind in (BAD, PROVED, UNPROVED, FAULT)) or not counts[REFUSED] else 0


if __name__ == "__main__":
    sys.exit(main())
