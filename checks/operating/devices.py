"""Fails each call of `bulwynef` on its files in turn, and holds each run to "refused, and nothing is left" or the right answer. The calls by which an
answer gets on the disk, and to its name, must be made.

failing.c, loaded before the C library, fails the call: of each kind of call the first, then the second, and so on, until a run makes no more.
Wants gcc. The calls of LLVM's build and of the other one are the same.
"""

import os
import re
import stat
import subprocess

HERE = os.path.dirname(os.path.abspath(__file__))
# By the kind of call that fails: the refusals that may be told of it. Without an owner it is done.
REFUSED = {"open": {100, 102}, "read": {100}, "write": {102}, "fsync": {102}, "fchown": set(), "fchmod": {102}, "mkdir": {102}, "rename": {102}}
MOST = 200
# The mode of each file before a run
MODE = 0o664


def make_library(folder):
    library = f"{folder}/failing.so"
    subprocess.run(["gcc", "-O2", "-shared", "-fPIC", "-o", library, f"{HERE}/failing.c", "-ldl"], check=True)
    return library


class Devices:
    """Runs of a program in a folder of its own, in which its files stand."""

    def __init__(self, run, build, library, folder, files):
        self.run, self.build, self.folder, self.told = run, build, folder, f"{folder}.told"
        self.library, self.files = library, files

    def empty(self):
        for name in os.listdir(self.folder):
            subprocess.run(["rm", "-rf", f"{self.folder}/{name}"], check=True)
        for name, data in self.files.items():
            with open(f"{self.folder}/{name}", "wb") as it:
                it.write(data)
            os.chmod(f"{self.folder}/{name}", MODE)

    def made(self, words, fails):
        """What the program answers, what stands in the folder behind it, and whether the call was made that fails."""
        self.empty()
        env = {**os.environ, "LD_PRELOAD": self.library, "FAILS": fails, "TOLD": self.told}
        answer = self.run([self.build, *words], cwd=self.folder, env=env)
        was_made = os.path.exists(self.told)
        if was_made:
            os.remove(self.told)
        return answer, self.found(), was_made

    def found(self):
        found = {}
        for at, _, names in os.walk(self.folder):
            for name in names:
                path = os.path.join(at, name)
                with open(path, "rb") as it:
                    found[os.path.relpath(path, self.folder)] = it.read()
        return found


def is_refused(kind, answer):
    status, out, error = answer
    told = re.match(rb"refused (\d+) \w+", error)
    return status == 1 and out == b"" and bool(told) and int(told[1]) in REFUSED[kind]


def hold_calls(hold, devices, words, least):
    """Each call of each kind fails: the run is refused, and what was there stays; or it does without. Of a kind that `least` has there are so many
    calls at the least: a build that leaves them out, as one that has no new file on the disk before it takes its name, is not right."""
    right, left, _ = devices.made(words, "none 0")
    hold(f"{words[0]} on good devices", right[0] in (0, 3), right)
    for kind in REFUSED:
        for number in range(1, MOST):
            answer, found, was_made = devices.made(words, f"{kind} {number}")
            if not was_made:
                hold(f"{words[0]}: {kind} {number} is not made", (answer, found) == (right, left), answer)
                hold(f"{words[0]}: {least.get(kind, 0)} calls of {kind} are made", number > least.get(kind, 0), number - 1)
                break
            is_so = (is_refused(kind, answer) and found == devices.files) or (answer, found) == (right, left)
            # Behind the answer's own writes stands what is told beside it, on standard error, which may be lost.
            is_so = is_so or (kind == "write" and number > least["write"] and (answer[:2], found) == (right[:2], left))
            hold(f"{words[0]}: {kind} {number} fails", is_so, (answer, sorted(found)))
    for number in range(1, MOST):
        answer, found, was_made = devices.made(words, f"interrupted read {number}")
        hold(f"{words[0]}: read {number} is interrupted", (answer, found) == (right, left), answer)
        if not was_made:
            break
    answer, found, _ = devices.made(words, "short")
    hold(f"{words[0]} by pieces of seven bytes", (answer, found) == (right, left), answer)


def hold_mode(hold, devices, words):
    """A file that replaces another has its mode; where neither the owner nor the group can be given to it, what the old group might do nobody may."""
    for fails, mode in (("none 0", MODE), ("fchown 1", MODE), ("fchown 0", MODE & 0o707)):
        answer, _, _ = devices.made([*words, "--output", "old", "items"], fails)
        found = stat.S_IMODE(os.stat(f"{devices.folder}/old").st_mode)
        hold(f"{words[0]}: the mode where it fails at {fails}", answer[0] == 0 and found == mode, (answer, oct(found)))


def hold_devices(hold, run, build, folder, files):
    library = make_library(folder)
    os.mkdir(f"{folder}/there")
    devices = Devices(run, build, library, f"{folder}/there", {**files, "old": b"what was there"})
    on = ["--program", "tally", "--directory", "nodes", "--workers", "2"]
    told = {"open": 2, "read": 2, "write": 1}
    whole = {"open": 3, "read": 2, "write": 1, "fsync": 1, "rename": 1}
    for words, least in (
        (["status", *on, "items"], told),
        (["merge", *on, "--output", "new", "items", "items"], whole),
        (["merge", *on, "--output", "old", "items"], {**whole, "fchown": 1, "fchmod": 1}),
        (["prove", *on, "--output", "new", "2", "items"], whole),
        (["explain", *on, "--html", "new", "items"], whole),
        (["show", "items"], {"open": 1, "read": 1, "write": 1}),
        # Two files, each of which is on the disk before the folder takes its name.
        (["play", "--workers", "2", "--output", "played", "scenario"], {"open": 3, "read": 1, "write": 2, "fsync": 2, "mkdir": 1, "rename": 1}),
    ):
        hold_calls(hold, devices, words, least)
    hold_mode(hold, devices, ["merge", *on])
