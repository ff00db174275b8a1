#!/usr/bin/env python3
# Refuses each growth of memory of single calls in turn, and holds each run to "Memory (99) and all as it was, or the right answer".
#
# The program is `growths` of crates/growths, one call a scene, of which `rt ci` leaves both builds in its folder out/ (builds.py). It tells
# refuse.c which growths are those of the call. A run in which none is refused gives a scene's right lines and counts the growths; then
# the scene is played once for each of them. least.txt has for each scene how many growths, and how many refused with Memory, there are
# at the least: fewer is a fault, as it would be if a compiler dropped what arms the growths. Wants gcc.
import os
import re
import subprocess
import sys
import tempfile
from concurrent.futures import ThreadPoolExecutor

TOP = os.path.dirname(os.path.dirname(os.path.dirname(os.path.abspath(__file__))))
sys.path.append(os.path.join(TOP, "checks"))
sys.dont_write_bytecode = True

from builds import builds_of

LEAST = os.path.join(TOP, "checks", "growths", "least.txt")
JOBS = 4
SECONDS = 60
MEMORY = "refused 99 Memory"


class Fault(Exception):
    pass


class Run:
    """What a run wrote: the texts behind each word that a line begins with, in order."""

    def __init__(self, done):
        self.status = done.returncode
        self.text = done.stdout + done.stderr
        self.said = {}
        for line in done.stdout.splitlines():
            word, _, rest = line.partition(" ")
            self.said.setdefault(word, []).append(rest)
        told = re.fullmatch(r"growths (\d+)\n", done.stderr)
        self.growths = int(told.group(1)) if told else None

    def all(self, word):
        return self.said.get(word, [])

    def one(self, word):
        texts = self.all(word)
        need(len(texts) == 1, f"one line {word} is wanted")
        return texts[0]


def need(holds, what):
    if not holds:
        raise Fault(what)


def refused_or_right(run, right):
    """The rule. Whether the call was refused; then it is made again, and has to go as if nothing had been refused."""
    need(run.all("before") == right.all("before"), "the state before is another one")
    if run.one("answer") == MEMORY:
        need(run.all("after") == run.all("before"), "a refused call changed the state")
        need(run.one("again") == right.one("answer"), "the call made again answers otherwise")
        need(run.all("end") == right.all("after"), "the call made again leaves another state")
        return True
    need(run.said == right.said, "neither Memory nor the right answer")
    return False


# `Importer::feed`: after a refusal each later call answers the same fault. So nothing is made again: what is fed behind it and the end of
# the text have to be refused alike, and the store then is as it was. The fault comes with the item at which it came.
def fed_or_right(run, right):
    need(run.all("before") == right.all("before"), "the state before is another one")
    answer = run.one("answer")
    if re.fullmatch(MEMORY + r" \d+", answer):
        need(run.one("then") == answer, "what is fed behind a refusal answers otherwise")
        need(run.one("finish") == answer, "the end behind a refusal answers otherwise")
        need(run.all("after") == run.all("before"), "a refused text changed the store")
        return True
    need(run.said == right.said, "neither Memory nor the right answer")
    return False


# `run` of a world: where an event is refused, those before it are done and have answered, and the world is where they leave it.
# The scene tells what each event answers alone (`step`) and what it leaves (`state`, two stores), and after a refusal goes on with the
# events that are left (`rest`, `end`).
def ran_or_right(run, right):
    steps, states = right.all("step"), right.all("before") + right.all("state")
    for word in ("before", "step", "state"):
        need(run.all(word) == right.all(word), f"another {word}")
    found = re.fullmatch(MEMORY + r" (\d+)", run.one("answer"))
    done = int(found.group(1)) if found else len(steps)
    need(found or run.one("answer") == "ok", "neither Memory nor the right answer")
    need(done < len(steps) or not found, "all events are done, and one is refused")
    need(run.all("told") == steps[:done], "the events before the refusal answered otherwise")
    need(run.all("after") == states[2 * done:2 * done + 2], "the world is not where these events leave it")
    need(run.all("rest") == steps[done:], "the events behind the refusal answer otherwise")
    need(run.all("end") == states[2 * done + 2:], "the events behind the refusal leave other states")
    return bool(found)


def places_lack_memory(run, right, word):
    """Whether a place has `Memory` in place of its answer. One growth is refused, so one place at most lacks it."""
    lacking = 0
    need(len(run.all(word)) == len(right.all(word)), "fewer places or more")
    for told, wanted in zip(run.all(word), right.all(word)):
        need(told == wanted or told == "99", "a place has neither Memory nor its answer")
        lacking += told == "99" and told != wanted
    need(lacking <= 1, "several places lack memory")
    return lacking


# `check_all`: `Memory` where a growth beside the checks is refused; a check that is refused memory gives `Memory` at its own place. Then
# `check_again`, of which nothing is refused, completes the answers, and none is left.
def all_checked(run, right):
    need(run.all("end") == right.all("end"), "checking again completes the answers otherwise")
    need(run.one("left") == "0", "a place is left")
    if run.one("answer") == MEMORY:
        need(run.one("again") == right.one("answer"), "the call made again answers otherwise")
        need(run.all("after") == right.all("after"), "the call made again has other places")
        return True
    need(run.one("answer") == right.one("answer"), "neither Memory nor the right answer")
    return places_lack_memory(run, right, "after") == 1


# `check_again`: with `Memory` no place is changed. Else each that wanted an answer has it, but for one that was refused memory; the call
# answers how many do not have it. Checking again, of which nothing is refused, completes them.
def checked_again(run, right):
    need(run.all("before") == right.all("before"), "other places before")
    need(run.all("end") == right.all("end"), "checking again completes the answers otherwise")
    need(run.one("left") == "0", "a place is left")
    if run.one("answer") == MEMORY:
        need(run.all("after") == run.all("before"), "a refused call changed a place")
        return True
    lacking = places_lack_memory(run, right, "after")
    need(run.one("answer") == f"ok {lacking}", "another number of places is told to be left")
    return lacking == 1


def rule_of(scene):
    if scene.startswith("feed_"):
        return fed_or_right
    if scene in ("run_plain", "run_indexed"):
        return ran_or_right
    if scene.startswith("check_all_"):
        return all_checked
    if scene.startswith("check_again_"):
        return checked_again
    return refused_or_right


def play(program, library, scene, number):
    """Plays the scene. The growth of this number is refused; of 0 none is."""
    settings = {"LD_PRELOAD": library, "REFUSED": str(number)}
    return Run(subprocess.run([program, scene], env=settings, capture_output=True, text=True, timeout=SECONDS))


def right_run(program, library, scene, written):
    right = play(program, library, scene, 0)
    need(right.status == 0 and right.growths is not None, "the scene does not end well")
    need(right.text == written + f"growths {right.growths}\n", "the scene writes otherwise alone")
    need(right.one("answer").startswith("ok"), "the call is refused where no growth is")
    return right


def holds(rule, run, right):
    """Whether the call was refused memory."""
    need(run.status == 0 and run.growths is not None, "the scene does not end well")
    return rule(run, right)


def least_counts():
    """For each scene, how many growths it has and how many of them are refused with Memory, at the least."""
    with open(LEAST, encoding="utf-8") as lines:
        rows = [line.split() for line in lines]
    return {scene: (int(growths), int(refused)) for scene, growths, refused in rows}


def try_scene(program, library, scene, written, pool):
    """Plays the scene once for each of its growths. How many there are, how many were refused, and how many runs go wrong."""
    right = right_run(program, library, scene, written)
    numbers = range(1, right.growths + 1)
    runs = list(pool.map(lambda n: play(program, library, scene, n), numbers))
    refused, faults = 0, 0
    for number, run in zip(numbers, runs):
        try:
            refused += holds(rule_of(scene), run, right)
        except Fault as fault:
            faults += 1
            print(f"{scene}, growth {number}: {fault}\n-- right:\n{right.text}-- refused:\n{run.text}--")
    right_ones = right.growths - refused - faults
    print(f"{scene}: {right.growths} growths, {refused} refused with Memory, {right_ones} right", flush=True)
    return right.growths, refused, faults


def scenes_of(program):
    """The scenes with what each writes, where all are played."""
    done = subprocess.run([program, "all"], capture_output=True, text=True, timeout=SECONDS)
    need(done.returncode == 0, f"the program does not end well: {done.stderr}")
    parts = re.split(r"^== (\w+)\n", done.stdout, flags=re.M)
    return list(zip(parts[1::2], parts[2::2]))


def make_library(folder):
    library = os.path.join(folder, "refuse.so")
    source = os.path.join(TOP, "checks", "growths", "refuse.c")
    subprocess.run(["gcc", "-O2", "-shared", "-fPIC", "-o", library, source, "-ldl"], check=True)
    return library


def try_program(program, library, pool, least):
    """Tries each scene of the program. How many runs go wrong."""
    print(f"{os.path.relpath(program, TOP)}:")
    growths, refused, faults = 0, 0, 0
    scenes = scenes_of(program)
    need({scene for scene, _ in scenes} == set(least), "the scenes are others than those of least.txt")
    for scene, written in scenes:
        try:
            counts = try_scene(program, library, scene, written, pool)
            need(counts[0] >= least[scene][0] and counts[1] >= least[scene][1], f"fewer than {least[scene]} in least.txt")
        except Fault as fault:
            print(f"{scene}: {fault}")
            counts = (0, 0, 1)
        growths, refused, faults = growths + counts[0], refused + counts[1], faults + counts[2]
    print(f"all: {growths} growths, {refused} refused with Memory, {growths - refused - faults} right, {faults} faults")
    return faults


def main():
    programs = builds_of("growths")
    with tempfile.TemporaryDirectory() as folder, ThreadPoolExecutor(JOBS) as pool:
        library = make_library(folder)
        least = least_counts()
        faults = sum(try_program(program, library, pool, least) for program in programs)
    sys.exit(1 if faults else 0)


if __name__ == "__main__":
    main()
