#!/usr/bin/env python3
"""Runs the built program node_sim on texts that are nearly valid, and fails where a run ends otherwise than it may.

    checks/fuzz/run.py [--runs N] [--seed S] [--jobs J] [--program PATH].. [--memory MIB] [--seconds SECONDS] [--only INPUT]

The texts of evidence_vectors and of examples/, and items that are signed here by keys of reference/, are changed (texts.py): bits are
flipped, texts are cut, parts are repeated, dropped, moved and taken from other texts, and lengths, counts, numbers, digits and lines are
turned. Each text is handed to status, merge, prove or check, with and without --relay, and scenarios to run, by one worker or more.
Summaries, outlines and packs are no input of node_sim, and are left out; it meets their first bytes, which it must refuse.

Each input is run twice: by both builds, that of LLVM and that of Rattle's own compiler, or by the one that is named. A run may end with 0, with
nothing on standard error, or with 1, with no output and a refusal that is listed for the command. All else is a fault: another status, a
signal, the end of the time, or two runs that differ. So are 99 and 95: they are listed, and no text here needs so much memory or so many
threads. So is another refusal than the one that the formats give (answers.py), and an output that is none of the input's. What prove
writes goes to check, which must name the node, and its input to status, which must say the same of the node; and what merge writes goes
to merge, which must write it again.

The seed is printed. Of one seed the inputs are the same, whatever the jobs. The input of a fault is written to checks/fuzz/out/, and beside it
what came of it and how to run it again. Wants both builds in crates/node_sim/out, which `rt ci` leaves (checks/builds.py).
"""

import argparse
import collections
import multiprocessing
import os
import random
import re
import resource
import shlex
import signal
import sys
import time

sys.dont_write_bytecode = True
sys.path.append(os.path.dirname(os.path.dirname(os.path.abspath(__file__))))

import texts
from answers import TAKEN, answers
from builds import builds_of
from texts import number

OUT = f"{texts.TOP}/checks/fuzz/out"
BUILDS = [f"{texts.TOP}/crates/node_sim/out/node_sim{ending}" for ending in ("", ".by-rattle")]
LONGEST_OUTPUT = 1 << 26
CHUNK = 100
MOST_WRITTEN, MOST_FAULTS = 20, 200

LINES = {103: "BadHex", 104: "LineCount"}
DIRECTORY = {
    2: "UnknownLmsType",
    3: "UnknownOtsType",
    20: "DuplicateNode",
    21: "DuplicateKey",
    22: "TooManyNodes",
    23: "BadMagic",
    24: "Truncated",
    25: "Trailing",
    26: "KeyCount",
}
ITEMS = {
    40: "Truncated",
    41: "BadTag",
    42: "TooLong",
    43: "Trailing",
    44: "UnknownNode",
    45: "SelfMessage",
    46: "EmptySegment",
    47: "BadStart",
    48: "BadRange",
    49: "BadSignature",
}
STORE = {**LINES, **DIRECTORY, **ITEMS, 60: "BadMagic", 61: "NotAscending"}
PROOF = {**LINES, **DIRECTORY, **ITEMS, 50: "NoContradiction", 51: "Conforms"}
SCENARIO = {31: "WrongKey", 36: "KeySpent", 37: "LogFull", 105: "BadScenario"}
LISTED = {"status": STORE, "merge": STORE, "prove": STORE, "check": PROOF, "run": SCENARIO}


def fault_of(words, ended, allowed, fits):
    """What is wrong with the end of a run, if anything."""
    status, output, errors = ended
    if status not in (0, 1):
        return f"ended by {status}"
    if status == 0 and errors:
        return "status 0, and something on standard error"
    if status == 1:
        if output:
            return "refused, and something on standard output"
        told = re.fullmatch(rb"refused (\d+) (\w+)\n", errors)
        if not told or LISTED[words[0]].get(int(told[1])) != told[2].decode():
            return f"no refusal that is listed for {words[0]}"
    said = said_by(ended)
    if said not in allowed:
        return f"{said}, where it is to be {' or '.join(sorted(allowed))}"
    return None if status or fits(output) else "the output is none of the input's"


def said_by(ended):
    """What an end that is right is counted as."""
    status, _, errors = ended
    return errors.decode().removeprefix("refused ").rstrip("\n") if status else TAKEN


def most_memory(memory, words):
    """The limit in bytes: eight times as much for `run`, each of whose threads reserves addresses for itself."""
    return memory << (23 if words[0] == "run" else 20)


class Machine:
    """Runs programs on inputs. Input and outputs are files in memory."""

    def __init__(self, seconds, memory):
        self.seconds, self.memory, self.pid, self.late = seconds, memory, None, False
        self.files = [os.memfd_create(name) for name in ("input", "output", "errors")]
        self.actions = [(os.POSIX_SPAWN_DUP2, file, at) for at, file in enumerate(self.files)]
        signal.signal(signal.SIGALRM, self.end)

    def end(self, *_):
        if self.pid is not None:
            self.late = True
            os.kill(self.pid, signal.SIGKILL)

    def run(self, program, words, data):
        """How it ended, the output and what stood on standard error."""
        for file in self.files:
            os.lseek(file, 0, os.SEEK_SET)
            os.ftruncate(file, 0)
        os.pwrite(self.files[0], data, 0)
        self.late = False
        resource.setrlimit(resource.RLIMIT_AS, (most_memory(self.memory, words), most_memory(self.memory, ["run"])))
        ignored = [signal.SIGPIPE, signal.SIGXFSZ, signal.SIGINT]
        self.pid = os.posix_spawn(program, [program, *words], {}, file_actions=self.actions, setsigdef=ignored)
        signal.setitimer(signal.ITIMER_REAL, self.seconds)
        _, status = os.waitpid(self.pid, 0)
        self.pid = None
        signal.setitimer(signal.ITIMER_REAL, 0)
        output, errors = (os.pread(file, os.fstat(file).st_size, 0) for file in self.files[1:])
        if os.WIFSIGNALED(status):
            return "the limit of time" if self.late else signal.Signals(os.WTERMSIG(status)).name, output, errors
        return os.WEXITSTATUS(status), output, errors


def lines_of(trees):
    return [tree if isinstance(tree, bytes) else texts.spell(tree) for tree in trees]


def bytes_of(path):
    with open(f"{texts.TOP}/{path}", "rb") as file:
        return file.read()


def digits(rng, parts):
    """The lines of digits that spell the parts, in lower case, or now and then not."""
    lines = [part.hex() for part in parts]
    if rng.random() < 0.1:
        at = rng.randrange(len(lines))
        first, last = sorted(rng.randrange(len(lines[at]) + 1) for _ in range(2))
        lines[at] = lines[at][:first] + lines[at][first:last].upper() + lines[at][last:]
    return "\n".join(lines).encode() + (b"" if rng.random() < 0.1 else b"\n")


class Inputs:
    """Each input by its number: the words of the command line, and the bytes of standard input."""

    def __init__(self, seed):
        self.seed, self.signing = seed, texts.Signing()
        vectors, self.refused = texts.vectors()
        self.gathered = [*vectors, *texts.examples()]
        self.proofs = [(it, tree) for it in self.gathered for tree in texts.proofs_of(it.items)]
        self.pool = texts.Pool(self.gathered)
        self.parts = [texts.spell(it) for it in self.pool.items]
        self.known = list(self.known_texts())

    def known_texts(self):
        """Texts as they are, with the words, what is known to come of them, and the output, where it is known: valid ones are taken, and
        stores of one item that is not valid are refused as other implementations refuse the item."""
        rng = random.Random(0)
        for evidence in self.gathered:
            relay = ["--relay"] * evidence.relay
            for directory in dict.fromkeys([evidence.directory, texts.older(evidence.directory)]):
                for magic in (b"PRSTORE2", b"PRSTORE1"):
                    data = digits(rng, lines_of([directory, texts.store(evidence.items, magic)]))
                    yield ["status", *relay], data, TAKEN, evidence.report
                    yield ["merge", *relay], data, TAKEN, None
                    yield ["prove", str(rng.choice(evidence.nodes())), *relay], data, TAKEN, None
            for segment, answer in evidence.replayed:
                yield ["check", *relay], digits(rng, lines_of([evidence.directory, texts.proof(3, segment)])), answer, None
        for directory, item, refusal in self.refused:
            store = b"PRSTORE2" + number(8, 1) + number(4, len(item)) + item
            yield ["status"], digits(rng, lines_of([directory, store])), refusal, None
        yield ["run"], bytes_of("crates/node_sim/stdin"), TAKEN, bytes_of("crates/node_sim/stdout")
        yield ["run"], bytes_of("examples/scenario.txt"), TAKEN, None

    def input(self, place):
        rng = random.Random(f"{self.seed} {place}")
        make = rng.choices([self.of_store, self.of_proof, self.signed_store, self.signed_proof, self.of_scenario], [46, 20, 18, 10, 6])[0]
        words, data = make(rng)
        return words, data[: texts.LONGEST_TEXT]

    def words(self, rng, name, evidence):
        relay = rng.random() < (0.8 if evidence.relay else 0.25)
        if name == "prove":
            nodes = evidence.nodes()
            return [name, str(rng.choice([*nodes, *nodes, *nodes, 0, 2**32 - 1])), *["--relay"] * relay]
        return [name, *["--relay"] * relay]

    def spelled(self, rng, trees, changes):
        """The lines of the trees, after so many changes of one of them; some after damage of bytes, some of digits."""
        trees = list(trees)
        at = rng.randrange(1, len(trees)) if len(trees) > 1 and rng.random() < 0.85 else 0
        for _ in range(changes):
            trees[at] = texts.changed(rng, trees[at], self.pool)
        parts = lines_of(trees)
        if rng.random() < 0.2:
            parts[at] = texts.damaged(rng, parts[at], [*parts, rng.choice(self.parts)])
        data = digits(rng, parts)
        return texts.damaged_lines(rng, data) if rng.random() < 0.1 else data

    def directory(self, rng, evidence):
        return texts.older(evidence.directory) if rng.random() < 0.2 else evidence.directory

    def store(self, rng, items):
        items, magic = list(items), rng.choice([b"PRSTORE2", b"PRSTORE2", b"PRSTORE2", b"PRSTORE1"])
        if rng.random() < 0.5:
            items = rng.sample(items, rng.randrange(1, len(items) + 1))
        if rng.random() < 0.02:
            items.append(rng.choice(items))
        return texts.store(items, magic, rng.random() < 0.98)

    def of_items(self, rng, evidence, changes):
        name = rng.choice(["status", "status", "merge", "prove"])
        count = rng.choice([0, 1, 2, 2, 3]) if name == "merge" else 1
        stores = [self.store(rng, evidence.items) for _ in range(count)]
        return self.words(rng, name, evidence), self.spelled(rng, [self.directory(rng, evidence), *stores], changes)

    def of_store(self, rng):
        return self.of_items(rng, rng.choice(self.gathered), rng.choice([0, 1, 1, 1, 1, 2, 3]))

    def signed_store(self, rng):
        return self.of_items(rng, self.signing.evidence(rng), rng.choice([0, 0, 0, 1]))

    def of_proof(self, rng):
        evidence, tree = rng.choice(self.proofs)
        words = self.words(rng, "status" if rng.random() < 0.02 else "check", evidence)
        return words, self.spelled(rng, [self.directory(rng, evidence), tree], rng.choice([0, 1, 1, 1, 1, 2, 3]))

    def signed_proof(self, rng):
        evidence = texts.Evidence(self.signing.directory, (), False)
        return self.words(rng, "check", evidence), self.spelled(rng, [evidence.directory, self.signing.proof(rng)], rng.choice([0, 0, 0, 1]))

    def of_scenario(self, rng):
        lines = texts.scenario(rng)
        data = texts.changed_scenario(rng, lines) if rng.random() < 0.95 else "\n".join(lines).encode()
        workers = rng.choice([[], [], ["--workers", str(rng.randrange(1, 9))]])
        return ["run", *workers, *["--relay"] * (rng.random() < 0.25)], data


class Fault(Exception):
    pass


class Trial:
    """What is done with one input."""

    def __init__(self, options):
        self.options, self.machine = options, Machine(options.seconds, options.memory)
        self.runs, self.counts = 0, collections.Counter()

    def run(self, words, data):
        """How the runs of one input ended, which is the same for all. A fault is raised, with what came of each run."""
        came = [(program, self.machine.run(program, words, data)) for program in self.options.programs]
        self.runs += len(came)
        allowed, fits = answers(words, data)
        for _, ended in came:
            if fault := fault_of(words, ended, allowed, fits):
                raise Fault(fault, words, data, came)
        if any(ended != came[0][1] for _, ended in came):
            raise Fault("two runs differ", words, data, came)
        self.counts[words[0], said_by(came[0][1])] += 1
        return came[0][1]

    def input(self, words, data):
        """The runs of an input, and those that follow from it."""
        status, output, errors = self.run(words, data)
        relay = words[-1:] if words[-1] == "--relay" else []
        directory = data.split(b"\n")[0]
        if status == 0 and words[0] == "merge":
            self.then(["merge", *relay], directory + b"\n" + output, output.__eq__)
        if status == 0 and words[0] == "prove" and output != b"none\n":
            self.then(["check", *relay], directory + b"\n" + output, (b"exposes " + words[1].encode() + b"\n").__eq__)
        return status, output, errors

    def then(self, words, data, fits):
        ended = self.run(words, data)
        if ended[0] or not fits(ended[1]):
            raise Fault("what follows from another run is answered otherwise", words, data, [(self.options.programs[0], ended)])


def write(options, name, fault):
    """Writes the input of a fault, and how to run it again. Tells it in a line or two."""
    reason, words, data, came = fault.args
    os.makedirs(OUT, exist_ok=True)
    path = f"{OUT}/{name}"
    with open(f"{path}.input", "wb") as file:
        file.write(data)
    again = [
        f"(ulimit -v {most_memory(options.memory, words) >> 10}; timeout {options.seconds} {shlex.join([program, *words])} < {shlex.quote(path)}.input)"
        for program in dict.fromkeys(options.programs)
    ]
    told = [f"{program}: {status}\n{errors.decode(errors='replace')}{output.decode(errors='replace')[:2000]}" for program, (status, output, errors) in came]
    with open(f"{path}.txt", "w", encoding="utf-8") as file:
        file.write("\n".join([f"{name}: {' '.join(words)}: {reason}", *again, "", *told]) + "\n")
    return "\n".join([f"{name}: {' '.join(words)}: {reason}", *(f"    {line}" for line in again)])


def limit(options):
    """The limits that this process has from here on, and every program that it runs."""
    for kind, most in ((resource.RLIMIT_AS, most_memory(options.memory, ["run"])), (resource.RLIMIT_CORE, 0), (resource.RLIMIT_FSIZE, LONGEST_OUTPUT)):
        resource.setrlimit(kind, (most, most))


def begin(options, inputs):
    global TRIAL, INPUTS
    signal.signal(signal.SIGINT, signal.SIG_IGN)
    limit(options)
    TRIAL, INPUTS = Trial(options), inputs


def work(task):
    """The inputs of one chunk: how many runs, what came of them, and the faults."""
    known, first, last = task
    TRIAL.runs, TRIAL.counts, faults = 0, collections.Counter(), []
    for place in range(first, last):
        words, data, answer, output = INPUTS.known[place] if known else (*INPUTS.input(place), None, None)
        try:
            ended = TRIAL.input(words, data)
            if (answer or said_by(ended)) != said_by(ended) or (output or ended[1]) != ended[1]:
                raise Fault(f"{answer} is known to come of it", words, data, [(TRIAL.options.programs[0], ended)])
        except Fault as fault:
            faults.append((f"{'known' if known else INPUTS.seed}-{place}", fault))
        except Exception as error:
            raise RuntimeError(f"{'known text' if known else 'input'} {place}: {error}") from error
    return TRIAL.runs, TRIAL.counts, faults


def chunks(count, known):
    return [(known, first, min(first + CHUNK, count)) for first in range(0, count, CHUNK)]


def try_all(options, inputs):
    """Runs all, and tells what came of it: how many runs there were, and how many faults."""
    runs, faults, shown = 0, 0, time.monotonic()
    with multiprocessing.get_context("fork").Pool(options.jobs, begin, (options, inputs)) as pool:
        for name, tasks in (("known texts", chunks(len(inputs.known), True)), ("inputs", chunks(options.runs // 2, False))):
            counts = collections.Counter()
            for done, (more, counted, found) in enumerate(pool.imap_unordered(work, tasks), 1):
                runs, counts = runs + more, counts + counted
                for place, fault in found:
                    faults += 1
                    if faults <= MOST_WRITTEN:
                        print(write(options, place, fault), flush=True)
                if faults >= MOST_FAULTS:
                    print("given up")
                    return runs, faults
                if time.monotonic() > shown + 30:
                    shown = time.monotonic()
                    print(f"{name}: {done * CHUNK}, {faults} faults so far", flush=True)
            print(f"{name}, by command, with what came of them:")
            for line in told(counts):
                print(f"    {line}", flush=True)
    return runs, faults


def only(options, inputs):
    """One input: it is written, and what comes of it is told."""
    limit(options)
    words, data = inputs.input(options.only)
    name = f"{options.seed}-{options.only}"
    try:
        ended = Trial(options).input(words, data)
    except Fault as fault:
        print(write(options, name, fault))
        return 1
    print(write(options, name, Fault("no fault", words, data, [(options.programs[0], ended)])))
    return 0


def told(counts):
    """A line for each command: what came of it, and how often."""
    for name, refusals in LISTED.items():
        met = {kind: count for (command, kind), count in counts.items() if command == name}
        listed = ["0", *(f"{kind} {refusals[kind]}" for kind in sorted(refusals))]
        yield f"{name}: " + ", ".join(f"{kind}: {met[kind]}" for kind in listed if kind in met)
        if never := [kind for kind in listed if kind not in met]:
            yield f"    never: {', '.join(never)}"


def words_of():
    parser = argparse.ArgumentParser(description="Runs node_sim on texts that are nearly valid.")
    parser.add_argument("--runs", type=int, default=200_000, help="how many runs, two of each input (200000)")
    parser.add_argument("--seed", type=int, help="what the inputs are made from (one by chance)")
    parser.add_argument("--jobs", type=int, default=os.cpu_count(), help="how many processes run programs (one a processor)")
    parser.add_argument("--program", action="append", help="a build of node_sim; two may be given (both of the gate)")
    parser.add_argument("--memory", type=int, default=256, help="the limit of memory, in MiB, and an eighth of that of run (256)")
    parser.add_argument("--seconds", type=int, default=60, help="the limit of time of a run (60)")
    parser.add_argument("--only", type=int, help="runs this input alone, and writes it")
    options = parser.parse_args()
    options.programs = [os.path.abspath(it) for it in options.program or builds_of("node_sim")]
    if len(options.programs) == 1:
        options.programs *= 2
    if options.seed is None:
        options.seed = int.from_bytes(os.urandom(4), "big")
    return options


def main():
    options = words_of()
    print(f"fuzz: seed {options.seed}, {options.runs} runs, {options.jobs} jobs, {options.memory} MiB and {options.seconds} s each")
    for program in dict.fromkeys(options.programs):
        print(f"    {program}", flush=True)
    inputs = Inputs(options.seed)
    if options.only is not None:
        return only(options, inputs)
    begun = time.monotonic()
    runs, faults = try_all(options, inputs)
    print(f"fuzz: seed {options.seed}: {len(inputs.known)} known texts and {options.runs // 2} inputs, {runs} runs in all, in {time.monotonic() - begun:.0f} s, {faults} faults")
    return 1 if faults else 0


if __name__ == "__main__":
    sys.exit(main())
