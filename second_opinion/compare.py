#!/usr/bin/env python3
"""Holds check.py to what is stored, to mutated inputs, and to a built program.

    compare.py [PROGRAM] [--seconds S] [--seed N] [--cases FOLDER] [--first]

Without words: what the repository has stored, what is signed and bundled here, and some mutated inputs beside checks/fuzz/answers.py, which
reads the formats by other code. The gate runs it so, and it wants no build. With a PROGRAM, a build of node_sim, the mutated inputs of
checks/fuzz/run.py are handed to it and to check.py, for so many seconds (60); without one checks/fuzz/answers.py is asked for so many. A FOLDER has
inputs NNN.args and NNN.stdin with what is wanted, NNN.stdout and NNN.stderr.

Ends with 1 where an answer differs, and where fewer cases were found than a source must have.
"""

import argparse
import ast
import collections
import itertools
import os
import random
import re
import subprocess
import sys
import tempfile
import time

sys.dont_write_bytecode = True

import boundaries
import check
import forms
import make_bundle
import stored
from check import Refused, sha256, u32, u64

HERE = os.path.dirname(os.path.abspath(__file__))
sys.path.append(f"{stored.TOP}/checks/fuzz")
# How many cases each source has at least
LEAST = {"tour": 13, "mailbox": 7, "explained": 10, "page": 11, "refusals": 34, "boundaries": 237, "vectors": 363, "cuts": 9640}
LEAST.update({"verdicts": 83, "proofs": 264, "falling": 201, "bundles": 150, "forms": 263, "process": 45, "why": 200, "program": 1, "cases": 1})
LEAST["mutated"] = 200
MOST_LINES = 720
DIGITS = b"0123456789abcdefABCDEF"


def words_of(words):
    """The words of node_sim's commands, as those of check.py."""
    program = "relay" if "--relay" in words else words[2] if "--program" in words else "tally"
    return argparse.Namespace(program=program, store=words[0] == "status", why=words[0] == "why")


def answered(words, *files):
    """The status, what is written, and what is told beside it, of files with these bytes."""
    status, lines, beside = check.answer(words, [(name, lambda text=text: text) for name, text in files])
    return status, "".join(f"{line}\n" for line in lines), "".join(f"{line}\n" for line in beside)


def opinion(words, *texts):
    """What the second opinion writes of one file or of several, as an answer or a refusal without its place: of a proof the first line, if why
    is not asked."""
    try:
        told = answered(words_of(words), *((f"input {number}", text) for number, text in enumerate(texts, 1)))[1]
        return told.partition("\n")[0] + "\n" if words[0] == "check" else told
    except Refused as refused:
        refused.places.clear()
        return f"{refused}\n"


class Tried:
    """How many cases agree, by source, and how many differ."""

    def __init__(self, ends_at_first=False):
        self.agreed, self.differ, self.ends_at_first = collections.Counter(), 0, ends_at_first

    def hold(self, source, name, found, wanted):
        self.agreed[source] += found == wanted
        if found != wanted:
            self.differ += 1
            if self.differ <= 20:
                print(f"DIFFERS {source}, {name}: wanted {wanted!r}, and here it is {found!r}")
            if self.ends_at_first:
                sys.exit(1)

    def case(self, case):
        self.hold(case.source, case.name, opinion(case.words, *case.files()), case.wanted)
        if case.words[0] == "check":
            told = opinion(["why", *case.words[1:]], *case.files())
            self.hold("why", case.name, told.splitlines(keepends=True)[0], case.wanted)


def hold_stored(tried):
    """All that is stored, and what is signed and bundled here."""
    tried.hold("file", "lines of check.py", len(stored.read("second_opinion/check.py").splitlines()) <= MOST_LINES, True)
    hold_example(tried)
    tried.hold("file", "what it imports", imported(stored.read("second_opinion/check.py")), STANDARD)
    sources = stored.tours, stored.mailbox, stored.explained, stored.page, stored.refusals, stored.vector_cases, *boundaries.SOURCES
    for case in itertools.chain(*(cases() for cases in sources)):
        tried.case(case)
    for vector in stored.vectors():
        if vector.kind == "store":
            hold_store(tried, vector)
        elif vector.words[1] in ("conforms", "deviates"):
            hold_verdict(tried, vector)
    hold_falling(tried)
    for form, found, wanted in forms.tried():
        tried.hold("forms", form, found, wanted)
    hold_process(tried)
    for case in [*stored.tours(), *stored.mailbox()]:
        if case.words[0] == "check":
            hold_bundle(tried, case)


def hold_example(tried):
    """The bundle of `examples/` is that of the tour's proof, but for what it was made by."""
    directory, proof = next(case.lines for case in stored.tours() if case.name == "wrong_output, proof")
    wanted = "".join(f"{line}\n" for line in make_bundle.bundle("tally", directory, proof))
    found = stored.read("examples/wrong_output.bundle").decode()
    tried.hold("file", "examples/wrong_output.bundle", *(re.sub("# Made with .*", "", text) for text in (found, wanted)))


STANDARD = {"argparse", "binascii", "contextlib", "functools", "hashlib", "re", "sys", "collections"}


def imported(source):
    """What a text of Python 3.9 imports."""
    found = set()
    for node in ast.walk(ast.parse(source, feature_version=(3, 9))):
        found.update(it.name for it in getattr(node, "names", []) if isinstance(node, ast.Import))
        found.update([node.module] if isinstance(node, ast.ImportFrom) else [])
    return found


def hold_verdict(tried, vector):
    """The verdict on a segment, with the place and the reason."""
    directory, segment = check.read_directory(vector.directory), check.read_item(stored.item_in(vector.words[0]))
    replayed = check.replayed(directory, check.PROGRAMS[vector.kind], segment, segment.quotes(directory))
    places = [f"deviates {place} {reason} {check.REASONS[reason - 1]}" for place, (_, _, reason, _) in enumerate(replayed) if reason]
    tried.hold("verdicts", vector.words[1:], places[-1] if places else "conforms", " ".join(vector.words[1:]))


def hold_store(tried, vector):
    """How many challenges to each node are open; and that what the store holds makes proofs against just the nodes that it exposes."""
    directory, rows = check.read_directory(vector.directory), vector.words[3:-1]
    items = stored.items_in(*vector.words[:2])
    read = check.read_store(directory, stored.store_of(items))
    evidence = check.Evidence(directory, check.PROGRAMS["tally"], read.values())
    is_open = collections.Counter(evidence.unanswered())
    told = [(int(node), int(count)) for node, count in zip(rows[::4], rows[2::4])]
    tried.hold("proofs", "open challenges", [(node, is_open[node]) for node, _ in told], told)
    wanted = {int(node) for node, word in zip(rows[::4], rows[1::4]) if word == "exposed"}
    tried.hold("proofs", "convicted", convicted_by(vector.directory, evidence, items), wanted)


def hold_falling(tried):
    """A segment whose numbers do not rise is contradicted by none of the statements that its node signed in other items."""
    said, falling = collections.defaultdict(set), []
    for vector in stored.vectors():
        if vector.kind in check.PROGRAMS and vector.words[1] != "refused":
            said[vector.directory].update(check.read_item(stored.item_in(vector.words[0])).statements)
            falling += [(vector.directory, stored.item_in(vector.words[0]))] * (vector.words[-1] == "SeqOrder")
    for directory, segment in falling:
        for statement in sorted(it for it in said[directory] if u32(it.node) == segment[1:5]):
            found = opinion(["check"], stored.input_of(directory, stored.proof_of(2, spelled(statement), segment)))
            tried.hold("falling", statement.number, found, "refused 50 NoContradiction\n")


def spelled(statement):
    """The item that is this statement alone."""
    node, number, digest, signature = statement
    return b"\x01" + u32(node) + u64(number) + digest + check.sized(signature)


def convicted_by(directory, evidence, items):
    """Whom the proofs convict that can be made of the statements and the segments."""
    said = sorted(spelled(statement) for statement in evidence.held)
    segments = [item for item in items if item[:1] == b"\x02"]
    proofs = [stored.proof_of(3, segment) for segment in segments]
    proofs += [stored.proof_of(1, one, two) for one, two in itertools.combinations(said, 2)]
    proofs += [stored.proof_of(2, one, segment) for one in said for segment in segments]
    found = [opinion(["check"], stored.input_of(directory, proof)) for proof in proofs]
    return {int(told.split()[1]) for told in found if told.startswith("exposes")}


def hold_bundle(tried, case):
    """The bundle of a proof is read as it is; one with a line at fault is refused with the number of that line."""
    program, (directory, proof) = words_of(case.words).program, case.lines
    lines = [f"{line}\n" for line in make_bundle.bundle(program, directory, proof)]
    told = f"{case.wanted}program {program}\ndirectory {sha256(directory).hex()}\n"

    def hold(name, text, wanted, asked=None):
        words = argparse.Namespace(program=asked, store=False, why=False)
        try:
            status, *found = answered(words, ("bundle", text.encode("latin-1")))
        except Refused as refused:
            status, found = 1, [f"{refused}\n", ""]
        ends = 5 if "disagrees" in wanted else 1 if wanted.startswith("refused") else 0
        tried.hold("bundles", f"{case.name}, {name}", (status, found), (ends, [wanted, ""]))

    hold("whole", "".join(lines), told)
    tried.hold("bundles", "two lines", "".join(lines[-2:]).encode(), case.text())
    short = [lines[0], *lines[-3:]]
    hold("without sentences", "".join(short), told)
    named = "".join([short[0], "program other_1\n", *short[2:]])
    hold("another program", named, "refused 109 UnknownProgram: bundle\n")
    hold("the asked program", named, f"{told}disagrees: the bundle names the program other_1\n", program)
    hold("format 1", "".join(["bulwynef bundle 1\n", *short[1:]]), "refused 131 OlderBundle: bundle\n")
    hold("the first line of format 1", "bulwynef bundle 1\n", "refused 131 OlderBundle: bundle\n")
    for place, line in (
        *((place, "") for place in (2, 4)),
        (1, "bulwynef bundle 1"),
        (1, "bulwynef bundle 1 \n"),
        (1, "bulwynef bundle 3\n"),
        (2, "#\tsentence\n"),
        (2, "# \x1b[2J\n"),
        (2, "program Other\n"),
        (2, "program  other\n"),
        (2, "program \n"),
        (2, f"program {33 * 'a'}\n"),
        (3, "exposes 2\n"),
        (3, short[2].replace("\n", "0\n")),
        (4, short[3].replace("\n", "0\n")),
        (3, short[2].upper()),
        (4, short[3][:-1]),
        (5, "# no sentence\n"),
        (5, "\n"),
    ):
        broken = "".join([*short[: place - 1], line, *short[place:]])
        hold(f"line {place}", broken, f"refused 106 BadBundle: bundle, line {place}\n")


def hold_process(tried):
    """How the command ends as a process: by words, by files of bytes and of digits, and by its devices."""
    good, proof = next(it for it in stored.tours() if "exposed" in it.wanted), next(it for it in stored.tours() if it.words[0] == "check")
    refused = "refused %s\n"
    with tempfile.TemporaryDirectory() as folder:
        os.chdir(folder)
        files = {"directory": good.lines[0], "store": good.lines[1], "proof": proof.lines[1], "digits": good.lines[1].hex().encode() + b"\n"}
        files.update({"both": proof.text(), "empty": b"", "odd": good.text()[:-2], "returns": good.text().replace(b"\n", b"\r\n")})
        files["two"] = b"PRDIREC2" + u32(2) + files["directory"][12:246]
        files["bundle"] = "".join(f"{line}\n" for line in make_bundle.bundle("tally", *proof.lines)).encode()
        for name, data in files.items():
            with open(name, "wb") as file:
                file.write(data)
        told = f"program tally\ndirectory {sha256(files['directory']).hex()}\n"
        of_two = f"{proof.wanted}program tally\ndirectory {sha256(files['two']).hex()}\n"
        tally, store = "--program tally", "--program tally --store"
        for words, output, status, wanted in (
            *((words, None, 2, "") for words in ("", store, f"--why {store} directory store", f"{tally} directory proof proof", "--program x both")),
            *((words, None, 2, "") for words in ("--store directory store", "directory proof", "both", "directory", "directory empty", "- < both")),
            (f"{store} directory store", None, 3, good.wanted + told),
            (f"{store} directory digits", None, 3, good.wanted + told),
            (f"{store} directory store digits", None, 3, good.wanted + told),
            (f"{store} - < both", None, 1, refused % "60 BadMagic: -, line 2"),
            (f"{tally} directory proof", None, 0, proof.wanted + told),
            (f"{tally} directory - < proof", None, 0, proof.wanted + told),
            (f"{tally} both", None, 0, proof.wanted + told),
            ("bundle", None, 0, proof.wanted + told),
            ("- < bundle", None, 0, proof.wanted + told),
            ("directory bundle", None, 0, proof.wanted + told),
            ("two bundle", None, 5, of_two + f"disagrees: the bundle has the {told.splitlines()[1]}\n"),
            ("proof bundle", None, 1, refused % "23 BadMagic: proof"),
            (f"{tally} empty bundle", None, 1, refused % "24 Truncated: empty"),
            ("both bundle", None, 1, refused % "104 LineCount: both"),
            ("--program relay bundle", None, 5, None),
            (f"{tally} proof directory", None, 1, refused % "23 BadMagic: proof"),
            (f"{tally} directory store", None, 1, refused % "41 BadTag: store"),
            (f"{tally} directory", None, 1, refused % "104 LineCount: directory"),
            (f"{tally} empty", None, 1, refused % "104 LineCount: empty"),
            (f"{store} odd", None, 1, refused % "103 BadHex: odd, line 2"),
            (f"{store} returns", None, 1, refused % "103 BadHex: returns, line 1"),
            (f"{tally} directory missing", None, 1, refused % "100 ReadFailed: missing"),
            (f"{tally} directory .", None, 1, refused % "100 ReadFailed: ."),
            (f"{tally} both", "/dev/full", 1, refused % "102 WriteFailed"),
        ):
            words, _, given = words.partition(" < ")
            with open(output or os.devnull, "wb") as sink, open(given or os.devnull, "rb") as source:
                streams = {"stdout": sink if output else subprocess.PIPE, "stderr": subprocess.PIPE, "stdin": source}
                done = subprocess.run([sys.executable, f"{HERE}/check.py", *words.split()], **streams)
            found = ((done.stdout or b"") + done.stderr * (status != 2)).decode()
            tried.hold("process", words, (done.returncode, wanted if wanted is None else found), (status, wanted))
            if status == 2 and "directory" in words and "--program" not in words:
                is_told = done.stderr.endswith(b"no verdict without a program: --program NAME says which one the nodes were to follow: tally, relay, mailbox\n")
                tried.hold("process", f"{words}: a program is wanted", is_told, True)
        for words, status, wanted in (
            ("directory proof", 2, ""),
            (f"{tally} directory proof proof", 2, ""),
            (f"{tally} directory proof", 0, files["bundle"].decode()),
            (f"{tally} both", 0, files["bundle"].decode()),
            (f"{tally} directory", 1, refused % "104 LineCount: directory"),
            (f"{tally} both proof", 1, refused % "104 LineCount: both"),
        ):
            done = subprocess.run([sys.executable, f"{HERE}/make_bundle.py", *words.split()], capture_output=True)
            found = (done.stdout + done.stderr * (status != 2)).decode()
            tried.hold("process", f"make_bundle.py {words}", (done.returncode, found), (status, wanted))
        os.chdir(HERE)


def written_by(program, words, text):
    """What a program writes, as an answer or a refusal; and else how it ended."""
    try:
        done = subprocess.run([program, *words], input=text, capture_output=True, timeout=60)
    except subprocess.TimeoutExpired:
        return "no answer in 60 seconds"
    told = {0: done.stdout, 1: done.stderr}.get(done.returncode)
    if told is None or (done.stdout if done.returncode else done.stderr):
        return f"ended with {done.returncode}, {done.stdout!r}, {done.stderr!r}"
    return told.decode("latin-1")


def is_alike(words, text):
    """Whether node_sim and check.py read the same here. The latter has two of the commands; it reads what has no eight digits at its beginning
    as bytes, and a blank second line as no line."""
    is_digits, lines = len(text) >= 8 and not text[:8].strip(DIGITS), text.split(b"\n")
    return words[:1] in (["status"], ["check"]) and words[1:] in ([], ["--relay"]) and is_digits and (lines[1:2] != [b""] or len(lines) == 2)


def mutated_inputs(seed):
    """The inputs of checks/fuzz/run.py that are read alike, known ones first."""
    import run as fuzz

    inputs = fuzz.Inputs(seed)
    known = [(f"known {at}", *it[:2]) for at, it in enumerate(inputs.known)]
    random.Random(seed).shuffle(known)
    for name, words, text in itertools.chain(known, ((f"{seed}-{at}", *inputs.input(at)) for at in itertools.count())):
        if is_alike(words, text):
            yield name, words, text


def hold_mutated(tried, options, least):
    """Each input beside the program, or else beside what checks/fuzz/answers.py allows; for some seconds, and not less than so many."""
    from answers import answers

    end = time.monotonic() + options.seconds
    for count, (name, words, text) in enumerate(mutated_inputs(options.seed)):
        if time.monotonic() > end and count >= least:
            break
        found = opinion(words, text)
        if options.program:
            tried.hold("program", f"{name}, {' '.join(words)}", found, written_by(options.program, words, text))
            continue
        allowed, fits = answers(words, text)
        is_refused = found.startswith("refused ")
        said = found[len("refused ") : -1] if is_refused else "0"
        holds = said in allowed and (is_refused or fits(found.encode()))
        tried.hold("mutated", f"{name}, {' '.join(words)}", found if not holds else "", "")


def hold_cases(tried, folder):
    """The cases of a folder that are read alike."""
    for name in sorted(it[:-5] for it in os.listdir(folder) if it.endswith(".args")):
        words, text = read(f"{folder}/{name}.args").decode().split("\n")[:-1], read(f"{folder}/{name}.stdin")
        if is_alike(words, text):
            status, told, errors = (read(f"{folder}/{name}.{ending}").decode() for ending in ("status", "stdout", "stderr"))
            tried.hold("cases", f"{name}, {' '.join(words)}", opinion(words, text), errors if int(status) else told)


def read(path):
    with open(path, "rb") as file:
        return file.read()


def main():
    parser = argparse.ArgumentParser(description="Holds check.py to what is stored, to mutated inputs, and to a built program.")
    parser.add_argument("program", nargs="?", type=os.path.abspath, help="a build of node_sim")
    parser.add_argument("--seconds", type=int, help="how long mutated inputs are tried (60 with a program, else as long as 200 take)")
    parser.add_argument("--seed", type=int, default=1, help="what mutated inputs are made from (1)")
    parser.add_argument("--cases", type=os.path.abspath, help="a folder of inputs with what is wanted")
    parser.add_argument("--first", action="store_true", help="end at the first answer that differs")
    options = parser.parse_args()
    options.seconds = options.seconds if options.seconds is not None else 60 if options.program else 0
    tried, sources = Tried(options.first), set(LEAST) - {"program", "cases", "mutated"}
    hold_stored(tried)
    hold_mutated(tried, options, LEAST["mutated"])
    sources.add("program" if options.program else "mutated")
    if options.cases:
        hold_cases(tried, options.cases)
        sources.add("cases")
    for source, count in tried.agreed.items():
        print(f"{source}: {count} agree")
    few = [source for source in sources if tried.agreed[source] < LEAST[source]]
    print(f"second opinion: {sum(tried.agreed.values())} agree, {tried.differ} differ" + "".join(f", too few of {it}" for it in few))
    return 1 if tried.differ or few else 0


if __name__ == "__main__":
    sys.exit(main())
