#!/usr/bin/env python3
"""Builds the test of libbulwynef.a as C11 and as C++, and runs it: the scene and the refusals of c/test.c, each allocation refused in turn,
and the evidence of examples/ beside what second_opinion/check.py says of it and what is stored in examples/explained. Runs c/example.c as
both. Builds checkproof as one static file, c/out/checkproof, and holds it to the same, and to second_opinion/forms.txt on files of each form.

    run.py                     wants crates/bulwynef_c/out/libbulwynef_c.a, which c/library.py makes
    run.py --cases FOLDER      also each case N of a folder with N.args, N.stdin, N.stdout and N.status
    run.py --sanitize          also with AddressSanitizer and UndefinedBehaviorSanitizer on the C side
    run.py --valgrind          also the scene and the refusals under valgrind
    run.py --archive           only puts the archive and heap.c into c/out/libbulwynef.a

Ends with 1 where something differs.
"""

import argparse
import hashlib
import os
import shutil
import subprocess
import sys

TOP = os.path.dirname(os.path.dirname(os.path.abspath(__file__)))
sys.path.insert(0, f"{TOP}/second_opinion")
sys.dont_write_bytecode = True

import forms

HERE = f"{TOP}/c"
OUT = f"{HERE}/out"
BUILT = f"{TOP}/crates/bulwynef_c/out/libbulwynef_c.a"
EXAMPLES = "answer equivocation exchange hidden_entry second_key silence spreading status_equivocation two_witnesses wrong_output".split()
# What c/example.c writes, without the sentences that say why, and without the sums of what it makes anew each time
WRITTEN = """a message to it: 2 is suspected
its acknowledgement: 2 is trusted
an acknowledgement by a second log: 2 is exposed
the proof exposes 2
program tally
The proof exposes node 2 by two statements.
2 exposed
"""
SECOND = [sys.executable, f"{TOP}/second_opinion/check.py", "--program", "tally"]
NAMED = "--program NAME says which program the nodes were to follow: tally, relay, mailbox"
# The words by which checkproof reads a file as a directory and as a proof, by the columns of forms.txt
PLACES = {"C": "--program tally FILE proof", "P": "--program tally nodes FILE"}
WARNINGS = ["-Wall", "-Wextra", "-Werror"]
# How many words each command has beside --relay
COUNTS = {"status": 1, "merge": 1, "check": 1, "prove": 2}


def build(name, compiler, *flags):
    """A program of c/test.c over the archive as Rattle built it; the test has a heap of its own."""
    program = f"{OUT}/{name}"
    subprocess.run([*compiler, *WARNINGS, *flags, "-o", program, f"{HERE}/test.c", "-x", "none", BUILT], check=True)
    return program


def archive():
    """c/out/libbulwynef.a: what Rattle built, and heap.c, in one file."""
    subprocess.run(["cc", "-std=c11", "-O2", "-fPIC", *WARNINGS, "-c", "-o", f"{OUT}/heap.o", f"{HERE}/heap.c"], check=True)
    shutil.copy(BUILT, f"{OUT}/libbulwynef.a")
    subprocess.run(["ar", "r", f"{OUT}/libbulwynef.a", f"{OUT}/heap.o"], check=True, stderr=subprocess.DEVNULL)


def differs_in_example(name, compiler):
    """What c/example.c writes otherwise than is wanted, linked as its head says."""
    program = f"{OUT}/{name}"
    subprocess.run([*compiler, *WARNINGS, "-o", program, f"{HERE}/example.c", "-x", "none", f"{OUT}/libbulwynef.a"], check=True)
    status, text, error = said([program], "")
    lines = "".join(line for line in text.splitlines(keepends=True) if not line.startswith(("  ", "directory ")))
    return [] if (status, lines, error) == (0, WRITTEN, "") and lines != text else [f"{name}: {status} {text!r} {error!r}"]


def said(words, given):
    ran = subprocess.run(words, input=given.encode("latin-1"), capture_output=True, timeout=300)
    return ran.returncode, ran.stdout.decode("latin-1"), ran.stderr.decode("latin-1")


def read(path):
    with open(path, encoding="latin-1", newline="") as file:
        return file.read()


def differs_on_example(program, name):
    """What the program says of an example otherwise than the second opinion, of each node and by a proof of each that is exposed, or than is
    stored of why, under which program, directory and evidence."""
    text = read(f"{TOP}/examples/{name}.txt")
    if text.count("\n") > 2:
        text = text.splitlines()[0] + "\n" + said([program, "merge"], text)[1]
    wanted = [said([*SECOND, "--store", "-"], text)[1], " ".join(said([*SECOND, "-"], text)[2].split()[:2]) + "\n"]
    found = [said([program, what], text)[1] for what in ("status", "check")]
    for node in [line.split()[0] for line in wanted[0].splitlines() if line.endswith(" exposed")]:
        proof = text.splitlines()[0] + "\n" + said([program, "prove", node], text)[1]
        wanted += [f"exposes {node}\n", stored(f"{name}.proof{node}")]
        found += [said([*SECOND, "-"], proof)[1].partition("program")[0], said([program, "proof"], proof)[1]]
    wanted.append(stored(name))
    found.append(said([program, "store"], text)[1])
    return [f"{name}: {one!r} and not {other!r}" for one, other in zip(found, wanted) if one != other]


def stored(name):
    """What is explained, behind the two lines that the library writes in place of the three that say of which program, directory and evidence."""
    directory = bytes.fromhex(read(f"{TOP}/examples/{name.split('.')[0]}.txt").splitlines()[0])
    sentences = read(f"{TOP}/examples/explained/{name}.txt").splitlines(keepends=True)[3:]
    return f"program tally\ndirectory {hashlib.sha256(directory).hexdigest()}\n" + "".join(sentences)


def checkproof():
    """checkproof as a file that wants no library of the system; it has to be below two megabytes."""
    program = f"{OUT}/checkproof"
    subprocess.run(["cc", "-std=c11", "-O2", "-static", "-s", *WARNINGS, "-o", program, f"{HERE}/checkproof.c", f"{OUT}/libbulwynef.a"], check=True)
    if os.path.getsize(program) >= 2_000_000:
        sys.exit(f"{program} has {os.path.getsize(program)} bytes")
    return program


def write(name, data):
    with open(f"{OUT}/{name}", "wb") as file:
        file.write(data)


def files_of(test, name):
    """The directory of an example and a proof of its node 2 as files, in digits and in bytes."""
    text = read(f"{TOP}/examples/{name}.txt")
    for kind, line in (("directory", text.split("\n")[0]), ("proof", said([test, "prove", "2"], text)[1].strip())):
        for ending, told in ((".txt", line.encode() + b"\n"), ("", bytes.fromhex(line))):
            write(f"{kind}{ending}", told)
    return [[f"{OUT}/directory{ending}", f"{OUT}/proof{ending}"] for ending in (".txt", "")]


def differs_on_checkproof(test, program):
    """What checkproof says otherwise than the second opinion, or than is wanted of words and files that are no good."""
    told = []
    for name in ("wrong_output", "equivocation"):
        for files in files_of(test, name):
            one, other = (said([*words, *files], "") for words in ([program, "--program", "tally"], SECOND))
            told.append((name, (one[0], one[1], one[2].split()[:2]), (other[0], other[1], other[2].split()[:2])))
    good = files_of(test, "wrong_output")[0]
    tally = [program, "--program", "tally"]
    told.append(("swapped", said([*tally, *good[::-1]], "")[::2], (1, "refused 23 BadMagic\n")))
    told.append(("another program", said([program, "--program", "relay", *good], "")[:2], (1, "")))
    told.append(("no file", said([*tally, good[0], f"{OUT}/none"], "")[::2], (1, f"refused 100 ReadFailed: {OUT}/none\n")))
    told.append(("two lines", said([*tally, f"{TOP}/examples/wrong_output.txt", good[1]], "")[2].split()[:2], ["refused", "104"]))
    told.append(("no words", said(tally, "")[0], 2))
    for name, words in (("no program", []), ("no such program", ["--program", "other"]), ("an empty name", ["--program", ""])):
        status, text, error = said([program, *words, *good], "")
        told.append((name, (status, text, error.splitlines()[:1]), (2, "", [NAMED])))
    return [f"checkproof, {name}: {one!r} and not {other!r}" for name, one, other in told if one != other]


def differs_on_forms(program):
    """What checkproof says of a file of each form otherwise than the table. It names the file where its form is refused, and else none."""
    texts, told = forms.Texts(), []
    for name, data in texts.files().items():
        write(name, data)
    for form, place, word in forms.rows():
        if place in PLACES:
            write("file", forms.forms_of(texts, texts.in_place(place))[form])
            (status, text), wanted = forms.said_by(program, OUT, PLACES[place]), forms.wanted_of(texts, place, word)
            told.append((f"{form} ({place})", (status, text.removesuffix(": file")), (wanted[0], wanted[1].removesuffix(": file"))))
    return [f"checkproof, {name}: {one!r} and not {other!r}" for name, one, other in told if one != other]


def differs_on_case(program, folder, name):
    words = read(f"{folder}/{name}.args").split()
    if len([word for word in words if word != "--relay"]) != COUNTS.get(words[0] if words else ""):
        return None
    given, *wanted = (read(f"{folder}/{name}.{part}") for part in ("stdin", "status", "stdout", "stderr"))
    status, text, _ = said([program, *words], given)
    if wanted[0].strip() != "0":
        return (status, text) != (1, " ".join(wanted[2].split()[:2]) + "\n")
    if words[0] == "prove" and wanted[1] != "none\n":
        relay = [word for word in words if word.startswith("-")]
        node = next(word for word in words[1:] if word not in relay)
        return said([program, "check", *relay], given.split("\n")[0] + "\n" + text)[1] != f"exposes {node}\n"
    return (status, text) != (0, wanted[1])


def differs_on_cases(program, folder):
    names = sorted(file.removesuffix(".args") for file in os.listdir(folder) if file.endswith(".args"))
    told = {name: differs_on_case(program, folder, name) for name in names}
    wrong = [name for name, differs in told.items() if differs]
    tried = sum(differs is not None for differs in told.values())
    print(f"{tried} cases of {folder}, {len(wrong)} differ: {' '.join(wrong[:20])}")
    return 0 if tried and not wrong else 1


def main():
    parser = argparse.ArgumentParser(description=__doc__, formatter_class=argparse.RawDescriptionHelpFormatter)
    parser.add_argument("--cases")
    parser.add_argument("--sanitize", action="store_true")
    parser.add_argument("--valgrind", action="store_true")
    parser.add_argument("--archive", action="store_true")
    words = parser.parse_args()
    if not os.path.exists(BUILT):
        sys.exit(f"{BUILT} is not there: c/library.py makes it")
    os.makedirs(OUT, exist_ok=True)
    archive()
    if words.archive:
        return 0
    program = build("test", ["cc", "-std=c11"], "-O2")
    runs = [[program, "self"], [program, "fails"], [build("test_cpp", ["g++", "-x", "c++"], "-O2"), "self"]]
    if words.sanitize:
        careful = build("test_san", ["cc", "-std=c11"], "-O1", "-g", "-fsanitize=address,undefined", "-fno-sanitize-recover=all")
        runs += [[careful, "self"], [careful, "fails"]]
    if words.valgrind:
        runs.append(["valgrind", "--quiet", "--leak-check=full", "--error-exitcode=9", program, "self"])
    wrong = sum(subprocess.run(run).returncode != 0 for run in runs)
    told = [*differs_in_example("example", ["cc", "-std=c11"]), *differs_in_example("example_cpp", ["g++", "-x", "c++"])]
    proving = checkproof()
    told += [*differs_on_checkproof(program, proving), *differs_on_forms(proving)]
    for line in [*told, *(line for name in EXAMPLES for line in differs_on_example(program, name))]:
        print(line)
        wrong += 1
    if words.cases:
        wrong += differs_on_cases(program, words.cases)
    print(f"c: {len(runs)} runs and {len(EXAMPLES)} examples, {wrong} wrong")
    return 1 if wrong else 0


if __name__ == "__main__":
    sys.exit(main())
