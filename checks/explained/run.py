#!/usr/bin/env python3
"""Holds what `bulwynef explain` writes of each text of examples/ to what is stored in examples/explained/, text and page, by both builds.

Each line stands in a file of its own. Several stores are explained as they are, and as the one store that `node_sim merge` makes of them: but for the
line that names it both say the same. Of each node that the store exposes, what `node_sim prove` writes is explained as well. Then each reason of a
deviation, each form of proof and each kind of challenge: `cases.py` makes the inputs, and `cases.txt` has by hand what is told; and stores of many
nodes, of which `drawn.py` has the logs that a page draws. Then files that `bulwynef` refuses, and lines that `node_sim`
refuses: `bad_inputs.py` has each, made of an example, with what tells it.

Wants both builds of bulwynef, and node_sim, which `rt ci` leaves (builds.py). `checks/explained/run.py --write` stores what the build by LLVM
writes.
"""

import hashlib
import html
import os
import re
import subprocess
import sys
import tempfile

sys.dont_write_bytecode = True
TOP = os.path.dirname(os.path.dirname(os.path.dirname(os.path.abspath(__file__))))
sys.path.append(f"{TOP}/checks")

from bad_inputs import bad_files, bad_lines
from builds import builds_of
from cases import cases, mails
from drawn import drawn

EXAMPLES, STORED = f"{TOP}/examples", f"{TOP}/examples/explained"
NODE_SIM = f"{TOP}/crates/node_sim/out/node_sim"

failed = []
passed = 0


def run(words, text=b""):
    done = subprocess.run(words, input=text, capture_output=True, timeout=120)
    return done.returncode, done.stdout, done.stderr


def hold(what, is_so, found=""):
    global passed
    if is_so:
        passed += 1
    else:
        failed.append(what)
        print(f"FAILED {what} {found}")


def made(words, text):
    status, out, error = run([NODE_SIM, *words], text)
    assert status == 0, (words, error)
    return out


def explained(build, subject, text, page=False, more=()):
    """What `bulwynef explain` ends with, and what it writes of the lines of a text, each in a file of its own; of a page what stands in its file."""
    with tempfile.TemporaryDirectory() as folder:
        names = []
        for number, line in enumerate(text.split()):
            names.append(f"{folder}/{number}")
            with open(names[-1], "wb") as it:
                it.write(bytes.fromhex(line.decode()))
        words = [build, "explain", *more, *([] if subject == "directory" or "--program" in more else ["--program", "tally"]), "--directory", names[0]]
        words += {"store": names[1:], "proof": ["--proof", *names[1:]], "directory": []}[subject]
        status, out, error = run([*words, "--html", f"{folder}/page"] if page else words)
        if page and status in (0, 3):
            with open(f"{folder}/page", "rb") as it:
                out += it.read()
        left = set(os.listdir(folder)) - {str(number) for number in range(len(names))} - {"page"}
        hold("no file is left", not left, left)
    return status, out, error


def inputs():
    """Each name with its subject and its input: what examples/ has, merged where it has several stores, and the proofs of it."""
    for file in sorted(os.listdir(EXAMPLES)):
        name, ending = os.path.splitext(file)
        if ending != ".txt":
            continue
        with open(f"{EXAMPLES}/{file}", "rb") as it:
            text = it.read()
        lines = text.splitlines(keepends=True)
        if name == "scenario":
            continue
        if len(lines) > 2:
            yield f"{name}.stores", "store", text
            text = lines[0] + made(["merge"], text)
        yield name, "store", text
        yield f"{name}.directory", "directory", lines[0]
        for line in made(["status"], text).split(b"\n"):
            if line.endswith(b" exposed"):
                node = line.split()[0].decode()
                yield f"{name}.proof{node}", "proof", lines[0] + made(["prove", node], text)


def compare(name, subject, text, build):
    """Both forms of one input, by one worker and by eight."""
    told = explained(build, subject, text)
    page = explained(build, subject, text, page=True)
    for ending, (status, found, error) in (".txt", told), (".html", page):
        file = f"{STORED}/{name}{ending}"
        if "--write" in sys.argv and not build.endswith(".by-rattle"):
            with open(file, "wb") as it:
                it.write(found)
        stored = open(file, "rb").read() if os.path.isfile(file) else None
        hold(f"{name}{ending} by {os.path.basename(build)}", stored == found)
        wanted = 3 if re.search(rb"^\d+ exposed$", told[1], re.M) else 0
        hold(f"{name}{ending} ends", status == wanted and not error, (status, error))
    for workers in ("1", "8"):
        hold(f"{name} by {workers} workers", explained(build, subject, text, more=["--workers", workers]) == told)


def items_of(store):
    """Where each item of a store begins, and how long it is."""
    at, found = 16, []
    while at < len(store):
        size = int.from_bytes(store[at : at + 4], "big")
        found.append((at + 4, size))
        at += 4 + size
    return found


def example():
    """The lines of an example, its proof, and where its items stand."""
    with open(f"{EXAMPLES}/equivocation.txt", "rb") as it:
        text = it.read()
    directory, store = text.split(b"\n")[:2]
    return directory, store, made(["prove", "2"], text).strip(), items_of(bytes.fromhex(store.decode()))


def tells(build):
    """Each bad file is refused by its line, to the letter, and nothing is written."""
    with open(f"{EXAMPLES}/wrong_output.bundle", "rb") as it:
        bundle = it.read()
    for words, files, wanted in bad_files(*example(), bundle):
        with tempfile.TemporaryDirectory() as folder:
            for name, text in files.items():
                with open(f"{folder}/{name}", "wb") as it:
                    it.write(text)
            done = subprocess.run([build, *words.split()], cwd=folder, stdin=subprocess.DEVNULL, capture_output=True, timeout=120)
        hold(f"bulwynef {words}: {wanted}", (done.returncode, done.stdout, done.stderr.decode()) == (1, b"", f"{wanted}\n"), done)


def expected():
    """What is told of each case, as it stands in cases.txt."""
    with open(f"{TOP}/checks/explained/cases.txt", encoding="utf-8") as it:
        parts = it.read().split("\n== ")
    return dict(part.split("\n", 1) for part in parts[1:])


def grouped(data):
    return " ".join(re.findall("....", hashlib.sha256(bytes.fromhex(data)).hexdigest()))


def told_of_cases(tell, program, made_of, wanted):
    """Each case is told as it stands in cases.txt, behind its program and the digests of its two lines; and its page has each sentence."""
    told = set()
    for name, subject, text, hashes in made_of():
        told.add(name)
        directory, evidence = text.decode().split()[:2]
        lines = f"Program: {program}\nSHA-256 of the directory: {grouped(directory)}\nSHA-256 of the {subject}: {grouped(evidence)}\n"
        lines += wanted.get(name, "").strip("\n").format(**hashes) + "\n"
        status, out, error = tell(subject, text, False)
        hold(f"{name} of {program}", status in (0, 3) and not error and out.decode() == lines, out.decode())
        page = html.unescape(tell(subject, text, True)[1].decode())
        hold(f"{name}, the page", all(line.strip() in page for line in lines.split("\n")[4:] if line.startswith(" ")))
    return told


def draws(build):
    """A page of many nodes draws the logs that it should, and says how many it does not."""
    for name, text, rows, quiet, further in drawn():
        page = explained(build, "store", text, True)[1].decode()
        picture = page[page.find('class="logs"') :]
        found = [int(node) for node in re.findall(r'<text class="name"[^>]*>node (\d+)<', picture)]
        hold(f"{name}: its rows", found == rows, found)
        hold(f"{name}: each row has its log's entries", all(f'id="entry-{node}-' in page for node in rows))
        for why, count in ("quotes a marked one", quiet), ("has no more rows than these", further):
            told = re.findall(why + r": the logs of (\d+) node", page)
            hold(f"{name}: {why}", [int(one) for one in told] == [count] * (count > 0), told)


def main():
    builds = builds_of("bulwynef")
    os.makedirs(STORED, exist_ok=True)
    for build in builds:
        names = set()
        for name, subject, text in inputs():
            names.add(name)
            compare(name, subject, text, build)
        stored = {os.path.splitext(file)[0] for file in os.listdir(STORED) if file.endswith((".txt", ".html"))}
        hold("each stored output is of an example", stored <= names, stored - names)
        wanted = expected()
        told = told_of_cases(lambda subject, text, page: explained(build, subject, text, page), "Tally", cases, wanted)
        told |= told_of_cases(lambda subject, text, page: explained(build, subject, text, page, ["--program", "mailbox"]), "Mailbox", mails, wanted)
        hold("each case is made", told == set(wanted), set(wanted) - told)
        draws(build)
        tells(build)
        for name in ("two_witnesses", "spreading"):
            one, other = [open(f"{STORED}/{name}{ending}.txt").read().split("\n") for ending in ("", ".stores")]
            hold(f"{name}: the union is told as the merged store", one[:2] + one[3:] == other[:2] + other[3:])
            hold(f"{name}: it has the merged store's digest", one[2].split(": ")[1] == other[2].split(": ")[1])
    for command, text, wanted in bad_lines(*example()):
        done = run([NODE_SIM, command], text)
        hold(f"node_sim {command}: {wanted}", done == (1, b"", f"refused {wanted}\n".encode()), done)
    print(f"explained: {passed} held, {len(failed)} not")
    sys.exit(1 if failed else 0)


main()
