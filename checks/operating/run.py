#!/usr/bin/env python3
"""Holds what `bulwynef` writes of files to what `node_sim` writes of the same lines, by both builds and by 1 and 8 workers.

    checks/operating/run.py [FOLDER]

Each file of examples/ is parted into files, as bytes and as lines of digits. With FOLDER, of cases NNN.args, NNN.stdin, NNN.status, NNN.stdout and
NNN.stderr, each case of `status`, `merge`, `prove` and `check` whose lines are digits is parted likewise, and its stored answer is held. Then files
that are missing, folders, unreadable, empty, cut off, with CRLF or given for one another, a full disk and a closed standard input: each has its
own line. Then devices that fail at each call (devices.py), and where answers are written (placing.py). What `show` writes is held to the fields of each file and to `hashlib`, JSON to the lines, and what `play` leaves to what `node_sim run` says
(showing.py). Last, bundles (bundles.py), each command of the walk in docs/OPERATORS.md, which must write what stands below it, and the manual page (manual.py).

Wants both builds of bulwynef, and crates/node_sim/out/node_sim, which `rt ci` leaves (builds.py).
"""

import hashlib
import os
import re
import shutil
import subprocess
import sys
import tempfile

sys.dont_write_bytecode = True
TOP = os.path.dirname(os.path.dirname(os.path.dirname(os.path.abspath(__file__))))
sys.path.append(f"{TOP}/checks")

import manual
from builds import builds_of
from bundles import hold_bundles
from devices import hold_devices
from placing import hold_places
from showing import hold_json, hold_play, hold_shows

EXAMPLES = f"{TOP}/examples"
BUILDS = builds_of("bulwynef")
NODE_SIM = f"{TOP}/crates/node_sim/out/node_sim"
WORKERS = ["1", "8"]

failed = []
passed = 0


def hold(what, is_so, found=""):
    global passed
    if is_so:
        passed += 1
    else:
        failed.append(what)
        print(f"FAILED {what} {found}")


def run(words, **how):
    how.setdefault("stdin", subprocess.DEVNULL)
    done = subprocess.run(words, stdout=subprocess.PIPE, stderr=subprocess.PIPE, timeout=300, **how)
    return done.returncode, done.stdout, done.stderr


def made(words, text):
    """What node_sim answers: its status, what it wrote, and the line of its refusal."""
    done = subprocess.run([NODE_SIM, *words], input=text, capture_output=True, timeout=300)
    return done.returncode, done.stdout, done.stderr


def basis_of(directory, program="tally"):
    return f"program {program}\ndirectory {hashlib.sha256(directory).hexdigest()}\n".encode()


class Files:
    """A folder with the lines of an input, each in a file of its own."""

    def __init__(self, folder, lines, as_digits):
        self.names = []
        self.directory = bytes.fromhex(lines[0].decode())
        self.folder = folder
        for number, line in enumerate(lines):
            name = f"{folder}/{number}.{'digits' if as_digits else 'bytes'}"
            with open(name, "wb") as it:
                it.write(line + b"\n" if as_digits else bytes.fromhex(line.decode()))
            self.names.append(name)

    def words(self, build, command, flags=(), node=(), workers=None):
        words = [build, command, *flags, "--directory", self.names[0]]
        if workers:
            words += ["--workers", workers]
        return [*words, *node, *self.names[1:]]

    def basis(self, flags):
        """Under what a verdict is given: the program, and the SHA-256 value of the directory."""
        return basis_of(self.directory, flags[1])

    def convicted(self, line, flags):
        """What `check` writes behind the line that node_sim writes."""
        return line + self.basis(flags)


def first_refusal(error):
    """The number and the name that a line of standard error begins with."""
    found = re.match(rb"refused (\d+) (\w+)", error)
    return found.groups() if found else None


def program_flags(args):
    return ["--program", "relay" if "--relay" in args else "tally"]


def hold_status(name, files, build, flags, workers, wanted):
    status, out, error = run(files.words(build, "status", flags, workers=workers))
    code, text, told = wanted
    if code == 0:
        hold(f"{name} status", (status, out, error) == (3 if b" exposed" in text else 0, text, files.basis(flags)), (status, out[:200], error))
    else:
        hold(f"{name} status refused", status == 1 and out == b"" and first_refusal(error) == first_refusal(told), (status, error))


def hold_merge(name, files, build, flags, workers, wanted):
    target = f"{files.folder}/merged"
    words = files.words(build, "merge", flags, node=["--output", target], workers=workers)
    status, out, error = run(words)
    code, text, told = wanted
    if code == 0:
        is_so = (status, out, error) == (0, b"", b"") and open(target, "rb").read().hex().encode() + b"\n" == text
        hold(f"{name} merge", is_so, (status, error))
        os.remove(target)
    else:
        hold(f"{name} merge refused", status == 1 and first_refusal(error) == first_refusal(told) and not os.path.exists(target), (status, error))


def hold_prove(name, files, build, flags, workers, node, wanted):
    target = f"{files.folder}/proof"
    words = files.words(build, "prove", flags, node=[node, "--output", target], workers=workers)
    status, out, error = run(words)
    code, text, told = wanted
    if code != 0:
        hold(f"{name} prove {node} refused", status == 1 and first_refusal(error) == first_refusal(told), (status, error))
    elif text == b"none\n":
        is_told = error == files.basis(flags) + b"no proof: the evidence does not expose the node\n"
        hold(f"{name} prove {node} none", status == 4 and is_told and not os.path.exists(target), (status, error))
    else:
        hold(f"{name} prove {node}", (status, out, error) == (0, b"", files.basis(flags)), (status, error))
        checked = run([build, "check", *flags, "--directory", files.names[0], target])
        hold(f"{name} check of the proof of {node}", checked[:2] == (0, files.convicted(f"exposes {node}\n".encode(), flags)), checked)
        os.remove(target)


def hold_check(name, files, build, flags, wanted):
    status, out, error = run(files.words(build, "check", flags))
    code, text, told = wanted
    if code == 0:
        hold(f"{name} check", (status, out) == (0, files.convicted(text, flags)), (status, error))
    else:
        hold(f"{name} check refused", status == 1 and first_refusal(error) == first_refusal(told), (status, error))


def every_way(lines):
    """The lines as bytes and as digits, by each build and by each number of workers."""
    for build in BUILDS:
        for as_digits in (False, True):
            for workers in WORKERS:
                with tempfile.TemporaryDirectory() as folder:
                    yield build, workers, Files(folder, lines, as_digits), f"{os.path.basename(build)} {'digits' if as_digits else 'bytes'} {workers}"


def examples():
    for file in sorted(os.listdir(EXAMPLES)):
        name, ending = os.path.splitext(file)
        if ending == ".txt" and name != "scenario":
            with open(f"{EXAMPLES}/{file}", "rb") as it:
                yield name, it.read()


def hold_example(name, text):
    lines = text.splitlines()
    merged = made(["merge"], text)
    report = made(["status"], lines[0] + b"\n" + merged[1])
    nodes = [line.split()[0].decode() for line in report[1].splitlines()]
    proofs = {node: made(["prove", node], lines[0] + b"\n" + merged[1]) for node in nodes}
    for build, workers, files, how in every_way(lines):
        hold_merge(f"{name} by {how}", files, build, [], workers, merged)
        hold_status(f"{name} by {how}", files, build, program_flags([]), workers, report)
        for node, wanted in proofs.items():
            hold_prove(f"{name} by {how}", files, build, program_flags([]), workers, node, wanted)


# ---- cases of a folder


def read(path):
    with open(path, "rb") as it:
        return it.read()


def hold_case(folder, number):
    args = read(f"{folder}/{number}.args").decode().split("\n")[:-1]
    lines = read(f"{folder}/{number}.stdin").split(b"\n")
    lines = lines[:-1] if lines[-1] == b"" else lines
    if args[:1] not in (["status"], ["merge"], ["prove"], ["check"]) or not lines:
        return
    is_digits = all(re.fullmatch(rb"([0-9a-fA-F]{2})*", line) for line in lines)
    code = int(read(f"{folder}/{number}.status"))
    wanted = code, read(f"{folder}/{number}.stdout"), read(f"{folder}/{number}.stderr")
    has_count = len(lines) >= 2 if args[0] == "merge" else len(lines) == 2
    if not is_digits or not has_count or code == 2:
        return
    flags = program_flags(args)
    numbers = [word for word in args[1:] if word != "--relay"]
    with tempfile.TemporaryDirectory() as at:
        # Bytes that begin like digits would be read as digits: they stand as digits.
        begins_like_digits = any(re.match(rb"[0-9a-fA-F]{8}", bytes.fromhex(line.decode())) for line in lines)
        files = Files(at, lines, begins_like_digits)
        for workers in WORKERS:
            if args[0] == "status":
                hold_status(f"case {number}", files, BUILDS[0], flags, workers, wanted)
            elif args[0] == "merge":
                hold_merge(f"case {number}", files, BUILDS[0], flags, workers, wanted)
            elif args[0] == "prove":
                hold_prove(f"case {number}", files, BUILDS[0], flags, workers, numbers[0], wanted)
            else:
                hold_check(f"case {number}", files, BUILDS[0], flags, wanted)


# ---- files that are at fault


def hold_fault(what, words, number, ending, **how):
    status, out, error = run(words, **how)
    is_so = status == 1 and out == b"" and error.startswith(b"refused %d " % number) and ending in error
    hold(what, is_so, (status, out[:100], error))


def write(name, data):
    with open(name, "wb") as it:
        it.write(data)
    return name


def hold_faults(build, folder, directory, store):
    nodes, items = write(f"{folder}/nodes", directory), write(f"{folder}/items", store)
    status = [build, "status", "--program", "tally", "--directory"]
    hold_fault("a missing directory", [*status, f"{folder}/none", items], 100, b"/none: ")
    hold_fault("a missing store", [*status, nodes, items, f"{folder}/none"], 100, b"/none: ")
    hold_fault("a folder", [*status, nodes, folder], 100, folder.encode())
    hold_fault("a store that can't be read", [*status, nodes, "/proc/self/mem"], 100, b"/proc/self/mem: ")
    hold_fault("an empty directory", [*status, write(f"{folder}/e", b""), items], 24, b"/e: ")
    hold_fault("an empty store", [*status, nodes, write(f"{folder}/e", b"")], 40, b"/e, item 0: ")
    hold_fault("a store that is cut off", [*status, nodes, write(f"{folder}/c", store[:-1])], 40, b"/c, item ")
    first = 20 + int.from_bytes(store[16:20], "big")
    bad = store[: first + 4] + b"\x09" + store[first + 5 :]
    hold_fault("a bad second item", [*status, nodes, write(f"{folder}/b", bad)], 41, b"/b, item 1, byte %d: " % first)
    hold_fault("a store for the directory", [*status, items, items], 23, b"the file is a store")
    hold_fault("a directory for a store", [*status, nodes, nodes], 60, b"the file is a directory")
    crlf = write(f"{folder}/crlf", store.hex().encode() + b"\r\n")
    hold_fault("digits with CRLF", [*status, nodes, crlf], 103, b"/crlf: ")
    three = write(f"{folder}/three", store.hex().encode() + b"\n00\n00\n")
    hold_fault("three lines", [*status, nodes, three], 104, b"/three: ")
    hold_fault("too many bytes", [build, "status", "--program", "tally", "--most", "20", "--directory", nodes, items], 101, b"/nodes: ")
    hold_fault("a full disk", [build, "merge", "--directory", nodes, "--output", "/dev/full", items], 102, b"")
    gone = f"{folder}/gone/there"
    hold_fault("no folder for the output", [build, "merge", "--directory", nodes, "--output", gone, items], 102, b"")
    with open("/dev/full", "wb") as full:
        done = subprocess.run([*status, nodes, items], stdin=subprocess.DEVNULL, stdout=full, stderr=subprocess.PIPE, timeout=60)
        hold("standard output on a full disk", done.returncode == 1 and done.stderr.startswith(b"refused 102 "), done)
    closed = subprocess.run(["sh", "-c", f"exec {build} status --program tally --directory {nodes} - <&-"], capture_output=True, timeout=60)
    hold("a closed standard input", closed.returncode == 1 and closed.stderr.startswith(b"refused 100 ReadFailed: -"), closed)
    named, piped = run([*status, nodes, items]), run([*status, nodes, "-"], stdin=open(items, "rb"))
    hold("a store of standard input", named == piped and named[0] in (0, 3), (named, piped))
    hold_two_lines(build, folder, directory, store, named)
    left = sorted(set(os.listdir(folder)) - {"nodes", "items", "e", "c", "b", "crlf", "three", "both", "bare", "twice", "other", "blank", "under"})
    hold("no file is left", left == [], left)


def hold_two_lines(build, folder, directory, store, named):
    """Of two lines nothing is left out: they are a directory and evidence under it, or are refused."""
    nodes, items, status = f"{folder}/nodes", f"{folder}/items", [build, "status", "--program", "tally", "--directory"]
    both = write(f"{folder}/both", directory.hex().encode() + b"\n" + store.hex().encode() + b"\n")
    bare = write(f"{folder}/bare", store[:8] + bytes(8))
    hold("two lines in one file", run([*status, both, both]) == named)
    hold("evidence in the directory's file alone", run([*status, both, bare]) == named)
    hold("a store below its directory", run([*status, nodes, both]) == named)
    twice = write(f"{folder}/twice", store.hex().encode() + b"\n" + store.hex().encode() + b"\n")
    hold_fault("two stores in one file", [*status, nodes, twice], 104, b"/twice: ")
    hold_fault("two stores for the directory", [*status, twice, items], 23, b"/twice: ")
    one = directory[:8] + (1).to_bytes(4, "big") + directory[12 : 17 + 56 * directory[16]]
    other = write(f"{folder}/other", one.hex().encode() + b"\n" + store.hex().encode() + b"\n")
    hold_fault("a store below another directory", [*status, nodes, other], 104, b"/other: ")
    blank = write(f"{folder}/blank", store.hex().encode() + b"\n\n")
    hold_fault("a blank line behind a store", [*status, nodes, blank], 104, b"/blank: ")
    under = write(f"{folder}/under", directory.hex().encode() + b"\n" + store[:-1].hex().encode())
    hold_fault("a cut off store below its directory", [*status, nodes, under], 40, b"/under, item ")
    hold_fault("a cut off store in the directory's file", [*status, under, items], 40, b"/under, item ")
    hold_fault("show: two lines", [build, "show", both], 104, b"/both: ")
    hold_fault("check: two lines", [build, "check", "--program", "tally", "--directory", both, items], 104, b"/both: ")
    hold_fault("split: two lines", [build, "split", "--parts", "2", "--output", f"{folder}/part", both], 104, b"/both: ")


def hold_explain(build, folder, directory, store):
    """What `explain` refuses, and that it writes its file whole or not at all; checks/explained holds what it tells."""
    nodes, items = write(f"{folder}/nodes", directory), write(f"{folder}/items", store)
    explain, page = [build, "explain", "--program", "tally", "--directory"], f"{folder}/page"
    proof = f"{folder}/proof"
    run([build, "prove", "--program", "tally", "--directory", nodes, "--output", proof, "2", items])
    to_page = ["--html", page]
    hold_fault("explain: a missing store", [*explain, nodes, *to_page, items, f"{folder}/none"], 100, b"/none: ")
    hold_fault("explain: a store that is cut off", [*explain, nodes, *to_page, write(f"{folder}/c", store[:-1])], 40, b"/c, item ")
    hold_fault("explain: a proof for a store", [*explain, nodes, *to_page, proof], 60, b"/proof, item 0, byte 16: ")
    hold_fault("explain: a missing proof", [*explain, nodes, *to_page, "--proof", f"{folder}/none"], 100, b"/none: ")
    hold_fault("explain: a store for a proof", [*explain, nodes, *to_page, "--proof", items], 41, b"the file is a store")
    one = read(proof)
    twice = write(f"{folder}/twice", one[: 5 + int.from_bytes(one[1:5], "big")] + one[1 : 5 + int.from_bytes(one[1:5], "big")])
    hold_fault("explain: a proof that convicts nobody", [*explain, nodes, *to_page, "--proof", twice], 50, b"/twice: ")
    hold_fault("explain: a store for the directory", [*explain, items, *to_page], 23, b"the file is a store")
    hold_fault("explain: a full disk", [*explain, nodes, "--html", "/dev/full", items], 102, b"")
    hold("explain: no page is left", not os.path.exists(page))
    text = run([*explain, nodes, items])
    hold("explain: a text", text[0] == 3 and text[1].startswith(b"Program: Tally\n") and not text[2], text)
    output = f"{folder}/text"
    hold("explain: a text in a file", run([*explain, nodes, "--output", output, items]) == (3, b"", b"") and read(output) == text[1])
    hold("explain: standard input", run([*explain, nodes, "-"], stdin=open(items, "rb")) == text)
    both = write(f"{folder}/both", directory.hex().encode() + b"\n" + store.hex().encode() + b"\n")
    hold("explain: a store below its directory", run([*explain, nodes, both]) == text)
    hold("explain: two lines in one file", run([*explain, both, both]) == run([*explain, nodes, items, items]))
    for more in (["--proof", proof, items], ["--html", page, "--output", output, items], ["--proof"], ["--json", items]):
        hold(f"explain: the words {more}", run([*explain, nodes, *more])[0] == 2)
    left = sorted(set(os.listdir(folder)) - {"nodes", "items", "proof", "c", "twice", "text", "both"})
    hold("explain: no file is left", left == [], left)


# ---- the program that is named


def mail_store():
    """The store of a relay that dropped a mail, which the README asks of."""
    text = read(f"{TOP}/crates/mailbox_tour/stdout").decode()
    section = text[text.index("== dropped_mail\n") :].split("\n--\n")[0]
    return [bytes.fromhex(line) for line in section.splitlines() if re.fullmatch(r"([0-9a-f]{2})+", line)][:2]


def hold_programs(build, folder):
    """A verdict is given under a program that was named, and under no other; what gives none wants no name."""
    directory, store = mail_store()
    nodes, items = write(f"{folder}/nodes", directory), write(f"{folder}/items", store)
    out = f"{folder}/out"
    on = ["--directory", nodes]
    proof = f"{folder}/proof"
    run([build, "prove", "--program", "mailbox", *on, "--output", proof, "1", items])
    said = b"error: no verdict without a program: --program NAME says which one the nodes were to follow: tally, relay, mailbox\n"
    for words in (
        ["status", *on, items],
        ["status", "--json", *on, items],
        ["status", "--part", "0/2", *on, items],
        ["status", *on, f"{folder}/none"],
        ["prove", *on, "--output", out, "3", items],
        ["explain", *on, items],
        ["explain", *on, "--html", out, items],
        ["explain", *on, "--proof", proof],
        ["check", *on, proof],
        ["check", "--json", *on, proof],
        ["bundle", *on, "--output", out, proof],
    ):
        found = run([build, *words])
        hold(f"without a program: {' '.join(words[:2])}", found == (2, b"", said) and not os.path.exists(out), found)
        for named in ("Mailbox", "mail", "", "tally,relay"):
            status, text, error = run([build, words[0], "--program", named, *words[1:]])
            is_told = all(name in error for name in (b"tally", b"relay", b"mailbox"))
            hold(f"a program {named!r}: {' '.join(words[:2])}", (status, text) == (2, b"") and is_told and not os.path.exists(out), (status, error))
    told = {"mailbox": b"1 exposed\n2 trusted\n3 trusted\n"}
    for program, lines in told.items():
        found = run([build, "status", "--program", program, *on, items])
        hold(f"what the mail store says under {program}", found == (3, lines, basis_of(directory, program)), found)
    found = run([build, "check", "--program", "mailbox", *on, proof])
    hold("a proof under the program that was named", found == (0, b"exposes 1\n" + basis_of(directory, "mailbox"), b""), found)
    bundle = f"{folder}/bundle"
    made = run([build, "bundle", "--program", "mailbox", *on, "--output", bundle, proof])
    found = run([build, "check", bundle])
    hold("a bundle names its program", made == (0, b"", b"") and found == (0, b"exposes 1\n" + basis_of(directory, "mailbox"), b""), (made, found))
    bare = run([build, "merge", *on, items])
    for program in ("tally", "relay", "mailbox"):
        hold(f"merge under {program}", run([build, "merge", "--program", program, *on, items]) == bare and bare[0] == 0)
    for words in (["explain", *on], ["show", items], ["split", "--parts", "1", "--output", out, items]):
        found = run([build, *words])
        hold(f"no program is wanted: {words[0]}", found[0] == 0 and found[2] == b"", found)


# ---- the walk of a page


def walk():
    """The commands of the walk in OPERATORS, each with what is written below it."""
    page = read(f"{TOP}/docs/OPERATORS.md").decode()
    section = page[page.index("## A whole walk") :].split("\n## ")[0]
    for block in re.findall(r"(?:^    .*\n)+", section, re.M):
        for command in re.findall(r"^    \$ (.*\n(?:^    (?!\$ ).*\n)*)", block, re.M):
            line, _, below = command.partition("\n")
            yield line, re.sub(r"^    ", "", below, flags=re.M)


def hold_walk(build):
    with tempfile.TemporaryDirectory() as at:
        shutil.copytree(EXAMPLES, f"{at}/files")
        os.mkdir(f"{at}/bin")
        os.symlink(build, f"{at}/bin/bulwynef")
        os.symlink(NODE_SIM, f"{at}/bin/node_sim")
        paths = {**os.environ, "PATH": f"{at}/bin:{os.environ['PATH']}"}
        steps = list(walk())
        hold("a walk of nine commands", len(steps) == 9, steps)
        for line, below in steps:
            done = subprocess.run(["sh", "-c", line], cwd=f"{at}/files", env=paths, capture_output=True, timeout=300)
            beside = basis_of(read(f"{EXAMPLES}/nodes.dir")) if line.split()[1] in ("status", "prove") else b""
            hold(f"the walk: {line}", (done.stdout.decode(), done.stderr) == (below, beside), done)


def main():
    for name, text in examples():
        hold_example(name, text)
    lines = read(f"{EXAMPLES}/equivocation.txt").splitlines()
    directory, store = (bytes.fromhex(line.decode()) for line in lines[:2])
    for build in BUILDS:
        for rows in (hold_faults, hold_explain):
            with tempfile.TemporaryDirectory() as folder:
                rows(build, folder, directory, store)
        for rows in (hold_shows, hold_json, hold_play):
            with tempfile.TemporaryDirectory() as folder:
                rows(hold, run, build, folder)
        hold_bundles(hold, run, build)
        files = {"nodes": directory, "items": store, "scenario": b"witnesses 1\nnode 1 honest\n"}
        with tempfile.TemporaryDirectory() as folder:
            hold_devices(hold, run, build, folder, files)
        with tempfile.TemporaryDirectory() as folder:
            hold_places(hold, build, folder, files)
        with tempfile.TemporaryDirectory() as folder:
            hold_programs(build, folder)
        hold_walk(build)
    found = list(manual.faults(BUILDS[0], write=False))
    hold("the manual page and the completions", found == [], found)
    if len(sys.argv) > 1:
        for file in sorted(os.listdir(sys.argv[1])):
            if file.endswith(".args"):
                hold_case(sys.argv[1], file[: -len(".args")])
    print(f"{passed} passed, {len(failed)} failed")
    sys.exit(1 if failed else 0)


if __name__ == "__main__":
    main()
