#!/usr/bin/env python3
"""Runs the whole program, as the gate built it, on inputs, devices and words that no contract can speak of.

What the engine writes for an input is proved over any reader and writer. That `main` hands the real ones to it, prints a refusal and
ends with the right status is shown here: each run names its input, its words, and what must come out. Both builds are run, that of LLVM
and that of Rattle's own compiler, of node_sim, mailbox_sim and bulwynef, which `rt ci` leaves (builds.py).
"""

import itertools
import os
import re
import shutil
import subprocess
import sys
import tempfile
import threading
import time

TOP = os.path.dirname(os.path.dirname(os.path.dirname(os.path.abspath(__file__))))
sys.path[:0] = [f"{TOP}/checks/reference", f"{TOP}/checks"]
sys.dont_write_bytecode = True

import transfers
from builds import builds_of

LONGEST_INPUT = 67_108_864
# Wishes of the users of mailbox_sim, and the moments that they stand for, each with its node.
MOMENTS = [
    (b"write 2 see you at 5", [b"2 9760256302452928373", b"2 9583660146118369333"]),
    (b"leave 2 4", [b"2 9799832789158199300"]),
    (b"leave 2 2", [b"2 9799832789158199298"]),
    (b"fetch 2", [b"2 9223372036854775808"]),
    (b"fetch 3", [b"3 9223372036854775808"]),
    (b"fetch 4", [b"4 9223372036854775808"]),
]


def statements(store):
    """The node, number and hash of each statement of a store, by the format alone. Signatures are not looked at."""
    assert store[:8] in (b"PRSTORE1", b"PRSTORE2")
    count, place, found = int.from_bytes(store[8:16], "big"), 16, []
    for _ in range(count):
        item = store[place + 4 : place + 4 + int.from_bytes(store[place : place + 4], "big")]
        place += 4 + len(item)
        assert item[0] == 1
        found.append((int.from_bytes(item[1:5], "big"), int.from_bytes(item[5:13], "big"), item[13:45]))
    assert place == len(store)
    return found


def report(lines):
    """What `status` must write for a directory and a store whose signatures are valid: two hashes of one number expose a node."""
    directory, store = (bytes.fromhex(line) for line in lines.split("\n")[:2])
    nodes = [int.from_bytes(directory[at : at + 4], "big") for at in range(12, len(directory), 60)]
    said = {}
    for node, number, digest in statements(store):
        said.setdefault((node, number), set()).add(digest)
    exposed = {node for (node, _), digests in said.items() if len(digests) > 1}
    return "".join(f"{node} {'exposed' if node in exposed else 'trusted'}\n" for node in sorted(nodes))


def at_once(data):
    return lambda stream: stream.write(data)


def in_pieces(data, most, rests):
    """Hands the data over in pieces of at most so many bytes, and rests so often that the reader meets an empty pipe."""

    def write(stream):
        for turn, at in enumerate(range(0, len(data), most)):
            stream.write(data[at : at + most])
            stream.flush()
            if turn % rests == 0:
                time.sleep(0.002)

    return write


def zeros(count):
    def write(stream):
        block = b"0" * 65536
        for at in range(0, count, len(block)):
            stream.write(block[: count - at])

    return write


def run(build, words, feed=None, stdin=None, stdout=subprocess.PIPE):
    """The status, the output and the standard error of one run."""
    process = subprocess.Popen(
        [build, *words], stdin=subprocess.PIPE if feed else stdin or subprocess.DEVNULL, stdout=stdout, stderr=subprocess.PIPE
    )
    if feed:

        def write():
            try:
                feed(process.stdin)
                process.stdin.close()
            except BrokenPipeError:
                pass  # the program had read enough

        writer = threading.Thread(target=write)
        writer.start()
    told = []
    errors = threading.Thread(target=lambda: told.append(process.stderr.read()))
    errors.start()
    output = process.stdout.read() if process.stdout else b""
    status = process.wait(timeout=120)
    errors.join()
    if feed:
        writer.join()
    return status, output.decode(), told[0].decode()


def closed_pipe():
    """A pipe for writing whose other end is closed."""
    reading, writing = os.pipe()
    os.close(reading)
    return writing


def sessions():
    """The commands of the page of examples, those of one block together, each with the output that the page tells."""
    with open(f"{TOP}/examples/README.md") as file:
        blocks = file.read().rstrip("\n").split("\n\n")
    for block in blocks:
        if not block.startswith("    $ "):
            continue
        lines = [line[4:] for line in block.split("\n")]
        commands = [line[2:] for line in lines if line.startswith("$ ")]
        yield commands, "".join(f"{line}\n" for line in lines if not line.startswith("$ "))


def beside(build, program):
    """The build of another program by the same compiler."""
    return f"{TOP}/crates/{program}/out/{program}{os.path.basename(build).removeprefix('node_sim')}"


def under(folder, command):
    """What `bulwynef` tells on standard error behind an answer that names neither its program nor its directory."""
    words = command.split()
    if words[:2] not in (["bulwynef", "status"], ["bulwynef", "prove"]) or "2>&1" in words:
        return ""
    with open(f"{folder}/{words[words.index('--directory') + 1]}", "rb") as file:
        directory = transfers.sha256(file.read())
    return f"program {words[words.index('--program') + 1]}\ndirectory {directory.hex()}\n"


def page(build):
    """The page of examples, command by command, in a copy of their folder."""
    with tempfile.TemporaryDirectory() as folder:
        shutil.copytree(f"{TOP}/examples", f"{folder}/examples")
        os.symlink(build, f"{folder}/node_sim")
        os.symlink(beside(build, "bulwynef"), f"{folder}/bulwynef")
        words = {**os.environ, "PATH": f"{folder}:{os.environ['PATH']}"}
        for commands, want in sessions():
            done = subprocess.run(["bash", "-c", "\n".join(commands)], cwd=f"{folder}/examples", env=words, capture_output=True)
            got = (done.returncode, done.stdout.decode(), done.stderr.decode())
            ends = (0, 3, 4) if "bulwynef" in commands[-1] else (0,)
            told = want, "".join(under(f"{folder}/examples", command) for command in commands)
            yield f"the page of examples: {commands[-1]}", got, lambda got, told=told, ends=ends: got[0] in ends and got[1:] == told


def other_program(build):
    """mailbox_sim, which has the same words but for the flag: nodes that sign two hashes are exposed whatever they run."""
    sim = beside(build, "mailbox_sim")
    with open(f"{TOP}/examples/equivocation.txt", "rb") as file:
        example = file.read()
    told = run(build, ["status"], at_once(example))
    yield "mailbox_sim: status", run(sim, ["status"], at_once(example)), lambda got: got == told
    for words in [[], ["status", "--relay"], ["run", "--relay"], ["prove"], ["--help"]]:
        yield f"mailbox_sim: the words {' '.join(words)}", run(sim, words, at_once(example)), lambda got: got[0] == 2 and got[1] == ""
    yield "mailbox_sim: its name", run(sim, ["--help"]), lambda got: "Usage: mailbox_sim" in got[2]
    yield "mailbox_sim: a refusal", run(sim, ["check"], at_once(b"")), lambda got: got == (1, "", "refused 104 LineCount\n")
    with open(f"{TOP}/crates/mailbox_sim/stdin", "rb") as file:
        scenario = file.read()
    said = run(sim, ["run"], at_once(scenario))
    moments = scenario
    for words, numbers in MOMENTS:
        assert words in moments, words
        moments = moments.replace(words, b"\n".join(b"timer " + number for number in numbers))
    yield "mailbox_sim: moments in place of wishes", run(sim, ["run"], at_once(moments)), lambda got: got == said and got[0] == 0
    for line in [b"leave 2 x", b"leave 2 04", b"leave 2 +4", b"fetch 2 3", b"fetch x", b"write 2", b"audit 2\r"]:
        got = run(sim, ["run"], at_once(scenario + line + b"\n"))
        yield f"mailbox_sim: {line}", got, lambda got: got == (1, "", "refused 105 BadScenario\n")


def scenes():
    """Whether each example that the tour makes is what its stored run writes."""
    with open(f"{TOP}/crates/tour/stdout") as file:
        for scene in file.read().split("== ")[1:]:
            name, text = scene.split("\n--\n")[0].split("\n", 1)
            with open(f"{TOP}/examples/{name}.txt") as example:
                yield f"the scene {name}", example.read() == f"{text}\n", lambda got: got


def spread(build):
    """What `merge` writes of the stores of three witnesses, one of whom writes an older text, is the text whose digest the tests of
    witness_core hold."""
    directory, items = transfers.taken()
    sent = (b"PRSTORE2", (0, 1)), (b"PRSTORE1", (1, 2, 3)), (b"PRSTORE2", (3, 4, 0))
    stores = [transfers.container(magic, [items[place] for place in places]) for magic, places in sent]
    lines = "\n".join(text.hex() for text in (directory, *stores))
    with open(transfers.WITNESSES) as file:
        held = file.read()
    union = run(build, ["merge"], at_once(lines.encode()))
    yield "merge of what three witnesses took", union, lambda got: got[0] == 0 and got[2] == "" and transfers.sha256(bytes.fromhex(got[1])).hex() in held


def plays(build):
    """What `run` writes of scenarios, of texts that are none, and of some in which a node's keys are spent."""
    stored = {}
    for name in ("stdin", "stdout"):
        with open(f"{TOP}/crates/node_sim/{name}") as file:
            stored[name] = file.read()
    scenario = stored["stdin"].encode()
    for words in [["run"], ["run", "--workers", "1"], ["run", "--workers", "2"], ["run", "--workers=2"], ["run", "--workers", "8"]]:
        yield f"a scenario: {' '.join(words)}", run(build, words, at_once(scenario)), lambda got: got == (0, stored["stdout"], "")
    yield "a scenario, byte by byte", run(build, ["run"], in_pieces(scenario, 1, 40)), lambda got: got == (0, stored["stdout"], "")
    # Under Tally node 2 answers node 1, and node 3 hears nothing. Under Relay node 2 passes the number on to node 3, which drops it.
    passed_on = b"witnesses 2\nnode 1 honest\nnode 2 honest\nnode 3 mute\ntimer 1 5\naudit 2\n"
    for words, third in [(["run"], "trusted"), (["run", "--relay"], "suspected"), (["run", "--workers", "8", "--relay"], "suspected")]:
        want = "".join(f"witness {place}\n1 trusted\n2 trusted\n3 {third}\n" for place in range(2)) + "equal\n"
        yield f"a scenario: {' '.join(words)}", run(build, words, at_once(passed_on)), lambda got, want=want: got == (0, want, "")
    two_nodes = b"witnesses 1\nnode 1 honest\nnode 2 mute\n"
    spent = two_nodes + b"timer 1 5\n" * 33
    renewed = two_nodes + b"timer 1 5\n" * 32 + b"rekey 1\ntimer 1 5\n"
    second = run(build, ["run"], at_once(renewed))
    yield "run: a second key", second, lambda got: got == (0, "witness 0\n1 trusted\n2 suspected\nequal\n", "")
    for name, feed, told in [
        ("an empty text", at_once(b""), "refused 105 BadScenario\n"),
        ("nine witnesses", at_once(b"witnesses 9\nnode 1 honest\n"), "refused 105 BadScenario\n"),
        ("a spent key", at_once(spent), "refused 36 KeySpent\n"),
        ("a third key", at_once(two_nodes + b"rekey 1\nrekey 1\n"), "refused 31 WrongKey\n"),
        ("an input one byte too long", zeros(LONGEST_INPUT + 1), "refused 101 InputTooLong\n"),
    ]:
        yield f"run: {name}", run(build, ["run", "--workers", "8"], feed), lambda got, told=told: got == (1, "", told)
    output = closed_pipe()
    got = run(build, ["run"], at_once(scenario), stdout=output)
    os.close(output)
    yield "run: an output that is closed", got, lambda got: got == (1, "", "refused 102 WriteFailed\n")


def cases(build):
    """Each case: its name, what came of it, and whether that is right."""
    with open(f"{TOP}/checks/bench/status_512.txt") as file:
        large = file.read()
    with open(f"{TOP}/examples/status_equivocation.txt") as file:
        small = file.read()
    want, data = report(large), large.encode()
    for name, words, feed in [
        ("megabytes at once", ["status"], at_once(data)),
        ("megabytes in pieces of 4,093 bytes", ["status"], in_pieces(data, 4093, 16)),
        ("megabytes in pieces of 70,001 bytes", ["status"], in_pieces(data, 70001, 1)),
        ("--relay", ["status", "--relay"], at_once(data)),
    ]:
        yield name, run(build, words, feed), lambda got: got == (0, want, "")
    example = small.encode()
    yield "the example, byte by byte", run(build, ["status"], in_pieces(example, 1, 400)), lambda got: got == (0, report(small), "")
    directory, store = small.split("\n")[:2]
    exposed = [line.split()[0] for line in report(small).split("\n") if line.endswith(" exposed")]
    for name, lines, want in [
        ("no store", [directory], "505253544f5245320000000000000000\n"),
        ("an older store with itself", [directory, store, store.upper()], f"{b'PRSTORE2'.hex()}{store[16:].lower()}\n"),
    ]:
        yield f"merge: {name}", run(build, ["merge"], at_once("\n".join(lines).encode())), lambda got, want=want: got == (0, want, "")
    for node in exposed:
        proved = run(build, ["prove", node], at_once(example))
        yield f"prove {node}", proved, lambda got: got[0] == 0 and got[1].endswith("\n") and got[1] != "none\n" and got[2] == ""
        checked = run(build, ["check"], at_once(f"{directory}\n{proved[1]}".encode()))
        yield f"check of it", checked, lambda got, node=node: got == (0, f"exposes {node}\n", "")
    yield "prove of an unlisted node", run(build, ["prove", "4294967295"], at_once(example)), lambda got: got == (1, "", "refused 44 UnknownNode\n")
    for name, feed, told in [
        ("an empty input", at_once(b""), "refused 104 LineCount\n"),
        ("a letter that is no digit", at_once(b"0g\n50"), "refused 103 BadHex\n"),
        ("three lines", at_once(b"00\n00\n00\n"), "refused 104 LineCount\n"),
        ("a directory cut off", at_once(b"5052444952454354\n50\n"), "refused 24 Truncated\n"),
        ("an input one byte too long", zeros(LONGEST_INPUT + 1), "refused 101 InputTooLong\n"),
        ("an input of the greatest length", zeros(LONGEST_INPUT), "refused 104 LineCount\n"),
    ]:
        yield name, run(build, ["status"], feed), lambda got, told=told: got == (1, "", told)
    folder = os.open(TOP, os.O_RDONLY)
    yield "a read that fails", run(build, ["status"], stdin=folder), lambda got: got == (1, "", "refused 100 ReadFailed\n")
    os.close(folder)
    for name, output in [("an output that is closed", closed_pipe()), ("a full device", os.open("/dev/full", os.O_WRONLY))]:
        got = run(build, ["status"], at_once(example), stdout=output)
        os.close(output)
        yield name, got, lambda got: got == (1, "", "refused 102 WriteFailed\n")
    for words in [[], ["nothing"], ["status", "more"], ["status", "--other"], ["--help"], ["help"], ["status", "--help"], ["prove"], ["prove", "x"], ["prove", "4294967296"], ["merge", "more"], ["check", "--other"], ["run", "more"], ["run", "--workers"], ["run", "--workers", "0"], ["run", "--workers", "9"], ["run", "--workers", "x"]]:
        name = f"the words {' '.join(words) or '(none)'}"
        yield name, run(build, words, at_once(example)), lambda got: got[0] == 2 and got[1] == "" and ("Usage: node_sim" in got[2] or "try '--help'" in got[2])


def probing_loops(build):
    """How many loops probe the stack with r11 in LLVM's build, where r11 may hold a value of the program (docs/DECISIONS.md). Rattle's
    own compiler probes at the head of a function alone, where r11 holds nothing."""
    if build.endswith(".by-rattle"):
        return 0
    code = subprocess.run(["objdump", "-d", build], stdout=subprocess.PIPE, text=True, check=True).stdout
    return len(re.findall(r"\bcmp +%r11,%rsp", code))


def main():
    builds = builds_of("node_sim")
    if shutil.which("objdump") is None:
        print("objdump, of Debian's binutils, is wanted: it shows how the build probes the stack")
        return 2
    done = failed = 0
    for build in builds:
        done += 1
        if loops := probing_loops(build):
            failed += 1
            print(f"{os.path.basename(build)}: {loops} loops probe the stack with r11")
        for name, got, is_right in itertools.chain(cases(build), plays(build), spread(build), page(build), other_program(build), scenes()):
            done += 1
            if not is_right(got):
                failed += 1
                print(f"{os.path.basename(build)}: {name}: {str(got)[:500]}")
    print(f"whole program: {done - failed} of {done} runs are right, over {len(builds)} builds")
    return 1 if failed else 0


if __name__ == "__main__":
    sys.exit(main())
