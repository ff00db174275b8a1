"""Holds what `bulwynef show` says of files to their fields and to `hashlib`, JSON to the lines and to the items that second_opinion/check.py reads, and
what `play` leaves to what `node_sim run` says."""

import hashlib
import json
import os
import sys

TOP = os.path.dirname(os.path.dirname(os.path.dirname(os.path.abspath(__file__))))
sys.path[:0] = [f"{TOP}/second_opinion"]

from check import Evidence, read_directory, read_store

EXAMPLES = f"{TOP}/examples"
NODE_SIM = f"{TOP}/crates/node_sim/out/node_sim"


def read(path):
    with open(path, "rb") as it:
        return it.read()


def write(name, data):
    with open(name, "wb") as it:
        it.write(data)
    return name


# ---- what a file is

FORMS = ["signed statements", "segments", "audit challenges", "send challenges", "acknowledgements"]
NAMES = ["statements", "segments", "audit_challenges", "send_challenges", "acknowledgements"]


def items_of(text):
    """The items of a container, by its own fields alone."""
    count, at, items = int.from_bytes(text[8:16], "big"), 16, []
    for _ in range(count):
        end = at + 4 + int.from_bytes(text[at : at + 4], "big")
        items.append(text[at + 4 : end])
        at = end
    return items


def node_of(item):
    """The node that signed an item or is challenged by it: in a message the receiver, behind the sender."""
    at = 5 if item[0] in (4, 5) else 1
    return int.from_bytes(item[at : at + 4], "big")


def tally_of(items):
    counts = [sum(item[0] == tag for item in items) for tag in range(1, 6)]
    nodes = sorted({node_of(item) for item in items})
    return counts, [(node, sum(node_of(item) == node for item in items)) for node in nodes]


def shown(form, text, items):
    """What `show` writes of a text of so many items: its lines, and its JSON."""
    counts, nodes = tally_of(items)
    digest = hashlib.sha256(text).hexdigest()
    lines = [f"form: {form}", f"bytes: {len(text)}", f"SHA-256: {digest}", f"items: {len(items)}"]
    lines += [f"{name}: {count}" for name, count in zip(FORMS, counts)] + [f"items of node {node}: {count}" for node, count in nodes]
    document = {"form": form, "bytes": len(text), "sha256": digest, "items": len(items), **dict(zip(NAMES, counts))}
    return lines, {**document, "nodes": [{"node": node, "items": count} for node, count in nodes]}


def hold_show(hold, run, build, folder, what, text, lines, document):
    name = write(f"{folder}/shown", text)
    found = run([build, "show", name])
    hold(f"show of {what}", found == (0, "".join(f"{line}\n" for line in lines).encode(), b""), found)
    status, out, error = run([build, "show", "--json", name])
    hold(f"show --json of {what}", (status, error) == (0, b"") and out.endswith(b"}\n") and json.loads(out) == document, (status, out, error))


def keys_of(directory):
    """A node's number and the SHA-256 of each of its keys, in order."""
    count, at, keys = int.from_bytes(directory[8:12], "big"), 12, []
    for _ in range(count):
        node, number = int.from_bytes(directory[at : at + 4], "big"), directory[at + 4]
        at += 5
        for _ in range(number):
            keys.append((node, hashlib.sha256(directory[at : at + 56]).hexdigest()))
            at += 56
    return keys


def hold_shows(hold, run, build, folder):
    for name in sorted(os.listdir(EXAMPLES)):
        if name.endswith(".store"):
            text = read(f"{EXAMPLES}/{name}")
            hold_show(hold, run, build, folder, name, text, *shown("store", text, items_of(text)))
            item = items_of(text)[0]
            hold_show(hold, run, build, folder, f"the first item of {name}", item, *shown("item", item, [item]))
    directory = read(f"{EXAMPLES}/nodes.dir")
    digest = hashlib.sha256(directory).hexdigest()
    begin = ["form: directory", f"bytes: {len(directory)}", f"SHA-256: {digest}"]
    document = {"form": "directory", "bytes": len(directory), "sha256": digest}
    keys = keys_of(directory)
    lines = [f"key of node {node}: SHA-256 {key}" for node, key in keys]
    hold_show(hold, run, build, folder, "a directory", directory, begin + lines, {**document, "keys": [{"node": node, "sha256": key} for node, key in keys]})
    proof = read(f"{EXAMPLES}/wrong_output.proof")
    hold_show(hold, run, build, folder, "a proof", proof, *shown("proof", proof, [proof[5:]]))
    store = read(f"{EXAMPLES}/exchange.store")
    for what, text, form, end, members in (
        ("a store that is cut off", store[:-1], "store", ["can't be read: refused 40 Truncated", "items before it: 1"], {"refused": 40, "name": "Truncated", "items_before": 1}),
        ("a directory that is cut off", directory[:-1], "directory", ["can't be read: refused 24 Truncated"], {"refused": 24, "name": "Truncated"}),
        ("a summary", b"PRSUMM01" + bytes(8), "summary", [], {}),
        ("an outline", b"PROUTL01", "outline", [], {}),
        ("a pack", b"PRPACK01" + store[8:], "pack", shown("pack", store, items_of(store))[0][3:], {}),
        ("nothing", b"", "unknown", [], {}),
        ("a word", b"a word of no form", "unknown", [], {}),
    ):
        digest = hashlib.sha256(text).hexdigest()
        if form == "pack":
            members = {name: value for name, value in shown("pack", text, items_of(text))[1].items() if name not in ("form", "bytes", "sha256")}
        lines = [f"form: {form}", f"bytes: {len(text)}", f"SHA-256: {digest}", *end]
        hold_show(hold, run, build, folder, what, text, lines, {"form": form, "bytes": len(text), "sha256": digest, **members})
    name = write(f"{folder}/shown", store)
    named, piped = run([build, "show", name]), run([build, "show", "-"], stdin=open(name, "rb"))
    hold("show of standard input", named == piped and named[0] == 0, (named, piped))
    digits = run([build, "show", write(f"{folder}/digits", store.hex().encode() + b"\n")])
    hold("show of digits", digits == named, digits)
    for what, words, number in (("a missing file", [f"{folder}/none"], 100), ("a folder", [folder], 100), ("too many bytes", ["--most", "20", name], 101)):
        refused = run([build, "show", *words])
        hold(f"show of {what}", refused[:2] == (1, b"") and refused[2].startswith(b"refused %d " % number), refused)


# ---- JSON, and the lines


def known_by(directory, store):
    """The nodes of which something is known: whose statements the items hold, those that segments quote genuinely too, and whom challenges are against."""
    nodes = read_directory(directory)
    evidence = Evidence(nodes, None, read_store(nodes, store).values())
    return {it.node for it in [*evidence.held, *evidence.audits, *evidence.sends]}


def hold_json(hold, run, build, folder):
    files, seen = EXAMPLES, set()
    for name in sorted(os.listdir(files)):
        directory = f"{files}/{name.removesuffix('.store')}.dir"
        directory = directory if os.path.isfile(directory) else f"{files}/nodes.dir"
        if name.endswith(".store"):
            words = ["--program", "tally", "--directory", directory, f"{files}/{name}"]
            lines, document = run([build, "status", *words]), run([build, "status", "--json", *words])
            rows = [line.split() for line in lines[1].decode().splitlines()]
            basis = {"program": "tally", "directory": hashlib.sha256(read(directory)).hexdigest()}
            known = known_by(read(directory), read(f"{files}/{name}"))
            told = {**basis, "nodes": [{"node": int(node), "indication": word, "known": int(node) in known} for node, word in rows]}
            seen |= {(word, int(node) in known) for node, word in rows}
            hold(f"status of {name} tells the same basis", lines[2].decode() == "program {program}\ndirectory {directory}\n".format(**basis) and document[2] == b"", (lines, document))
            hold(f"status --json of {name}", document[0] == lines[0] and json.loads(document[1]) == told and document[1].endswith(b"}\n"), document)
    hold("trusted nodes of which something is known, and nothing", {("trusted", True), ("trusted", False)} <= seen, seen)
    hold("who is suspected or exposed is known", not {("suspected", False), ("exposed", False)} & seen, seen)
    found = run([build, "check", "--json", "--program", "tally", "--directory", f"{files}/nodes.dir", f"{files}/wrong_output.proof"])
    digest = hashlib.sha256(read(f"{files}/nodes.dir")).hexdigest()
    says = {"exposes": 2, "program": "tally", "directory": digest}
    hold("check --json", found[0] == 0 and json.loads(found[1]) == says and found[1].endswith(b"}\n") and found[2] == b"", found)
    text = read(f"{files}/wrong_output.bundle")
    for what, named, words in (("", "tally", []), (" that names another program", "other_1", ["--program", "tally"])):
        bundle = write(f"{folder}/bundle", text.replace(b"\nprogram tally\n", b"\nprogram %s\n" % named.encode()))
        status, out, error = run([build, "check", "--json", *words, bundle])
        told = {**says, "bundle": {"program": named, "directory": digest}}
        is_told = (status, error) == (5 if words else 0, b"") and out.endswith(b"}}\n") and json.loads(out) == told
        hold(f"check --json of a bundle{what}", is_told, (status, out, error))


# ---- scenarios


def hold_play(hold, run, build, folder):
    out, scenario = f"{folder}/played", f"{EXAMPLES}/scenario.txt"
    found = run([build, "play", scenario, "--output", out])
    names = ["nodes.dir", "witness.0.store", "witness.1.store"]
    hold("play", found == (0, b"", b"") and sorted(os.listdir(out)) == names, found)
    reports = [run([build, "status", "--program", "tally", "--directory", f"{out}/nodes.dir", f"{out}/witness.{place}.store"]) for place in (0, 1)]
    told = b"".join(b"witness %d\n%s" % (place, report[1]) for place, report in enumerate(reports))
    wanted = run([NODE_SIM, "run"], stdin=open(scenario, "rb"))
    is_same = read(f"{out}/witness.0.store") == read(f"{out}/witness.1.store")
    hold("what is played is what node_sim says of it", (0, told + (b"equal\n" if is_same else b"different\n"), b"") == wanted, (told, wanted))
    again = run([build, "play", scenario, "--workers", "2", "--output", f"{folder}/again"])
    hold("play by two workers", again == found and all(read(f"{folder}/again/{name}") == read(f"{out}/{name}") for name in names), again)
    for what, words, number in (
        ("play into a folder that has something in it", [scenario, "--output", out], 102),
        ("play to standard output", [scenario, "--output", "-"], 102),
        ("play into no folder", [scenario, "--output", f"{folder}/gone/there"], 102),
        ("play of what is no scenario", [f"{EXAMPLES}/nodes.dir", "--output", f"{folder}/none"], 105),
        ("play of a file that is missing", [f"{folder}/missing", "--output", f"{folder}/none"], 100),
    ):
        refused = run([build, "play", *words])
        hold(what, refused[:2] == (1, b"") and refused[2].startswith(b"refused %d " % number), refused)
    hold("what was there stays, and no other folder", sorted(os.listdir(folder)) == ["again", "played"] and sorted(os.listdir(out)) == names, os.listdir(folder))
