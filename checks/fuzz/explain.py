#!/usr/bin/env python3
"""Runs `bulwynef explain` on the texts that run.py makes, nearly valid stores and proofs, each in a file, and holds it to node_sim. Where a line is
no text of bytes, or the lines are too few or too many, the first line stands in a file as it is, and what is behind it in another.

    checks/fuzz/explain.py [--inputs N] [--seed S] [--jobs J]

Where node_sim refuses an input, it is refused with the same number and name, with its place behind them on the one line, and nothing is
written. Lines that are no texts may be refused by another number. Where node_sim answers, explain tells the same: each node with the
indication that status gives, or the node that check names; each item that a sentence about a store names is looked up in the store, and has
the form and the nodes that the sentence says; and where a sentence names a hash, each of its items has a statement of that node, number and
hash. Among the payloads are hostile ones (HOSTILE). The page of each answer is read by Python's parser: its elements close, each id stands
once, each link inside it leads to one, it has no script and names no other place. Each run ends within 256 MiB and 60 s. Wants what `rt ci`
and `rt run` leave in the folders crates/NAME/out of bulwynef and node_sim.
"""

import argparse
import collections
import html.parser
import multiprocessing
import os
import re
import resource
import subprocess
import sys
import tempfile

sys.dont_write_bytecode = True

import run as fuzz

BULWYNEF = f"{fuzz.texts.TOP}/crates/bulwynef/out/bulwynef"
NODE_SIM = fuzz.BUILDS[0]
MEMORY, SECONDS = 256 << 20, 60
VOID = {"meta", "link", "br", "hr", "img", "input", "col"}


class Page(html.parser.HTMLParser):
    """The elements of a page: which are open, which ids there are, and where links lead."""

    def __init__(self):
        super().__init__()
        self.open, self.ids, self.links, self.wrong = [], [], [], []

    def handle_starttag(self, tag, attrs):
        self.note(tag, attrs)
        if tag not in VOID:
            self.open.append(tag)

    def handle_startendtag(self, tag, attrs):
        self.note(tag, attrs)

    def handle_endtag(self, tag):
        if not self.open or self.open.pop() != tag:
            self.wrong.append(f"</{tag}> closes nothing")

    def note(self, tag, attrs):
        if tag in ("script", "iframe", "object", "embed", "base", "form"):
            self.wrong.append(f"<{tag}>")
        for name, value in attrs:
            if name.startswith("on") or name == "src":
                self.wrong.append(f"{name} of <{tag}>")
            if name == "id":
                self.ids.append(value)
            if name in ("href", "xlink:href"):
                self.links.append(value)


def fault_of_page(text):
    page = Page()
    page.feed(text.decode())
    page.close()
    wrong = [*page.wrong, *[f"<{tag}> stays open" for tag in page.open]]
    wrong += [f"id {it} twice" for it, count in collections.Counter(page.ids).items() if count > 1]
    wrong += [f"link {it}" for it in page.links if not it.startswith("#") or it[1:] not in page.ids]
    if re.search(rb"url\(|@import", text):
        wrong.append("a place elsewhere")
    return wrong[0] if wrong else None


def ended(program, words, data):
    def limit():
        resource.setrlimit(resource.RLIMIT_AS, (MEMORY, MEMORY))

    done = subprocess.run([program, *words], input=data, capture_output=True, timeout=SECONDS, preexec_fn=limit)
    return done.returncode, done.stdout, done.stderr


def texts_of(subject, data):
    """What the lines spell, where they are as many as are wanted, and each is digits; else None."""
    lines = data.removesuffix(b"\n").split(b"\n")
    has_count = len(lines) == 2 if subject == "proof" else len(lines) >= 2
    if not has_count or not all(re.fullmatch(rb"([0-9a-fA-F]{2})*", line) for line in lines):
        return None
    return [bytes.fromhex(line.decode()) for line in lines]


def files_of(subject, data):
    """What stands in each file: a text, in digits where its own bytes begin like digits; or lines as they are, where they are no texts."""
    texts = texts_of(subject, data)
    if texts is None:
        first, _, others = data.partition(b"\n")
        return [first, others]
    return [text.hex().encode() if re.match(rb"[0-9a-fA-F]{8}", text) else text for text in texts]


def explained(subject, relay, data, page):
    """What is told of the input, as a text or as a page."""
    with tempfile.TemporaryDirectory() as folder:
        names = []
        for number, file in enumerate(files_of(subject, data)):
            names.append(f"{folder}/{number}")
            with open(names[-1], "wb") as it:
                it.write(file)
        program = ["--program", "relay" if relay else "tally"]
        words = ["explain", "--workers", "1", *program, "--directory", names[0]]
        words += ["--proof", names[1]] if subject == "proof" else names[1:]
        return ended(BULWYNEF, [*words, *(["--html", "-"] if page else [])], b"")


def rows_of(text):
    """The lines of nodes in an explanation: behind those of its basis and the heading those that are not indented; without what is said of one of
    which there is no item."""
    return [line.removesuffix(" (no item)") for line in text.decode().split("\n")[4:] if line and not line.startswith(" ")]


def items_of(data):
    """The items of the store in the second line of an input."""
    store = bytes.fromhex(data.split(b"\n")[1].decode())
    at, found = 16, []
    while at < len(store):
        size = int.from_bytes(store[at : at + 4], "big")
        found.append(store[at + 4 : at + 4 + size])
        at += 4 + size
    return found


def number(item, at, size):
    return int.from_bytes(item[at : at + size], "big")


# How a sentence names an item, and what that item must be: its form, and the nodes behind it in their order.
NAMED = [
    (r"(?:Hash (?P<hash>[0-9a-f]{64}): |; )?item (?P<item>\d+), a statement(?=[.;])", 1, ["node"]),
    (r"item (?P<item>\d+), a segment(?: that ends with it)?(?=[.;])", 2, ["node"]),
    (r"item (?P<item>\d+), a segment of node (?P<one>\d+), whose", 2, ["one"]),
    (r"\(item (?P<item>\d+)\)", 2, ["node"]),
    (r"Item (?P<item>\d+), an audit challenge, asks node (?P<one>\d+) ", 3, ["one"]),
    (r"Item (?P<item>\d+), a send challenge of node (?P<one>\d+), asks node (?P<other>\d+) ", 4, ["one", "other"]),
]


SEND, RECV = 2, 3


def message_of(item, at):
    """The sender, its number and the hash of its SEND entry, of a message in an item; and where it ends."""
    sender, receiver, seq, before = number(item, at, 4), item[at + 4 : at + 8], number(item, at + 8, 8), item[at + 16 : at + 48]
    signed = at + 52 + number(item, at + 48, 4)
    end = signed + 4 + number(item, signed, 4)
    return (sender, seq, fuzz.texts.entry_hash(before, seq, SEND, receiver + item[signed + 4 : end])), end


def quoted(node, content):
    """What an entry's content quotes."""
    sender, seq, before, size = number(content, 0, 4), number(content, 4, 8), content[12:44], number(content, 44, 4)
    return sender, seq, fuzz.texts.entry_hash(before, seq, SEND, fuzz.texts.u32(node) + content[48 + size :])


def statements_of_segment(item):
    """Those of what its entries quote, and that of its last entry."""
    node, end, count, at = number(item, 1, 4), item[5:37], number(item, 37, 4), 41
    found, seq = [], 0
    for _ in range(count):
        seq, kind, size = number(item, at, 8), item[at + 8], number(item, at + 9, 4)
        content = item[at + 13 : at + 13 + size]
        at += 13 + size
        end = fuzz.texts.entry_hash(end, seq, kind, content)
        if kind == RECV and len(content) >= 48:
            found.append(quoted(node, content))
    return [*found, (node, seq, end)]


def statements_of(item):
    """The node, number and hash of each statement in an item, whether a signature of it is valid or not."""
    form, node = item[0], number(item, 1, 4)
    if form == 1:
        return [(node, number(item, 5, 8), item[13:45])]
    if form == 2:
        return statements_of_segment(item)
    if form == 3:
        first = (node, number(item, 6, 8), item[14:46])
        if item[5] == 0:
            return [first]
        at = 50 + number(item, 46, 4)
        return [first, (node, number(item, at, 8), item[at + 8 : at + 40])]
    sent, end = message_of(item, 1)
    if form == 4:
        return [sent]
    receiver, seq, before = number(item, 5, 4), number(item, end, 8), item[end + 8 : end + 40]
    signed = item[53 : 53 + number(item, 49, 4)]
    payload = item[53 + len(signed) + 4 : end]
    content = item[1:5] + item[9:49] + fuzz.texts.u32(len(signed)) + signed + payload
    return [sent, (receiver, seq, fuzz.texts.entry_hash(before, seq, RECV, content))]


def fault_of_hash(line, node, seq, items):
    """What is wrong with the items that a sentence names behind a hash, or None."""
    digest = bytes.fromhex(line[7:71])
    for place in re.findall(r"item (\d+), ", line):
        if (int(node), seq, digest) not in statements_of(items[int(place) - 1]):
            return f"item {place} has no such statement of node {node} and entry {seq}: {line}"
    return None


def fault_of_places(text, data):
    """What is wrong with the items that the sentences about a store name, or None."""
    items, node, seq = items_of(data), None, None
    for line in text.decode().split("\n")[4:]:
        if line and not line.startswith(" "):
            node = line.split()[0]
        signed = re.match(r"  Node \d+ signed (?:two hashes|a hash) for entry (\d+)", line)
        seq = int(signed[1]) if signed else seq
        wrong = fault_of_hash(line, node, seq, items) if line.startswith("  Hash ") else None
        if wrong:
            return wrong
        own = re.sub(r'"(?:[^"\\]|\\.)*"', '""', line)  # without what payloads say
        for pattern, form, nodes in NAMED:
            for found in re.finditer(pattern, own):
                groups = {"node": node, **found.groupdict()}
                place = int(groups["item"])
                if not 1 <= place <= len(items) or items[place - 1][0] != form:
                    return f"no item {place} of the form {form}: {line}"
                item = items[place - 1]
                if [number(item, 1 + 4 * i, 4) for i in range(len(nodes))] != [int(groups[name]) for name in nodes]:
                    return f"item {place} is of another node: {line}"
                if groups.get("hash") and form == 1 and item[13:45].hex() != groups["hash"]:
                    return f"item {place} has another hash: {line}"
    return None


def fault_of(words, data):
    """What is wrong with what explain says of the input of `status` or `check`, or None."""
    subject = "store" if words[0] == "status" else "proof"
    relay = words[1:]
    if subject == "store" and len(data.removesuffix(b"\n").split(b"\n")) > 2:
        merged = ended(NODE_SIM, ["merge", *relay], data)
        one = data.split(b"\n")[0] + b"\n" + merged[1]
        status, output, errors = merged if merged[0] else ended(NODE_SIM, words, one)
        stores = data if merged[0] else one
    else:
        status, output, errors = ended(NODE_SIM, words, data)
        stores = data
    text = explained(subject, relay, data, False)
    page = explained(subject, relay, data, True)
    if status == 1:
        told = rb"refused \d+ \w+" if texts_of(subject, data) is None else re.escape(errors.strip())
        for found in (text, page):
            if found[0] != 1 or found[1] or found[2].count(b"\n") != 1 or not re.match(told + b": ", found[2]):
                return f"refused {errors!r}, and {found!r} is told"
        return None
    if status or text[0] not in (0, 3) or page[0] != text[0] or text[2] or page[2]:
        return f"ends {status}, {text[0]} {text[2]!r}, {page[0]} {page[2]!r}"
    wanted = output.decode().split("\n")[:-1]
    if subject == "proof":
        wanted = [line.split()[1] + " exposed" for line in wanted]
    if rows_of(text[1]) != wanted:
        return f"{wanted} and {rows_of(text[1])}"
    return (fault_of_places(text[1], stores) if subject == "store" else None) or fault_of_page(page[1])


def work(place):
    words, data = INPUTS.input(place)
    if words[0] not in ("status", "check"):
        return None
    return words[0], fault_of(words, data), (words, data)


def main():
    parser = argparse.ArgumentParser(description="Runs explain on texts that are nearly valid.")
    parser.add_argument("--inputs", type=int, default=20_000, help="how many inputs are made, of which those of status and check are taken (20000)")
    parser.add_argument("--seed", type=int, default=1, help="what the inputs are made from (1)")
    parser.add_argument("--jobs", type=int, default=os.cpu_count(), help="how many processes run programs (one a processor)")
    options = parser.parse_args()
    global INPUTS
    INPUTS = fuzz.Inputs(options.seed)
    runs, faults = collections.Counter(), 0
    with multiprocessing.get_context("fork").Pool(options.jobs) as pool:
        for found in pool.imap_unordered(work, range(options.inputs), 50):
            if found:
                runs[found[0]] += 1
                if found[1]:
                    faults += 1
                    os.makedirs(fuzz.OUT, exist_ok=True)
                    path = f"{fuzz.OUT}/explain-{options.seed}-{faults}.input"
                    with open(path, "wb") as it:
                        it.write(found[2][1])
                    print(f"{' '.join(found[2][0])} < {path}: {found[1]}"[:600], flush=True)
    print(f"explain: seed {options.seed}: {runs['status']} stores and {runs['check']} proofs, text and page, {faults} faults")
    return 1 if faults else 0


if __name__ == "__main__":
    sys.exit(main())
