#!/usr/bin/env python3
"""Holds bindings/cases.txt to what it computes of the formats, over Python's hashlib alone; with the word `write` it writes the file anew.

It shares no code with the crates: keys and nodes are those of nodes.py, outlines, summaries and packs those of transfers.py, journals those
of journals.py, and the sentences are stored beside the examples. bindings/README.md says how a line is read.
"""

import hashlib
import re
import sys
from pathlib import Path

sys.dont_write_bytecode = True

from journals import faults_of_refusals, of_journals, sized
from nodes import Key, Node, of_call, sha256, u8, u32, u64
from transfers import container, outline, short_summary, summary

TOP = Path(__file__).resolve().parents[2]
CASES = TOP / "bindings" / "cases.txt"
HEADER = TOP / "c" / "bulwynef.h"
W8, H5, TALLY, RELAY, MAILBOX, TRUSTED, SUSPECTED, EXPOSED = 4, 5, 1, 2, 3, 1, 2, 3
# What a runner does with a handle or with a text itself, and what is of no evidence: no line asks for it.
BY_RUNNERS = {"text_len", "text_copy", "close", "version"}


class Told(Node):
    """A node that tells its entries and the items that it gives."""

    ots_type, listed = W8, (1, 2)

    def __init__(self, number, first_seq=1):
        self.kept = []
        super().__init__(number, first_seq)

    def log(self, kind, content):
        place = super().log(kind, content)
        self.kept.append((place[0], kind, content))
        return place

    def history(self):
        return b"".join(u64(seq) + u8(kind) + sized(content) for seq, kind, content in self.kept)

    def statement(self, place):
        """The item of the statement of that place among those that were signed."""
        text = self.signed[place]
        return u8(1) + text[:44] + sized(text[52:])

    def segment(self, place):
        """The item of the log up to the entry of that statement."""
        text = self.signed[place]
        entries = [entry for entry in self.kept if entry[0] <= int.from_bytes(text[4:12], "big")]
        told = b"".join(u64(seq) + u8(kind) + sized(content) for seq, kind, content in entries)
        return u8(2) + u32(self.number) + sha256() + u32(len(entries)) + told + sized(text[52:])


class Relaying(Told):
    def timer(self, moment, entropy):
        self.log(4, u64(moment))
        return self.send([(self.number + 1, u64(moment))], entropy, 0)


class Fetching(Told):
    def timer(self, moment, entropy):
        self.log(4, u64(moment))
        return self.send([(1, b"F")], entropy, 0)


def item_of(message):
    numbers = u32(message.sender) + u32(message.receiver) + u64(message.seq)
    return u8(4) + numbers + message.before + sized(message.signature) + sized(message.payload)


def ack_of(message, ack):
    return u8(5) + item_of(message)[1:] + u64(ack.seq) + ack.before + sized(ack.signature)


def audit_of(statement, first=b""):
    return u8(3) + statement[1:5] + (u8(1) + first[5:] if first else u8(0)) + statement[5:]


class Cases:
    """Lines of the file. A text gets a name where it is first used."""

    def __init__(self):
        self.lines, self.names = [], {}

    def named(self, name, text):
        self.names[text] = name
        self.lines.append(f"text {name} {text.hex()}".rstrip())
        return text

    def named_once(self, name, text):
        """The text, by the name that it has already or else by this one."""
        return text if text in self.names else self.named(name, text)

    def zeros(self, name, count):
        """A text of so many bytes 0, which a line does not spell."""
        text = bytes(count)
        self.names[text] = name
        self.lines.append(f"zeros {name} {count}")
        return text

    def line(self, name, words):
        return " ".join([name, *map(self.word, words), "="])

    def word(self, word):
        return f"@{self.names[word]}" if isinstance(word, bytes) else str(word)

    def call(self, name, *words, gives=()):
        told = " ".join(map(self.word, gives if isinstance(gives, tuple) else (gives,)))
        self.lines.append(f"{self.line(name, words)} 0 {told}".rstrip())

    def refused(self, name, *words, number):
        self.lines.append(f"{self.line(name, words)} {number}")

    def says(self, line):
        self.lines.append(f"# {line}")


def read(path):
    return (TOP / path).read_bytes()


class Scene:
    """Two nodes of Tally and a witness; then a second node 2 by the same key."""

    def __init__(self, cases):
        self.cases = cases
        self.keys = {(node, number): Key(node, W8, number) for node, number in ((1, 0), (1, 1), (2, 0))}
        for (node, number), key in self.keys.items():
            cases.named(f"id{node}{number}", key.identifier)
            cases.named(f"seed{node}{number}", key.seed)
        rows = [u32(node) + u8(len(keys)) + b"".join(key.public() for key in keys) for node, keys in ((1, self.of(1)), (2, self.of(2)))]
        self.directory = cases.named("directory", b"PRDIREC2" + u32(2) + b"".join(rows))
        self.other = cases.named("other_directory", b"PRDIREC2" + u32(1) + rows[1])
        cases.named("none", b"")
        cases.named("byte", b"\x09")
        for number in range(1, 9):
            cases.named(f"entropy{number}", of_call(number))
        self.one, self.two, self.liar, self.item_of = Told(1), Told(2), Told(2), item_of
        self.public = {place: key.public() for place, key in self.keys.items()}

    def of(self, node):
        return [key for (it, _), key in self.keys.items() if it == node]

    def words(self, node, number=0):
        key = self.keys[node, number]
        return H5, W8, key.identifier, key.seed

    def begin(self, name, node, program=TALLY):
        self.cases.call("node_new", name, program, self.directory, node, 1, *self.words(node))


def of_keys(it):
    cases = it.cases
    cases.says("keys")
    for (node, number), key in it.keys.items():
        cases.call("public_key", *it.words(node, number), gives=cases.named(f"key{node}{number}", key.public()))
    identifier, seed = it.words(1)[2:]
    cases.refused("public_key", 4, W8, identifier, seed, number=2)
    cases.refused("public_key", H5, 9, identifier, seed, number=3)
    cases.refused("public_key", 7, W8, identifier, seed, number=4)


def of_beginnings(it):
    cases = it.cases
    cases.says("nodes that begin, and that are refused")
    it.begin("one", 1)
    it.begin("two", 2)
    cut = cases.named("cut_directory", it.directory[:-1])
    cases.refused("node_new", "no", TALLY, cut, 1, 1, *it.words(1), number=24)
    cases.refused("node_new", "no", TALLY, it.directory, 9, 1, *it.words(1), number=30)
    cases.refused("node_new", "no", TALLY, it.directory, 2, 1, *it.words(1), number=31)
    cases.refused("store_open", "no", TALLY, cut, number=24)
    cases.refused("store_open", "no", TALLY, cases.named("no_directory", b"PRDIREC9" + u32(0)), number=23)


def of_messages(it):
    """A message, its acknowledgement, and what a witness says meanwhile."""
    cases = it.cases
    cases.says("a message and its acknowledgement")
    (message,) = it.one.timer(5, of_call(1))
    ack, _ = it.two.receive(message, of_call(2))
    it.message, it.ack = cases.named("message", item_of(message)), cases.named("ack", ack_of(message, ack))
    cases.call("node_timer", "one", 5, of_call(1))
    cases.call("node_waiting", "one", 0, gives=message.seq)
    cases.refused("node_waiting", "one", 1, number=116)
    cases.call("node_message", "one", message.seq, gives=it.message)
    cases.refused("node_message", "one", message.seq + 1, number=116)
    cases.call("store_open", "witness", TALLY, it.directory)
    cases.call("store_indication", "witness", 2, gives=TRUSTED)
    cases.call("store_take", "witness", it.message, gives=1)
    cases.call("store_take", "witness", it.message, gives=0)
    cases.call("store_indication", "witness", 2, gives=SUSPECTED)
    cases.refused("store_indication", "witness", 9, number=44)
    cases.call("store_challenge", "witness", 2, 0, gives=it.message)
    cases.refused("store_challenge", "witness", 2, 1, number=116)
    cases.refused("store_challenge", "witness", 9, 0, number=44)
    cases.refused("node_answer", "one", it.message, of_call(2), number=70)
    cases.refused("node_answer", "two", cases.named("cut_message", it.message[:-1]), of_call(2), number=40)
    cases.call("node_answer", "two", it.message, of_call(2), gives=it.ack)
    cases.call("node_answer", "two", it.message, of_call(3), gives=it.ack)
    cases.refused("node_accept_ack", "one", it.message, number=41)
    cases.refused("node_accept_ack", "two", it.ack, number=38)
    cases.call("node_accept_ack", "one", it.ack)
    cases.refused("node_waiting", "one", 0, number=116)
    it.one.accept(ack)
    cases.call("store_take", "witness", it.ack, gives=1)
    cases.call("store_indication", "witness", 2, gives=TRUSTED)
    cases.refused("store_take", "witness", cases.named("forged", it.message[:-1] + b"\x06"), number=49)


def of_audits(it):
    cases = it.cases
    cases.says("statements, and an audit up to one")
    sent, received = cases.named("sent", it.one.statement(0)), cases.named("received", it.two.statement(0))
    replied = cases.named("replied", it.two.statement(1))
    cases.call("statement_of", it.message, 0, gives=sent)
    cases.call("statement_of", it.ack, 0, gives=sent)
    cases.call("statement_of", it.ack, 1, gives=received)
    cases.refused("statement_of", it.ack, 2, number=116)
    cases.refused("statement_of", b"\x09", 0, number=41)
    it.audit = cases.named("audit", audit_of(received))
    cases.call("audit_challenge", b"", received, gives=it.audit)
    cases.call("audit_challenge", received, replied, gives=cases.named("range", audit_of(replied, received)))
    cases.refused("audit_challenge", replied, received, number=48)
    cases.refused("audit_challenge", sent, received, number=48)
    cases.call("send_challenge", it.ack, gives=it.message)
    cases.refused("send_challenge", received, number=41)
    cases.call("store_take", "witness", it.audit, gives=1)
    cases.call("store_indication", "witness", 2, gives=SUSPECTED)
    it.segment = cases.named("segment", it.two.segment(0))
    cases.refused("node_answer", "two", received, of_call(3), number=72)
    cases.call("node_answer", "two", it.audit, of_call(3), gives=it.segment)
    cases.call("store_take", "witness", it.segment, gives=1)
    cases.call("store_indication", "witness", 2, gives=TRUSTED)
    cases.refused("store_proof", "witness", 2, number=115)
    cases.call("node_history", "two", gives=cases.named("history", it.two.history()))


def of_exposures(it):
    """A second node 2 by the same key, and the proof: which one that is, no contract says, so the next line checks it."""
    cases = it.cases
    cases.says("a second history, and a proof")
    (message,) = it.one.timer(6, of_call(4))
    ack, _ = it.liar.receive(message, of_call(5))
    second = cases.named("second", item_of(message))
    it.lie = cases.named("lie", ack_of(message, ack))
    it.begin("liar", 2)
    cases.call("node_timer", "one", 6, of_call(4))
    cases.call("node_message", "one", message.seq, gives=second)
    cases.call("node_answer", "liar", second, of_call(5), gives=it.lie)
    cases.call("store_take", "witness", it.lie, gives=1)
    cases.call("store_indication", "witness", 2, gives=EXPOSED)
    cases.refused("store_proof", "witness", 9, number=44)
    cases.lines.append("store_proof witness 2 = 0 >proof")
    cases.lines.append("check_proof 1 @directory @proof = 0 2")
    cases.refused("node_answer", "two", cases.named("unheld", audit_of(it.liar.statement(0))), of_call(6), number=71)


def of_exchanges(it):
    cases = it.cases
    cases.says("what stores give one another")
    items = [it.message, it.ack, it.audit, it.segment, it.lie]
    export = cases.named("export", container(b"PRSTORE2", items))
    outlined, told = cases.named("outline", outline(items)), cases.named("summary", summary([it.message]))
    short = cases.named("short", short_summary([it.message], outlined))
    named = {sha256(it.message)}
    rest = [item for item in items if sha256(item) not in named]
    packed = cases.named("pack", container(b"PRPACK01", rest))
    cases.call("store_export", "witness", gives=export)
    cases.call("store_open", "copy", TALLY, it.directory)
    cases.call("store_includes", "copy", "witness", gives=0)
    cases.call("store_import", "copy", export, gives=len(items))
    cases.call("store_includes", "copy", "witness", gives=1)
    cases.call("store_merge", "copy", "witness", gives=0)
    cases.call("store_open", "far", TALLY, it.directory)
    cases.call("store_take", "far", it.message, gives=1)
    cases.call("store_outline", "witness", gives=outlined)
    cases.call("store_summary", "far", gives=told)
    cases.call("store_short_summary", "far", outlined, gives=short)
    cases.call("store_pack", "witness", told, gives=packed)
    cases.call("store_pack", "witness", short, gives=packed)
    cases.call("store_apply", "far", packed, gives=len(rest))
    cases.call("store_export", "far", gives=export)
    cases.call("store_open", "late", TALLY, it.directory)
    cases.call("store_merge", "late", "far", gives=len(items))
    cases.refused("store_import", "far", cases.named("descending", export[:8] + u64(2) + 2 * (u32(len(it.audit)) + it.audit)), number=61)
    cases.refused("store_import", "far", packed, number=60)
    cases.refused("store_apply", "far", export, number=60)
    cases.refused("store_short_summary", "far", told, number=60)
    cases.refused("store_pack", "far", outlined, number=60)
    cases.refused("store_pack", "far", cases.named("nothing_kept", b"PRSUMM02" + 256 * (u8(0) + u64(0))), number=62)
    cases.call("store_open", "elsewhere", TALLY, it.other)
    cases.refused("store_merge", "far", "elsewhere", number=112)
    cases.call("store_includes", "far", "elsewhere", gives=1)


def of_later_keys(it):
    cases = it.cases
    cases.says("a checkpoint, leaves, a second key")
    cases.call("node_checkpoint", "two", gives=it.two.checkpoint())
    cases.call("node_remaining", "two", gives=30)
    cases.refused("node_next_key", "two", *it.words(2), number=31)
    cases.call("node_next_key", "one", *it.words(1, 1))
    cases.refused("node_next_key", "one", *it.words(1, 0), number=31)
    cases.call("node_remaining", "one", gives=32)
    it.one.key = Key(1, W8, 1)
    (message,) = it.one.timer(7, of_call(7))
    cases.call("node_timer", "one", 7, of_call(7))
    it.by_key_1 = cases.named("by_key_1", item_of(message))
    cases.call("node_message", "one", message.seq, gives=it.by_key_1)


def of_programs(it):
    cases = it.cases
    cases.says("the other programs")
    (relayed,) = Relaying(1).timer(7, of_call(8))
    it.begin("relay", 1, RELAY)
    cases.call("node_timer", "relay", 7, of_call(8))
    cases.call("node_message", "relay", relayed.seq, gives=cases.named("relayed", item_of(relayed)))
    (fetch,) = Fetching(2).timer(0x80 << 56, of_call(8))
    it.begin("mailbox", 2, MAILBOX)
    cases.call("node_timer", "mailbox", 0x80 << 56, of_call(8))
    cases.call("node_message", "mailbox", fetch.seq, gives=cases.named("fetch", item_of(fetch)))


def explained(name, directory):
    """What is explained, behind the two lines that the library writes in place of the three of the examples."""
    sentences = read(f"examples/explained/{name}.txt").decode().splitlines(keepends=True)[3:]
    return f"program tally\ndirectory {hashlib.sha256(directory).hexdigest()}\n{''.join(sentences)}".encode()


def of_examples(cases):
    """The evidence of examples/, with what stands there."""
    cases.says("the examples")
    directory = cases.named("nodes", read("examples/nodes.dir"))
    proof, store = cases.named("wrong_output", read("examples/wrong_output.proof")), cases.named("equivocation", read("examples/equivocation.store"))
    cases.call("check_proof", TALLY, directory, proof, gives=2)
    cases.call("explain_proof", TALLY, directory, proof, gives=cases.named("why_proof", explained("wrong_output.proof2", directory)))
    for name, text, number in (("cut_proof", proof[:-1], 40), ("long_proof", proof + b"\x00", 43), ("seven", b"\x07", 41), ("empty", b"", 40)):
        cases.refused("check_proof", TALLY, directory, cases.named_once(name, text), number=number)
        cases.refused("explain_proof", TALLY, directory, text, number=number)
    cases.refused("check_proof", TALLY, cases.named("cut_nodes", directory[:-1]), proof, number=24)
    cases.refused("check_proof", TALLY, directory, cases.named("same_twice", read("checks/formats/no_contradiction.proof")), number=50)
    cases.refused("check_proof", TALLY, directory, cases.named("conforms", read("checks/formats/conforms.proof")), number=51)
    cases.call("store_open", "example", TALLY, directory)
    cases.call("store_import", "example", store, gives=2)
    cases.call("store_indication", "example", 1, gives=TRUSTED)
    cases.call("store_indication", "example", 2, gives=EXPOSED)
    cases.call("store_explain", "example", gives=cases.named("why_store", explained("equivocation", directory)))


def text_of_cases():
    cases = Cases()
    scene = Scene(cases)
    for part in (of_keys, of_beginnings, of_messages, of_audits, of_exposures, of_exchanges, of_later_keys, of_journals, of_programs):
        part(scene)
    of_examples(cases)
    return "# Made by checks/reference/cases.py. bindings/README.md says how a line is read.\n" + "".join(f"{line}\n" for line in cases.lines)


def faults(text):
    """What the file lacks: each call of the header is made with success, and each call on journals is refused as the header says."""
    header = HEADER.read_text(encoding="utf-8")
    calls = set(re.findall(r"^\w+ bulwynef_(\w+)\(", header, re.M)) - BY_RUNNERS
    made = set(re.findall(r"^(\w+) (?:.* )?= 0", text, re.M))
    yield from (f"bindings/cases.txt: {call} is never called with success" for call in sorted(calls - made))
    yield from (f"bindings/cases.txt: {call} is no call of c/bulwynef.h" for call in sorted(made - calls))
    yield from faults_of_refusals(header, text)


def main():
    text = text_of_cases()
    told = list(faults(text))
    if sys.argv[1:] == ["write"]:
        CASES.write_text(text, encoding="utf-8")
    elif CASES.read_text(encoding="utf-8") != text:
        told.append("bindings/cases.txt: is not what the formats give: checks/reference/cases.py write makes it anew")
    print(*told, sep="\n", end="\n" if told else "")
    if not told:
        print(f"bindings/cases.txt has {len(re.findall(r' = ', text))} calls, as the formats have them")
    return 1 if told else 0


if __name__ == "__main__":
    sys.exit(main())
