#!/usr/bin/env python3
"""Computes, over Python's hashlib alone, what bindings/cases.txt has of nodes' journals, and looks for the two examples of docs/FORMATS.md.

It shares no code with the crates: blocks, beginnings and records are spelled here from the formats ("A journal's file", "A node's
journal"). The nodes and the items are those of cases.py. What a rebuilt node says is what the node of nodes.py says that went on.
"""

import re
import sys
from pathlib import Path

sys.dont_write_bytecode = True

from nodes import of_call, sha256, u8, u32, u64

FORMATS = Path(__file__).resolve().parents[2] / "docs" / "FORMATS.md"
W8, H5, TALLY, RELAY, MAILBOX = 4, 5, 1, 2, 3
# How many bytes a group of blocks has at most, and how many a block has beside its text.
MOST_GROUP, HEAD = 8_388_608, 9
# What no case asks for: the types of the languages rule it out, or memory ran out.
RULED_OUT = {99, 110, 111, 113, 114, 117}
# Where an item of the tag has the length of its first signature.
SIGNATURE = {1: 45, 4: 49, 5: 49}


def sized(text):
    return u32(len(text)) + text


def block(text):
    return u8(255) + u32(len(text)) + u32(2**32 - 1 - len(text)) + text


def journal(*texts):
    return b"".join(map(block, texts)) + u8(0)


def beginning(node, directory, key, name, first_seq=1):
    return b"PRNODEJ1" + u32(node) + u64(first_seq) + sha256(directory) + key + sized(name)


def receipt(message, entropy):
    return u8(1) + entropy + sized(message)


def tick(moment, entropy):
    return u8(2) + entropy + u64(moment)


CHECKPOINT = u8(3)


def acceptance(ack):
    """The receiver, the number of the SEND entry, and what is behind the message."""
    at = SIGNATURE[5]
    for _ in ("signature", "payload"):
        at += 4 + int.from_bytes(ack[at : at + 4], "big")
    return u8(4) + ack[5:17] + ack[at:]


def rekeying(key):
    return u8(5) + key


def broken(item):
    """Of each refusal by an item's encoding, but 41, a text that has it."""
    at = SIGNATURE[item[0]]
    return {40: item[:-1], 42: item[:at] + u32(2**32 - 1) + item[at + 4 :], 43: item + u8(0)}


def of_files(it):
    cases = it.cases
    cases.says("journals: a block is ff, the length of its text, 2^32 - 1 less that length, and the text; a file is blocks, and 00")
    seven, cut = cases.named("seven", b"\x07"), block(b"\x07")
    cases.call("journal_block", seven, gives=cases.named("block_of_seven", cut))
    cases.call("journal_block", b"", gives=cases.named("block_of_none", block(b"")))
    cases.refused("journal_block", cases.zeros("long", MOST_GROUP - HEAD + 1), number=42)
    for text in (b"", cases.named("closed", u8(0)), b"\x09"):
        cases.call("journal_end", text, gives=0)
    it.example = cases.named("example", journal(seven, b""))
    cases.call("journal_end", it.example, gives=len(it.example) - 1)
    cases.says("behind the closed gate is what a crash tore, at most a group of it")
    cases.call("journal_end", cases.named("torn", it.example + cut[1:]), gives=len(it.example) - 1)
    cases.call("journal_end", cases.zeros("group_behind", 1 + MOST_GROUP), gives=0)
    cases.refused("journal_end", cases.zeros("more_behind", 2 + MOST_GROUP), number=122)
    cases.says("no length, two numbers that do not add up, a text that is cut off, and no gate")
    for name, text in (("no_length", cut[:8]), ("lost_bit", cut[:4] + u8(0) + cut[5:]), ("no_text", cut[:9]), ("no_gate", it.example[:-1])):
        cases.refused("journal_end", cases.named(name, text), number=122)


def directories(it):
    """Of each refusal by a directory's encoding a text that has it."""
    cases, magic, two = it.cases, it.directory[:8], it.other[12:]
    first_key = len(magic) + 4 + 5
    texts = {
        2: it.directory[:first_key] + u32(4) + it.directory[first_key + 4 :],
        3: it.directory[: first_key + 4] + u32(9) + it.directory[first_key + 8 :],
        20: magic + u32(2) + two + two[:5] + it.public[1, 0],
        21: magic + u32(2) + two + u32(1) + two[4:],
        22: magic + u32(1025),
        23: b"PRDIREC9" + u32(0),
        24: it.directory[:-1],
        25: it.directory + u8(0),
        26: magic + u32(1) + u32(1) + u8(0),
    }
    return {number: cases.named_once(f"directory_{number}", text) for number, text in texts.items()}


def of_beginnings(it):
    cases, keys = it.cases, it.public
    cases.says("a beginning is PRNODEJ1, the node, its first number, the SHA-256 value of the directory, the key, and the program's name")
    it.begun = {}
    for name, program, node, number, first, word in (
        ("begun_1", TALLY, 1, 0, 1, b"tally"),
        ("begun_2", TALLY, 2, 0, 1, b"tally"),
        ("begun_relay", RELAY, 1, 0, 7, b"relay"),
        ("begun_mailbox", MAILBOX, 1, 1, 2**64 - 1, b"mailbox"),
    ):
        it.begun[name] = cases.named(name, beginning(node, it.directory, keys[node, number], word, first))
        cases.call("node_beginning", program, it.directory, node, first, *it.words(node, number), gives=it.begun[name])
    cases.says("it is not asked whether the directory lists the node, and with this key")
    for name, node in (("unlisted", 9), ("of_another", 2)):
        it.begun[name] = cases.named(name, beginning(node, it.directory, keys[1, 0], b"tally"))
        cases.call("node_beginning", TALLY, it.directory, node, 1, *it.words(1), gives=it.begun[name])
    identifier, seed = it.words(1)[2:]
    for number, types in ((2, (4, W8)), (3, (H5, 9)), (4, (7, W8))):
        cases.refused("node_beginning", TALLY, it.directory, 1, 1, *types, identifier, seed, number=number)
        cases.refused("record_next_key", *types, identifier, seed, number=number)
    for number, text in directories(it).items():
        cases.refused("node_beginning", TALLY, text, 1, 1, *it.words(1), number=number)


def of_records(it):
    """The records of what nodes 1 and 2 were given above."""
    cases, keys = it.cases, it.public
    cases.says("records: 01, entropy and message; 02, entropy and moment; 03; 04 and an acknowledgement without its message; 05 and the key")
    received = cases.named("recorded_message", receipt(it.message, of_call(2)))
    cases.call("record_answer", it.message, of_call(2), gives=received)
    ticks = []
    for moment, entropy in ((5, 1), (6, 4), (7, 7)):
        ticks.append(cases.named(f"recorded_tick_{moment}", tick(moment, of_call(entropy))))
        cases.call("record_timer", moment, of_call(entropy), gives=ticks[-1])
    cases.call("record_timer", 2**64 - 1, of_call(1), gives=cases.named("recorded_last_tick", tick(2**64 - 1, of_call(1))))
    cases.call("record_checkpoint", gives=cases.named("recorded_checkpoint", CHECKPOINT))
    accepted = cases.named("recorded_ack", acceptance(it.ack))
    cases.call("record_ack", it.ack, gives=accepted)
    rekeyed = [cases.named(f"recorded_key_{number}", rekeying(keys[1, number])) for number in (1, 0)]
    for number, text in zip((1, 0), rekeyed):
        cases.call("record_next_key", *it.words(1, number), gives=text)
    for number, text in broken(it.message).items():
        cases.refused("record_answer", cases.named_once(f"message_{number}", text), of_call(2), number=number)
    cases.refused("record_answer", it.ack, of_call(2), number=41)
    for number, text in broken(it.ack).items():
        cases.refused("record_ack", cases.named(f"ack_{number}", text), number=number)
    cases.refused("record_ack", it.message, number=41)
    # The last one is refused by the node, and recorded too.
    it.texts_1 = [it.begun["begun_1"], ticks[0], accepted, ticks[1], rekeyed[0], rekeyed[1], ticks[2]]
    it.texts_2 = [it.begun["begun_2"], received, CHECKPOINT]


def of_rebuilding(it):
    """The nodes of journals are as those that went on."""
    cases = it.cases
    cases.says("nodes of journals that have what nodes 1 and 2 were given above")
    it.secrets_1 = cases.named("secrets_1", b"".join(key.identifier + key.seed for key in it.of(1)))
    it.secrets_2 = cases.named("secrets_2", b"".join(key.identifier + key.seed for key in it.of(2)))
    it.journal_1, journal_2 = cases.named("journal_1", journal(*it.texts_1)), cases.named("journal_2", journal(*it.texts_2))
    cases.call("node_rebuild", "one_again", TALLY, it.directory, it.secrets_1, it.journal_1)
    cases.call("node_rebuild", "two_again", TALLY, it.directory, it.secrets_2, journal_2)
    for name, node in (("one", it.one), ("two", it.two)):
        history = cases.named(f"history_of_{name}", node.history())
        cases.call("node_history", name, gives=history)
        cases.call("node_history", f"{name}_again", gives=history)
    for place, seq in enumerate(it.one.awaited):
        cases.call("node_waiting", "one_again", place, gives=seq)
    cases.refused("node_waiting", "one_again", len(it.one.awaited), number=116)
    cases.call("node_message", "one_again", it.one.awaited[-1], gives=it.by_key_1)
    cases.call("node_remaining", "one_again", gives=31)
    cases.call("node_remaining", "two_again", gives=30)
    cases.call("node_answer", "two_again", it.message, of_call(6), gives=it.ack)
    cases.says("behind the closed gate nothing counts; an old copy lacks what came later")
    cases.call("node_rebuild", "torn_off", TALLY, it.directory, it.secrets_2, cases.named("torn_2", journal_2 + block(CHECKPOINT)[1:]))
    cases.call("node_history", "torn_off", gives=it.two.history())
    cases.call("node_rebuild", "old", TALLY, it.directory, it.secrets_1, cases.named("old_1", journal(*it.texts_1[:2])))
    first, last = it.one.statement(0), cases.named("last_of_1", it.one.statement(-1))
    other = cases.named("other_of_2", it.liar.statement(0))
    for name, statement, knows in (
        *(("old", first, 1), ("old", last, 0), ("one_again", last, 1), ("two_again", last, 1)),
        *(("two_again", it.two.statement(0), 1), ("two_again", other, 0), ("one_again", other, 1)),
    ):
        cases.call("node_knows", name, statement, gives=knows)
    for number, text in broken(last).items():
        cases.refused("node_knows", "one_again", cases.named(f"statement_{number}", text), number=number)
    cases.refused("node_knows", "one_again", it.message, number=41)
    cases.says("a node of a journal goes on as it would have")
    (message,) = it.one.timer(8, of_call(8))
    cases.call("node_timer", "one_again", 8, of_call(8))
    cases.call("node_message", "one_again", message.seq, gives=cases.named("after_crash", it.item_of(message)))


def of_refused_journals(it):
    cases = it.cases
    cases.says("journals of which no node is rebuilt")
    for number, text in directories(it).items():
        cases.refused("node_rebuild", "no", TALLY, text, it.secrets_1, it.journal_1, number=number)
    begun, rekeyed, alone = it.begun["begun_1"], it.texts_1[4], cases.named("secret_10", it.secrets_1[:48])
    for name, texts, secrets, number in (
        ("unbegun", [CHECKPOINT], it.secrets_1, 127),
        ("of_node_9", [it.begun["unlisted"]], it.secrets_1, 30),
        ("of_wrong_key", [it.begun["of_another"]], it.secrets_1, 31),
        ("begun_twice", [begun, begun], it.secrets_1, 129),
        ("rekeyed_first", [begun, rekeyed, begun], alone, 128),
        ("begun_first", [begun, begun, rekeyed], alone, 129),
    ):
        cases.refused("node_rebuild", "no", TALLY, it.directory, secrets, cases.named(name, journal(*texts)), number=number)
    for program, directory, secrets, text, number in (
        (TALLY, it.directory, it.secrets_1, cases.named("ungated", it.journal_1[:-1]), 122),
        (TALLY, it.directory, it.secrets_1, b"", 126),
        (TALLY, it.directory, it.secrets_1, u8(0), 126),
        (RELAY, it.directory, it.secrets_1, it.journal_1, 123),
        (TALLY, it.other, it.secrets_1, it.journal_1, 124),
        (TALLY, it.directory, it.secrets_2, it.journal_1, 128),
        (TALLY, it.directory, b"", it.journal_1, 128),
        (TALLY, it.directory, alone, it.journal_1, 128),
    ):
        cases.refused("node_rebuild", "no", program, directory, secrets, text, number=number)


def of_journals(it):
    """What is done with journals of nodes 1 and 2 of a scene of cases.py, after all that they were given there."""
    for part in (of_files, of_beginnings, of_records, of_rebuilding, of_refused_journals):
        part(it)


def refusals_in(header):
    """Of each call on journals the refusals that its comment in the header has. A number is at the head of its clause there: `122 no crash
    leaves such a file`, `20 to 26 of the directory's text`, `- 113 if there is no such program`."""
    known = {int(number) for number in re.findall(r"BULWYNEF_REFUSED_\w+ = (\d+)", header)}
    commented = re.findall(r"/\*((?:(?!\*/).)*)\*/\s*\w+ bulwynef_(\w+)\(", header, re.S)
    comments = {call: " ".join(comment.split("\n\n")[0].split()) for comment, call in commented}

    def refusals_of(call):
        found = set()
        for clause in re.split(r"[.;:,] | - | and | with ", comments[call]):
            number, as_call = re.match(r" ?(\d+)(?: to (\d+))?\b", clause), re.search(r"\bas bulwynef_(\w+) ", clause)
            found |= {it for it in range(int(number[1]), int(number[2] or number[1]) + 1)} if number else set()
            found |= refusals_of(as_call[1]) if as_call else set()
        return found & known

    section = header.split("/* ---- nodes that survive")[1].split("/* ----")[0]
    return {call: refusals_of(call) for call in re.findall(r"^\w+ bulwynef_(\w+)\(", section, re.M)}


def faults_of_refusals(header, text):
    """The refusals of calls on journals that the header has and the cases lack, and those that the header lacks."""
    asked = {(call, int(number)) for call, number in re.findall(r"^(\w+) (?:.* )?= (\d+)$", text, re.M)}
    for call, told in sorted(refusals_in(header).items()):
        made = {number for it, number in asked if it == call and number}
        yield from (f"bindings/cases.txt: {call} is never refused with {number}" for number in sorted(told - RULED_OUT - made))
        yield from (f"c/bulwynef.h: {call} is refused with {number}, and its comment does not say so" for number in sorted(made - told))


def main():
    digits = re.sub(r"\s+", "", FORMATS.read_text(encoding="utf-8"))
    entropy = "0b0b..0b"
    shown = {"the journal": journal(b"\x07", b"").hex(), "the records": "02" + entropy + u64(5).hex() + CHECKPOINT.hex()}
    missing = [name for name, text in shown.items() if text not in digits]
    print(*(f"docs/FORMATS.md: {name} of the example would be {shown[name]}" for name in missing), sep="\n", end="\n" if missing else "")
    if not missing:
        print("docs/FORMATS.md has the examples of journals that the formats give")
    return 1 if missing else 0


if __name__ == "__main__":
    sys.exit(main())
