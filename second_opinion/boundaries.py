"""Statements at and beside the ends of segments, signatures that are none, and logs at the ends of the programs' numbers, with the answers
that FORMATS has for them: "A node's keys", "The reference programs", and the last paragraphs of "Proof" and of "Items of evidence".

They are signed here, by keys of `checks/reference/nodes.py`, which sign more than once by a leaf: nobody else has them.
"""

import sys

from check import sha256, sized, u8, u32, u64
from stored import TOP, Case, proof_of, store_of

sys.path.append(f"{TOP}/checks/reference")

from nodes import Key, entry_hash

LAST = 2**32 - 1
KEYS = {node: Key(node, 3) for node in (1, 2, LAST - 1, LAST)}


def directory_of(*nodes):
    return b"PRDIREC2" + u32(len(nodes)) + b"".join(u32(node) + u8(1) + KEYS[node].public() for node in nodes)


DIRECTORY = directory_of(1, 2)
BASE, EARLIER, OTHER = sha256(), 32 * b"\x11", 32 * b"\x22"
INIT, CHECKPOINT = (1, u32(1)), (5, u64(0))


def signed(node, number, digest):
    """Number, hash and signature, as items have them."""
    KEYS[node].next_leaf = 0
    signature = KEYS[node].sign(u64(number) + digest, bytes(32))
    return u64(number) + digest + u32(len(signature)) + signature


def segment_of(node, before, entries):
    """The segment of these entries, each with its number, that the node signed."""
    text, digest = b"", before
    for number, kind, content in entries:
        digest = entry_hash(digest, number, kind, content)
        text += u64(number) + u8(kind) + u32(len(content)) + content
    return u8(2) + u32(node) + before + u32(len(entries)) + text + signed(node, entries[-1][0], digest)[40:]


class Part:
    """Entries of a log of node 1 that conform, with these numbers after this hash, and the hash at each."""

    def __init__(self, before, *numbers):
        self.before, self.entries, self.at = before, [], {}
        for number in numbers:
            entry = (number, *(INIT if before == BASE else CHECKPOINT))
            self.entries.append(entry)
            self.at[number] = before = entry_hash(before, *entry)

    def segment(self, node):
        return segment_of(node, self.before, self.entries)


LATER, WHOLE, FROM_ZERO = Part(EARLIER, 5, 6, 8), Part(BASE, 3, 4), Part(EARLIER, 0, 1)
# A segment, the number and the hash of a statement, and whether it contradicts the segment
STATEMENTS = (
    *((LATER, number, OTHER, number in (4, 5, 6, 7, 8)) for number in range(2, 11)),
    *((LATER, number, digest, False) for number, digest in LATER.at.items()),
    (LATER, 4, EARLIER, False),
    (LATER, 6, LATER.at[5], True),
    (LATER, 7, LATER.at[6], True),
    *((WHOLE, number, OTHER, number <= 4) for number in range(6)),
    *((WHOLE, number, digest, False) for number, digest in WHOLE.at.items()),
    (WHOLE, 2, BASE, True),
    (FROM_ZERO, 2**64 - 1, OTHER, False),
    (FROM_ZERO, 0, OTHER, True),
)
# A segment, one number or two by which node 1 is asked for its log, and whether the segment answers that
CHALLENGES = (
    (LATER, [8], False),
    (LATER, [5, 8], True),
    (LATER, [6, 8], True),
    (LATER, [4, 8], False),
    (WHOLE, [3], True),
    (WHOLE, [4], True),
    (WHOLE, [3, 4], True),
    (WHOLE, [9], False),
    (WHOLE, [4, 9], False),
)


def statements():
    """Each statement beside its segment, as a proof and as a store; and the same statement as one of node 2, which contradicts nothing."""
    for part, number, digest, contradicts in STATEMENTS:
        for node in (1, 2):
            said, exposed = u8(1) + u32(node) + signed(node, number, digest), contradicts and node == 1
            wanted = "exposes 1\n" if exposed else "refused 50 NoContradiction\n"
            yield Case("boundaries", number, ["check"], [DIRECTORY, proof_of(2, said, part.segment(1))], wanted)
            wanted = f"1 {'exposed' if exposed else 'trusted'}\n2 trusted\n"
            yield Case("boundaries", number, ["status"], [DIRECTORY, store_of([said, part.segment(1)])], wanted)


def challenges():
    """Each challenge beside its segment, and beside one of the same entries that is of node 2, which answers nothing."""
    for part, numbers, is_answered in CHALLENGES:
        named = [signed(1, number, part.at.get(number, EARLIER)) for number in numbers]
        asked = u8(3) + u32(1) + u8(len(named) - 1) + b"".join(named)
        wanted = f"1 {'trusted' if is_answered else 'suspected'}\n2 trusted\n"
        yield Case("boundaries", numbers, ["status"], [DIRECTORY, store_of([asked, part.segment(1)])], wanted)
        wanted = f"1 suspected\n2 {'exposed' if part is WHOLE else 'trusted'}\n"
        yield Case("boundaries", numbers, ["status"], [DIRECTORY, store_of([asked, part.segment(2)])], wanted)
    asked = u8(3) + u32(1) + u8(2) + signed(1, 5, LATER.at[5]) + signed(1, 8, LATER.at[8])
    yield Case("boundaries", "flag 2", ["status"], [DIRECTORY, store_of([asked])], "refused 41 BadTag\n")


def signatures():
    """Texts of signatures of which one alone is one: others name a key that the node has not, or none, have another length, or tell
    another leaf or other types (W8 for W4, H10 for H5)."""
    said = signed(1, 5, OTHER)
    front, own = said[:40], said[44:]
    path_at = 44 + 32 * 67
    lengths = b"", own[:-1], own[1:], own[32:], own + b"\0"
    keys = (u8(number) + own for number in (0, 1, 7, 8))
    fields = u32(1) + own[4:], u32(32) + own[4:], own[:4] + u32(4) + own[8:], own[: path_at - 4] + u32(6) + own[path_at:]
    for text in (own, *lengths, *keys, *fields):
        item = u8(1) + u32(1) + front + u32(len(text)) + text
        wanted = "1 trusted\n2 trusted\n" if text == own else "refused 49 BadSignature\n"
        yield Case("boundaries", text[:4].hex(), ["status"], [DIRECTORY, store_of([item])], wanted)


def sent(to, payload):
    return 2, u32(to) + payload


def received(number, payload):
    """The RECV entry of a message from node 2 to node 1."""
    signature = signed(2, number, entry_hash(EARLIER, number, *sent(1, payload)))[40:]
    return 3, u32(2) + u64(number) + EARLIER + signature + payload


def state(number):
    return 5, u64(number)


TIMER, MOST = (4, u64(7)), 2**64 - 1
# The flag, a node, the hash before its entries, and entries, numbered from 1, that conform, and do not where the last byte is another
LOGS = (
    ([], 1, BASE, [INIT, received(1, b"A" + u64(MOST)), sent(2, b"T" + u64(MOST))]),
    ([], 1, BASE, [INIT, received(1, b"A" + u64(2**56)), sent(2, b"T" + u64(2**56)), state(2**56)]),
    ([], 1, EARLIER, [state(MOST - 1), received(1, b"A" + u64(3)), sent(2, b"T" + u64(MOST)), state(MOST)]),
    ([], 1, BASE, [INIT, received(1, b"A" + bytes(7)), state(0)]),
    ([], 1, BASE, [INIT, received(1, b"A" + bytes(9)), state(0)]),
    ([], 1, BASE, [INIT, received(1, b"B" + u64(1)), state(0)]),
    ([], 1, BASE, [INIT, TIMER, sent(2, b"A" + u64(7)), state(0)]),
    ([], 2, BASE, [(1, u32(2)), TIMER, state(0)]),
    (["--relay"], 1, EARLIER, [state(MOST - 1), received(1, b""), sent(2, b""), received(2, b"A"), sent(2, b"A"), state(MOST)]),
    (["--relay"], 1, BASE, [INIT, TIMER, sent(2, u64(7)), state(0)]),
    *((flag, LAST - 1, BASE, [(1, u32(LAST - 1)), TIMER, sent(LAST, front + u64(7))]) for flag, front in (([], b"A"), (["--relay"], b""))),
    *((flag, LAST, BASE, [(1, u32(LAST)), TIMER, state(0)]) for flag in ([], ["--relay"])),
)


def held(clock, draft, *mails):
    """A CHECKPOINT of Mailbox. A mail is its sender, its receiver, the clock when it came, and its text."""
    listed = (u32(sender) + u32(to) + u64(at) + sized(text) for sender, to, at, text in mails)
    return 5, u64(clock) + sized(draft) + u32(len(mails)) + b"".join(listed)


def moment(first, rest):
    """A wish: its first byte, and seven others."""
    return 4, u8(first) + rest


A_MAIL, FULL = (2, LAST, 9, b"b"), 16 * [(1, 2, 0, b"")]
MAILBOX = (
    (1, BASE, [INIT, received(1, b"D" + u32(9) + b"hi"), sent(2, b"S"), held(0, b"", (2, 9, 0, b"hi"))]),
    (1, BASE, [INIT, received(1, b"D" + u32(2)), sent(2, b"S"), held(0, b"", (2, 2, 0, b""))]),
    (1, BASE, [INIT, received(1, b"D" + u32(2) + bytes(256)), sent(2, b"S")]),
    (1, BASE, [INIT, received(1, b"D" + u32(2) + bytes(257)), sent(2, b"L"), held(0, b"")]),
    (1, EARLIER, [held(0, b"", *FULL[1:]), received(1, b"D" + u32(2)), sent(2, b"S")]),
    (1, EARLIER, [held(0, b"", *FULL), received(1, b"D" + u32(2)), sent(2, b"X"), held(0, b"", *FULL)]),
    (1, EARLIER, [held(0, b"", *FULL), received(1, b"D" + u32(2) + bytes(257)), sent(2, b"L")]),
    (1, EARLIER, [held(9, b"d", (1, 2, 7, b"a"), A_MAIL, (LAST, 2, 8, b"")), received(1, b"F"), sent(2, b"M\0\0\0\1a"),
                  sent(2, b"M" + u32(LAST)), held(9, b"d", A_MAIL)]),
    (1, EARLIER, [held(9, b"", A_MAIL), received(1, b"F"), held(9, b"", A_MAIL)]),
    *((1, BASE, [INIT, received(1, payload), sent(2, b"?"), held(0, b"")]) for payload in (b"", b"D\0\0\0", b"FF", b"f", b"\0M")),
    *((1, BASE, [INIT, received(1, payload), held(0, b"")]) for payload in (b"M", b"S", b"L", b"X", b"?", b"?hi", b"MM")),
    (2, EARLIER, [held(9, b"", A_MAIL), (4, u64(1009)), held(1009, b"", A_MAIL)]),
    (2, EARLIER, [held(9, b"", A_MAIL), (4, u64(1010)), held(1010, b"")]),
    (2, EARLIER, [held(1010, b"", A_MAIL, (1, 1, 2000, b"")), (4, u64(3)), held(1010, b"", (1, 1, 2000, b""))]),
    (2, BASE, [(1, u32(2)), (4, u64(2**63 - 1)), held(2**63 - 1, b"")]),
    (2, EARLIER, [held(5, b"hi"), moment(0x81, b"abcdefg"), moment(0x83, b"ABCDEFG"), held(5, b"higEFG")]),
    (2, EARLIER, [held(5, b"hi"), moment(0x88, b"abc" + u32(LAST)), sent(1, b"D" + u32(LAST) + b"hi"), held(5, b"")]),
    (2, EARLIER, [held(5, b"hi"), moment(0x80, b"abcdefg"), sent(1, b"F"), held(5, b"hi")]),
    (1, BASE, [INIT, moment(0x80, bytes(7)), moment(0x88, bytes(7)), held(0, b"")]),
    *((2, EARLIER, [held(5, b"hi"), moment(first, bytes(7)), held(5, b"hi")]) for first in (0x89, 0xFF)),
    (2, EARLIER, [held(5, bytes(250)), moment(0x87, b"abcdefg"), moment(0x86, b"abcdefg"), held(5, bytes(250) + b"bcdefg")]),
)
# Contents of a first CHECKPOINT of Mailbox, and whether one is a state
STATES = (
    (held(0, bytes(256), *FULL)[1], True),
    (held(0, b"", (1, 2, 0, bytes(256)))[1], True),
    (held(0, bytes(257))[1], False),
    (held(0, b"", (1, 2, 0, bytes(257)))[1], False),
    (held(0, b"", *FULL, A_MAIL)[1], False),
    (held(0, b"", A_MAIL)[1] + b"\0", False),
    (held(0, b"", A_MAIL)[1][:-1], False),
    (b"", False),
)


def logs():
    for flag, node, before, entries in (*LOGS, *((["--program", "mailbox"], *log) for log in MAILBOX)):
        kind, content = entries[-1]
        other = [*entries[:-1], (kind, content[:-1] + u8(content[-1] ^ 1))]
        for these, wanted in ((entries, "refused 51 Conforms\n"), (other, f"exposes {node}\n")):
            numbered = [(number, *entry) for number, entry in enumerate(these, 1)]
            lines = [directory_of(1, 2, LAST - 1, LAST), proof_of(3, segment_of(node, before, numbered))]
            yield Case("boundaries", f"log of node {node}", ["check", *flag], lines, wanted)


def states():
    for content, is_state in STATES:
        lines = [DIRECTORY, proof_of(3, segment_of(1, EARLIER, [(1, 5, content)]))]
        yield Case("boundaries", content.hex(), ["check", "--program", "mailbox"], lines, "refused 51 Conforms\n" if is_state else "exposes 1\n")


SOURCES = statements, challenges, signatures, logs, states
