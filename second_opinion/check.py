#!/usr/bin/env python3
"""A second opinion on evidence: whom a proof convicts, and what stores say of each node.

    check.py --program NAME [--why] DIRECTORY PROOF         exposes ID, or the refusal; under which program, which directory
    check.py [--program NAME] [--why] [DIRECTORY] BUNDLE    the same, and in what the bundle is another than was named
    check.py --program NAME --store DIRECTORY STORE..       a line for each node: trusted, suspected or exposed

NAME is the program that the nodes were to follow: tally, relay or mailbox. A bundle names its own. A file is bytes, or a line of hexadecimal
digits; one of two lines is a directory, and what stands under it. `-` is standard input. --why tells each signature, hash and step that was
verified, in sentences. It ends with 0; with 1 after `refused NUMBER NAME: PLACE` on standard error; with 2 where the words are others than
these; with 3 where --store says that a node is exposed; with 5 where a bundle has another program or directory than was named.

This one file is all of it, in Python 3.9 and its standard library, written from RFC 8554, from PeerReview (Haeberlen, Kouznetsov, Druschel:
SOSP 2007) and from docs/FORMATS.md, whose headings stand below in quotes. It shares no code with the proved programs, and is not proved.
"""

import argparse
import binascii
import contextlib
import functools
import hashlib
import re
import sys
from collections import namedtuple

# ---- refusals: "Refusals"
NAMES = """2 UnknownLmsType, 3 UnknownOtsType, 20 DuplicateNode, 21 DuplicateKey, 22 TooManyNodes, 23 BadMagic, 24 Truncated, 25 Trailing,
26 KeyCount, 40 Truncated, 41 BadTag, 42 TooLong, 43 Trailing, 44 UnknownNode, 45 SelfMessage, 46 EmptySegment, 47 BadStart, 48 BadRange,
49 BadSignature, 50 NoContradiction, 51 Conforms, 60 BadMagic, 61 NotAscending, 99 Memory, 100 ReadFailed, 101 InputTooLong,
102 WriteFailed, 103 BadHex, 104 LineCount, 106 BadBundle, 109 UnknownProgram, 131 OlderBundle"""
REFUSALS = {int(number): name for number, name in (it.split() for it in NAMES.split(","))}

class Refused(Exception):
    """An input is refused, for a reason that has a number and a name, at a place."""
    def __init__(self, number, *places):
        self.number, self.places = number, list(places)
    def __str__(self):
        return f"refused {self.number} {REFUSALS[self.number]}" + ": " * bool(self.places) + ", ".join(self.places)

@contextlib.contextmanager
def at(place):
    """Tells of a refusal inside where that was."""
    try:
        yield
    except Refused as refused:
        refused.places.insert(0, place)
        raise

# ---- bytes: the first paragraphs of FORMATS
def sha256(*parts):
    return hashlib.sha256(b"".join(parts)).digest()

u8, u16, u32, u64 = (lambda number, width=width: number.to_bytes(width, "big") for width in (1, 2, 4, 8))

def sized(text):
    """`bytes`: a text behind its length."""
    return u32(len(text)) + text

class Reader:
    """Reads a text from the left, and refuses it by these numbers where it is cut off or longer."""
    def __init__(self, text, cut_off=40, left_over=43):
        self.text, self.at, self.cut_off, self.left_over = text, 0, cut_off, left_over
    def take(self, count):
        if len(self.text) - self.at < count:
            raise Refused(self.cut_off)
        self.at += count
        return self.text[self.at - count : self.at]
    def number(self, width):
        return int.from_bytes(self.take(width), "big")
    def count(self, most):
        """A length or a count in four bytes, which is told as soon as it is read where it is above its limit."""
        count = self.number(4)
        if count > most:
            raise Refused(42)
        return count
    def sized(self, most):
        return self.take(self.count(most))
    def end(self):
        if self.at < len(self.text):
            raise Refused(self.left_over)

# ---- signatures: "Public key", "Signature"; RFC 8554
# Of an LMS type the height of the tree (section 5.1); of an LM-OTS type bits of an element, number of chains, shift of the checksum (4.1)
HEIGHTS = {5: 5, 6: 10, 7: 15, 8: 20, 9: 25}
ONE_TIME = {1: (1, 265, 7), 2: (2, 133, 6), 3: (4, 67, 4), 4: (8, 34, 0)}
# What tells hashed texts apart (sections 4.3 and 5.2)
D_PBLC, D_MESG, D_LEAF, D_INTR = u16(0x8080), u16(0x8181), u16(0x8282), u16(0x8383)
PublicKey = namedtuple("PublicKey", "lms_type ots_type identifier root")  # section 5.3: both typecodes, I, and T[1]

def read_key(read):
    key = PublicKey(read.number(4), read.number(4), read.take(16), read.take(32))
    if key.lms_type not in HEIGHTS:
        raise Refused(2)
    if key.ots_type not in ONE_TIME:
        raise Refused(3)
    return key

def coef(text, i, w):
    """Section 3.1.3: element i of the text, read as a sequence of numbers of w bits."""
    return (2**w - 1) & (text[i * w // 8] >> (8 - (w * (i % (8 // w)) + w)))

def one_time_key(key, q, c, values, message):
    """Section 4.6, algorithm 4b: the key Kc that C and the values in the chains give for the message, under leaf q."""
    w, chains, shift = ONE_TIME[key.ots_type]
    front = key.identifier + u32(q)
    digest = sha256(front, D_MESG, c, message)
    lack = sum(2**w - 1 - coef(digest, i, w) for i in range(256 // w))
    text, ends = digest + u16((lack << shift) & 0xFFFF), []  # section 4.4: Q || Cksm(Q), whose elements are places in the chains
    for i in range(chains):
        value, place = values[32 * i : 32 * i + 32], front + u16(i)
        for j in range(coef(text, i, w), 2**w - 1):
            value = sha256(place, u8(j), value)
        ends.append(value)
    return sha256(front, D_PBLC, *ends)

@functools.lru_cache(maxsize=4096)
def verifies(key, message, signature):
    """Section 5.4.2, algorithm 6a: whether the signature is one of the message by the key. Answers are kept: items quote each other."""
    height, path_at = HEIGHTS[key.lms_type], 44 + 32 * ONE_TIME[key.ots_type][1]
    if len(signature) != path_at + 32 * height:
        return False
    q, ots_type, lms_type = int.from_bytes(signature[:4], "big"), signature[4:8], signature[path_at - 4 : path_at]
    if ots_type != u32(key.ots_type) or lms_type != u32(key.lms_type) or q >= 2**height:
        return False
    r = 2**height + q
    kc = one_time_key(key, q, signature[8:40], signature[40 : path_at - 4], message)
    value = sha256(key.identifier, u32(r), D_LEAF, kc)
    for place in range(path_at, len(signature), 32):
        sibling = signature[place : place + 32]
        left, right = (sibling, value) if r % 2 else (value, sibling)
        r //= 2
        value = sha256(key.identifier, u32(r), D_INTR, left, right)
    return value == key.root

# ---- directories, and who signed what: "Directory", "A node's keys, and the text of a signature by one of them", "Signed statement"
MOST_NODES, MOST_KEYS, LONGEST_SIGNATURE = 1024, 8, 9325

def read_directory(text):
    """The keys of each node, in their order."""
    read = Reader(text, cut_off=24, left_over=25)
    magic = read.take(8)
    if magic not in (b"PRDIREC2", b"PRDIRECT"):
        raise Refused(23)
    count = read.number(4)
    if count > MOST_NODES:
        raise Refused(22)
    directory, known = {}, set()
    for _ in range(count):
        node = read.number(4)
        key_count = read.number(1) if magic == b"PRDIREC2" else 1
        if not 1 <= key_count <= MOST_KEYS:
            raise Refused(26)
        keys = Reader(read.take(56 * key_count))
        keys = [read_key(keys) for _ in range(key_count)]
        if node in directory:
            raise Refused(20)
        for key in keys:
            if key in known:
                raise Refused(21)
            known.add(key)
        directory[node] = keys
    read.end()
    return directory

# A node says, by the text of a signature, that its log has this hash at this number
Statement = namedtuple("Statement", "node number hash signature")

def split_signature(text):
    """The number of the key that the text names, and the LMS signature; none where it is no such text."""
    if len(text) % 32 == 12:
        return 0, text
    if len(text) % 32 == 13 and 1 <= text[0] < MOST_KEYS:
        return text[0], text[1:]
    return None

def is_signed(directory, statement):
    """Whether the node is listed, and the one of its keys that the signature names verifies the statement."""
    keys, split = directory.get(statement.node, []), split_signature(statement.signature)
    if split is None or split[0] >= len(keys):
        return False
    return verifies(keys[split[0]], u64(statement.number) + statement.hash, split[1])

# ---- logs: "Log entries"
INIT, SEND, RECV, TIMER, CHECKPOINT = 1, 2, 3, 4, 5
LONGEST_PAYLOAD, LONGEST_STATE, LONGEST_CONTENT, MOST_ENTRIES, LONGEST_ITEM = 65_536, 65_536, 131_072, 4096, 536_933_530
BASE = sha256()  # the hash before a log's first entry
Entry = namedtuple("Entry", "number kind content")

def entry_hash(before, entry):
    return sha256(before, u64(entry.number), u8(entry.kind), sha256(entry.content))

class Quote(namedtuple("Quote", "sender number before signature payload")):
    """What a receiver quotes of a message: the sender, the number of its SEND entry, the hash before that, the signature, the payload."""
    def content(self):
        """That of the receiver's RECV entry."""
        return u32(self.sender) + u64(self.number) + self.before + sized(self.signature) + self.payload
    def statement(self, receiver):
        """What the sender signed: the hash of its SEND entry to this node."""
        sent = Entry(self.number, SEND, u32(receiver) + self.payload)
        return Statement(self.sender, self.number, entry_hash(self.before, sent), self.signature)

def quote_of(entry):
    """What a RECV entry quotes, however long its parts are; none of another entry, and where its content is cut off."""
    read = Reader(entry.content)
    try:
        return Quote(read.number(4), read.number(8), read.take(32), read.sized(2**32), read.text[read.at :]) if entry.kind == RECV else None
    except Refused:
        return None

# ---- items: "Items of evidence". Each tells the nodes that it names, its own signatures' statements, and its flaw: what these do not show
def read_statement(read, node):
    return Statement(node, read.number(8), read.take(32), read.sized(LONGEST_SIGNATURE))

class SignedStatement:
    """Form 1: a statement, and nothing else."""
    flaw = None
    def __init__(self, read):
        self.node = read.number(4)
        self.statement = read_statement(read, self.node)
        self.nodes, self.statements = [self.node], [self.statement]

class Segment:
    """Form 2: entries of a node's log, each with its hash, and the node's signature of the last one."""
    def __init__(self, read):
        self.node, self.before, count = read.number(4), read.take(32), read.count(MOST_ENTRIES)
        self.entries = [Entry(read.number(8), read.number(1), read.sized(LONGEST_CONTENT)) for _ in range(count)]
        signature = read.sized(LONGEST_SIGNATURE)
        self.numbers, self.hashes, last = [entry.number for entry in self.entries], [], self.before
        for entry in self.entries:
            last = entry_hash(last, entry)
            self.hashes.append(last)
        self.pairs = set(zip(self.numbers, self.hashes))
        self.begins_log = self.before == BASE
        self.rises = all(one < two for one, two in zip(self.numbers, self.numbers[1:]))
        self.nodes, self.statements, self.flaw = [self.node], [], 46
        if self.entries:
            self.statements = [Statement(self.node, self.numbers[-1], last, signature)]
            self.flaw = None if self.begins_log or self.entries[0].kind == CHECKPOINT else 47
    def has(self, statement):
        """Whether an entry has both the number and the hash of the statement."""
        return (statement.number, statement.hash) in self.pairs
    def quotes(self, directory):
        """What each entry quotes, and whether its sender is another node and signed that to this one."""
        quotes = [quote_of(entry) for entry in self.entries]
        return [(it, it is not None and it.sender != self.node and is_signed(directory, it.statement(self.node))) for it in quotes]

class AuditChallenge:
    """Form 3: a node is asked for its log up to the last entry that is named, from the first one, or else from the beginning."""
    def __init__(self, read):
        self.node, flag = read.number(4), read.number(1)
        if flag > 1:
            raise Refused(41)
        self.statements = [read_statement(read, self.node) for _ in range(flag + 1)]
        self.nodes, numbers = [self.node], [it.number for it in self.statements]
        self.flaw = 48 if flag and numbers[0] >= numbers[1] else None
    def is_answered(self, segment):
        return segment.node == self.node and all(map(segment.has, self.statements)) and (segment.begins_log or len(self.statements) == 2)

class SendChallenge:
    """Form 4: the receiver of a message is asked to acknowledge it. A message is known by its name."""
    def __init__(self, read):
        sender, self.node, number, before = read.number(4), read.number(4), read.number(8), read.take(32)
        self.quote = Quote(sender, number, before, read.sized(LONGEST_SIGNATURE), read.sized(LONGEST_PAYLOAD))
        self.name, self.nodes = (sender, self.node, number), [sender, self.node]
        self.statements = [self.quote.statement(self.node)]
        self.flaw = 45 if sender == self.node else None

class Acknowledgement(SendChallenge):
    """Form 5: the receiver of a message signed the RECV entry that it became."""
    def __init__(self, read):
        super().__init__(read)
        number, before, signature = read.number(8), read.take(32), read.sized(LONGEST_SIGNATURE)
        digest = entry_hash(before, Entry(number, RECV, self.quote.content()))
        self.statements.append(Statement(self.node, number, digest, signature))

FORMS = {1: SignedStatement, 2: Segment, 3: AuditChallenge, 4: SendChallenge, 5: Acknowledgement}

def read_item(text):
    """The item that takes all of the text."""
    read = Reader(text)
    tag = read.number(1)
    if tag not in FORMS:
        raise Refused(41)
    item = FORMS[tag](read)
    read.end()
    return item

def check_item(directory, item):
    """Refuses an item that is not valid under the directory."""
    if any(node not in directory for node in item.nodes):
        raise Refused(44)
    if item.flaw:
        raise Refused(item.flaw)
    if not all(is_signed(directory, statement) for statement in item.statements):
        raise Refused(49)

# ---- programs: "The reference programs", "Mailbox". A step gives the state behind it, and what is put out: receivers, each with a payload
def to_next(me, payload):
    return [(me + 1, payload)] if me < 2**32 - 1 else []

class Tally:
    """A total, to which messages add."""
    start = 0
    def encode(self, total):
        return u64(total)
    def decode(self, text):
        return int.from_bytes(text, "big") if len(text) == 8 else None
    def received(self, me, total, sender, payload):
        if len(payload) != 9 or payload[:1] != b"A":
            return total, []
        total = min(total + int.from_bytes(payload[1:], "big"), 2**64 - 1)
        return total, [(sender, b"T" + u64(total))]
    def ticked(self, me, total, moment):
        return total, to_next(me, b"A" + u64(moment))

class Relay(Tally):
    """A count of the messages, each of which is sent on. Its state stands as that of Tally."""
    def received(self, me, count, sender, payload):
        return min(count + 1, 2**64 - 1), to_next(me, payload)
    def ticked(self, me, count, moment):
        return count, to_next(me, u64(moment))

Mail = namedtuple("Mail", "sender to clock text")
Held = namedtuple("Held", "clock draft mails")

class Mailbox:
    """A relay of mails: texts are left for nodes, and fetched."""
    start = Held(0, b"", ())
    longest_text, most_mails, lifetime, relay = 256, 16, 1000, 1
    def encode(self, held):
        mails = [u32(mail.sender) + u32(mail.to) + u64(mail.clock) + sized(mail.text) for mail in held.mails]
        return u64(held.clock) + sized(held.draft) + u32(len(mails)) + b"".join(mails)
    def decode(self, text):
        read, longest = Reader(text), self.longest_text
        try:
            clock, draft, count = read.number(8), read.sized(longest), read.count(self.most_mails)
            mails = [Mail(read.number(4), read.number(4), read.number(8), read.sized(longest)) for _ in range(count)]
            read.end()
        except Refused:
            return None
        return Held(clock, draft, tuple(mails))
    def received(self, me, held, sender, payload):
        if payload[:1] == b"D" and len(payload) >= 5:
            return self.left(held, Mail(sender, int.from_bytes(payload[1:5], "big"), held.clock, payload[5:]))
        if payload == b"F":
            mails = [(mail.to, b"M" + u32(mail.sender) + mail.text) for mail in held.mails if mail.to == sender]
            return held._replace(mails=tuple(mail for mail in held.mails if mail.to != sender)), mails
        if payload[:1] in (b"M", b"S", b"L", b"X", b"?"):
            return held, []
        return held, [(sender, b"?")]
    def left(self, held, mail):
        if len(mail.text) > self.longest_text:
            return held, [(mail.sender, b"L")]
        if len(held.mails) >= self.most_mails:
            return held, [(mail.sender, b"X")]
        return held._replace(mails=(*held.mails, mail)), [(mail.sender, b"S")]
    def ticked(self, me, held, moment):
        if moment < 2**63:
            clock = max(held.clock, moment)
            return held._replace(clock=clock, mails=tuple(it for it in held.mails if clock - it.clock <= self.lifetime)), []
        kind, wish = moment >> 56, u64(moment)
        if kind == 0x80:
            return held, [(self.relay, b"F")]
        if kind == 0x88:
            return held._replace(draft=b""), [(self.relay, b"D" + wish[4:] + held.draft)]
        draft = held.draft + wish[0x88 - kind :]
        return held._replace(draft=draft) if kind < 0x88 and len(draft) <= self.longest_text else held, []

PROGRAMS = {"tally": Tally(), "relay": Relay(), "mailbox": Mailbox()}

# ---- replay: "Reasons of a deviation"
REASONS = "SeqOrder BadInit BadKind BadContent BadReceipt MissingOutput ExtraOutput WrongOutput WrongCheckpoint DuplicateReceipt".split()

class Replay:
    """A node between two entries of its log: its state, the SEND contents that are awaited, and what it received so far."""
    def __init__(self, directory, program, segment):
        self.directory, self.program, self.me, self.begins_log = directory, program, segment.node, segment.begins_log
        self.last, self.state, self.awaited, self.seen = None, None, [], set()
    def reason(self, entry, quote, is_genuine):
        """Why the entry cannot come next: the number of the first line of the table that holds, or none."""
        is_first, kind, content = self.last is None, entry.kind, entry.content
        lines = (
            lambda: not is_first and entry.number <= self.last,
            lambda: is_first and self.begins_log and (kind, content) != (INIT, u32(self.me)),
            lambda: not INIT <= kind <= CHECKPOINT or (kind == INIT if not is_first else not self.begins_log and kind != CHECKPOINT),
            lambda: self.is_misspelled(is_first, kind, content, quote),
            lambda: kind == RECV and not is_genuine,
            lambda: self.awaited and kind != SEND,
            lambda: not self.awaited and kind == SEND,
            lambda: kind == SEND and content != self.awaited[0],
            lambda: kind == CHECKPOINT and not is_first and content != self.program.encode(self.state),
            lambda: kind == RECV and (quote.sender, quote.number) in self.seen,
        )
        return next((number for number, holds in enumerate(lines, 1) if holds()), None)
    def is_misspelled(self, is_first, kind, content, quote):
        if kind == TIMER:
            return len(content) != 8
        if kind == SEND:
            return not 4 <= len(content) <= 4 + LONGEST_PAYLOAD
        if kind == RECV:
            return quote is None or len(quote.signature) > LONGEST_SIGNATURE or len(quote.payload) > LONGEST_PAYLOAD
        return kind == CHECKPOINT and (len(content) > LONGEST_STATE or (is_first and self.program.decode(content) is None))
    def take(self, entry, quote):
        """Goes over an entry that can come next."""
        is_first, self.last = self.last is None, entry.number
        if entry.kind == INIT:
            self.state = self.program.start
        elif entry.kind == CHECKPOINT and is_first:
            self.state = self.program.decode(entry.content)
        elif entry.kind == SEND:
            self.awaited = self.awaited[1:]
        elif entry.kind == RECV:
            self.seen.add((quote.sender, quote.number))
            self.step(self.program.received(self.me, self.state, quote.sender, quote.payload))
        elif entry.kind == TIMER:
            self.step(self.program.ticked(self.me, self.state, int.from_bytes(entry.content, "big")))
    def step(self, done):
        """Takes over the state behind a step, and awaits the outputs to other listed nodes that fit, of these the first 16."""
        self.state, outputs = done
        fit = [u32(to) + it for to, it in outputs if to in self.directory and to != self.me and len(it) <= LONGEST_PAYLOAD]
        self.awaited = fit[:16]

def replayed(directory, program, segment, quotes):
    """Of each entry up to the one at which the segment deviates: entry, quote, the reason (none before that), and the replay behind it."""
    replay = Replay(directory, program, segment)
    for entry, (quote, is_genuine) in zip(segment.entries, quotes):
        reason = replay.reason(entry, quote, is_genuine)
        if reason is None:
            replay.take(entry, quote)
        yield entry, quote, reason, replay
        if reason is not None:
            return

def deviates(directory, program, segment, quotes):
    return any(reason is not None for _, _, reason, _ in replayed(directory, program, segment, quotes))

# ---- proofs: "Proof"
PROOF_FORMS = {1: (1, 1), 2: (1, 2), 3: (2,)}  # of each form the tags of its items

def contradiction(statement, segment):
    """How a statement contradicts a segment of the same node, if it does. One whose numbers do not rise is contradicted by none."""
    if statement.node != segment.node or not segment.rises:
        return None
    first, last = segment.numbers[0], segment.numbers[-1]
    if first <= statement.number <= last and not segment.has(statement):
        return "it lies within the segment, and no entry has both its number and its hash"
    if statement.number + 1 == first and statement.hash != segment.before:
        return "it is just before the segment, and the segment stands after another hash"
    if segment.begins_log and statement.number < first:
        return "it is before the number with which the segment begins the log"
    return None

def read_proof(text):
    """The items of the proof that takes all of the text. Of an item another tag is told before all else."""
    read = Reader(text)
    form = read.number(1)
    if form not in PROOF_FORMS:
        raise Refused(41)
    parts = []
    for place, tag in enumerate(PROOF_FORMS[form], 1):
        with at(f"part {place}"):
            part = read.sized(LONGEST_ITEM)
            if part and part[0] != tag:
                raise Refused(41)
            parts.append(read_item(part))
    read.end()
    return parts

def convicted(directory, program, parts):
    """The node that a proof of these items convicts; refused where one of them is not valid, or where they show no fault."""
    for place, part in enumerate(parts, 1):
        with at(f"part {place}"):
            check_item(directory, part)
    one, other = parts[0], parts[-1]
    if len(parts) == 1:
        if not deviates(directory, program, one, one.quotes(directory)):
            raise Refused(51)
    elif isinstance(other, Segment):
        if contradiction(one.statement, other) is None:
            raise Refused(50)
    elif one.statement[:2] != other.statement[:2] or one.statement.hash == other.statement.hash:
        raise Refused(50)
    return one.node

# ---- stores: "Container", "Store", "Items of evidence", "What items say of a node"
def read_store(directory, text):
    """The texts of the items of a store, each with its item, which is valid under the directory."""
    read, items, last = Reader(text), {}, b""
    if read.take(8) not in (b"PRSTORE2", b"PRSTORE1"):
        raise Refused(60)
    for place in range(read.number(8)):
        with at(f"item {place}"):
            body = read.sized(LONGEST_ITEM)
            item = read_item(body)
            if body <= last:
                raise Refused(61)
            check_item(directory, item)
        items[body] = item
        last = body
    read.end()
    return items

class Evidence:
    """Valid items, by what is asked of them."""
    def __init__(self, directory, program, items):
        self.directory, self.program = directory, program
        self.segments = [(item, item.quotes(directory)) for item in items if isinstance(item, Segment)]
        self.audits = [item for item in items if isinstance(item, AuditChallenge)]
        self.sends = [item for item in items if type(item) is SendChallenge]
        self.received = {item.name for item in items if isinstance(item, Acknowledgement)}
        self.held = {statement for item in items for statement in item.statements}
        for segment, quotes in self.segments:
            genuine = [quote for quote, is_genuine in quotes if is_genuine]
            self.held.update(quote.statement(segment.node) for quote in genuine)
            self.received.update((quote.sender, segment.node, quote.number) for quote in genuine)
    def exposed(self):
        """The nodes of which two statements, a statement and a segment, or a segment can be made a proof."""
        hashes = {}
        for it in self.held:
            hashes.setdefault((it.node, it.number), set()).add(it.hash)
        of_two = {node for (node, _), found in hashes.items() if len(found) > 1}
        contradicted = {segment.node for segment, _ in self.segments for it in self.held if contradiction(it, segment)}
        return of_two | contradicted | {it.node for it, quotes in self.segments if deviates(self.directory, self.program, it, quotes)}
    def unanswered(self):
        """For each challenge that has no answer the node that is to answer it."""
        audits = [it.node for it in self.audits if not any(it.is_answered(segment) for segment, _ in self.segments)]
        return audits + [it.node for it in self.sends if it.name not in self.received]
    def indications(self):
        """The word for each node, ascending by number."""
        exposed, suspected = self.exposed(), set(self.unanswered())
        word = {**dict.fromkeys(self.directory, "trusted"), **dict.fromkeys(suspected, "suspected"), **dict.fromkeys(exposed, "exposed")}
        return sorted(word.items())

# ---- sentences of what was verified of a proof that convicts a node
KINDS = {INIT: "INIT", SEND: "SEND", RECV: "RECV", TIMER: "TIMER", CHECKPOINT: "CHECKPOINT"}

def by(signature):
    key, lms = split_signature(signature)
    return f"by leaf {int.from_bytes(lms[:4], 'big')} of its key {key}"

def of_send(content):
    to, payload = int.from_bytes(content[:4], "big"), content[4:].hex()
    return f"to node {to} of the bytes {payload}" if len(content) >= 4 else f"of the bytes {content.hex()}"

def sentences(directory, program, parts):
    """A line for each thing that was verified, and last what follows."""
    for place, part in enumerate(parts, 1):
        for it in part.statements:
            yield f"part {place}: node {it.node} signed the hash {it.hash.hex()} for entry {it.number} of its log, {by(it.signature)}"
        if isinstance(part, Segment):
            yield f"  its entries stand after the hash {part.before.hex()}" + (", that before a log" if part.begins_log else "")
            for entry, digest in zip(part.entries, part.hashes):
                yield f"  entry {entry.number}, {KINDS.get(entry.kind, 'of no kind')}, has the hash {digest.hex()}"
    one, other = parts[0], parts[-1]
    if len(parts) == 1:
        yield from of_replay(directory, program, one)
    elif isinstance(other, Segment):
        yield f"what part 1 says of entry {one.statement.number} contradicts the segment: {contradiction(one.statement, other)}"
    else:
        yield f"no log has two hashes for entry {one.statement.number}"

def of_replay(directory, program, segment):
    for entry, quote, reason, replay in replayed(directory, program, segment, segment.quotes(directory)):
        if reason is None:
            yield f"replay: entry {entry.number} follows the program, whose state is then {program.encode(replay.state).hex()}"
            if quote:
                yield f"  it quotes entry {quote.number} of node {quote.sender}, which signed that {by(quote.signature)}"
            for content in replay.awaited:
                yield f"  awaited is a SEND {of_send(content)}"
        else:
            yield f"replay: entry {entry.number} deviates, reason {reason} {REASONS[reason - 1]}"
            if entry.kind in (SEND, CHECKPOINT):
                yield "  logged is " + (f"a SEND {of_send(entry.content)}" if entry.kind == SEND else f"the state {entry.content.hex()}")

# ---- bundles: "Bundle"
DIGITS = "([0-9a-f]*)"
FIRST, FIELDS = "bulwynef bundle 2", ["program ([a-z0-9_]{1,32})", DIGITS, DIGITS]

def read_bundle(text):
    """The name of the program, the directory and the proof. Sentences are not read."""
    if text.startswith(b"bulwynef bundle 1\n"):
        raise Refused(131)
    *lines, open_line = text.decode("latin-1").split("\n")
    lines += [open_line + "\n"] if open_line else []
    front = next((place for place, line in enumerate(lines) if place and not re.fullmatch("#[ -~]*", line)), len(lines))
    found = []
    for place, wanted in [(0, FIRST), *enumerate(FIELDS, front)]:
        match = re.fullmatch(wanted, lines[place]) if place < len(lines) else None
        if match is None or (wanted == DIGITS and len(lines[place]) % 2):
            raise Refused(106, f"line {place + 1}")
        found += match.groups()
    if len(lines) > front + len(FIELDS):
        raise Refused(106, f"line {front + len(FIELDS) + 1}")
    program, *digits = found
    return program, *map(bytes.fromhex, digits)

# ---- answers, files and words: "What a file says"
@functools.lru_cache(maxsize=None)
def read_file(name):
    try:
        with open(0 if name == "-" else name, "rb", closefd=name != "-") as file:
            data = file.read(2**31 + 1)
    except (OSError, ValueError):
        raise Refused(100, name) from None
    if len(data) > 2**31:
        raise Refused(101, name)
    return data

def texts_of(file, most=1):
    """The texts that a file says, each with its place: its bytes, or what its one or two lines of digits spell. So many may stand here."""
    name, data = file[0], file[1]()
    if len(data) < 8 or data[:8].strip(b"0123456789abcdefABCDEF"):
        return [(name, data)]
    lines = (data[:-1] if data.endswith(b"\n") else data).split(b"\n")
    if len(lines) > 2 or not lines[-1]:
        raise Refused(104, name)
    for number, line in enumerate(lines, 1):
        if len(line) % 2 or not re.fullmatch(b"[0-9a-fA-F]*", line):
            raise Refused(103, f"{name}, line {number}")
    if len(lines) > most:
        raise Refused(104, name)
    return [(f"{name}, line {number}", binascii.unhexlify(line)) for number, line in enumerate(lines, 1)]

def pair_of(files):
    """The directory and the proof of two files, or of one of two texts."""
    texts = [it for file in files for it in texts_of(file)] if len(files) > 1 else texts_of(files[0], 2)
    if len(texts) < 2:
        raise Refused(104, files[0][0])
    return texts

def of_proof(name, directory, proof):
    """The node that a proof convicts, under which program and directory, and the sentences. Directory and proof come with their places."""
    with at(directory[0]):
        listed = read_directory(directory[1])
    with at(proof[0]):
        parts = read_proof(proof[1])
        node = convicted(listed, PROGRAMS[name], parts)
    return node, [f"program {name}", f"directory {sha256(directory[1]).hex()}"], sentences(listed, PROGRAMS[name], parts)

def of_bundle(name, place, directory, why, program, own, proof):
    """Whom the proof of a bundle convicts under this program and directory, or else its own; and in what the bundle has another one."""
    name, directory = name or program, directory or (f"{place}, directory", own)
    if name not in PROGRAMS:
        raise Refused(109, place)
    node, under, verified = of_proof(name, directory, (f"{place}, proof", proof))
    others = [f"disagrees: the bundle names the program {program}"] * (name != program)
    others += [f"disagrees: the bundle has the directory {sha256(own).hex()}"] * (directory[1] != own)
    return 5 if others else 0, [f"exposes {node}", *under, *others, *(verified if why else [])], []

def stores_of(stores, files, directory):
    """The stores, and then that of each file, where one of two texts must name the directory first."""
    yield from stores
    for file in files:
        *named, store = texts_of(file, 2)
        if named and named[0][1] != directory:
            raise Refused(104, file[0])
        yield store

def of_stores(name, first, *files):
    """What the items of all stores say of each node of the directory, behind which the first file may have a store."""
    (place, directory), *stores = texts_of(first, 2)
    if not stores and not files:
        raise Refused(104, place)
    with at(place):
        listed = read_directory(directory)
    items = {}
    for place, body in stores_of(stores, files, directory):
        with at(place):
            items.update(read_store(listed, body))
    told = Evidence(listed, PROGRAMS[name], items.values()).indications()
    under = [f"program {name}", f"directory {sha256(directory).hex()}"]
    return 3 if "exposed" in dict(told).values() else 0, [f"{node} {word}" for node, word in told], under

def answer(words, files):
    """The status, the lines of the answer, and those that stand beside it, on standard error. Of each file there is what reads it."""
    *others, (place, last) = files
    if not words.store and last().startswith(b"bulwynef"):
        with at(place):
            bundle = read_bundle(last())
        return of_bundle(words.program, place, texts_of(*others)[0] if others else None, words.why, *bundle)
    if words.program is None:
        words.error(f"no verdict without a program: --program NAME says which one the nodes were to follow: {', '.join(PROGRAMS)}")
    if words.store:
        return of_stores(words.program, *files)
    node, under, verified = of_proof(words.program, *pair_of(files))
    return 0, [f"exposes {node}", *under, *(verified if words.why else [])], []

def read_words():
    parser = argparse.ArgumentParser(description=__doc__, formatter_class=argparse.RawDescriptionHelpFormatter, allow_abbrev=False)
    parser.add_argument("--program", choices=PROGRAMS, help="the program that the nodes were to follow")
    parser.add_argument("--why", action="store_true", help="tell what was verified of the proof")
    parser.add_argument("--store", action="store_true", help="tell what stores say of each node")
    parser.add_argument("files", nargs="+", metavar="FILE")
    words = parser.parse_args()
    if words.why if words.store else len(words.files) > 2:
        parser.error("a proof has two files at most, and --why is of proofs")
    words.error = parser.error
    return words

def write(make):
    """Writes the lines that are made, and those beside them on standard error, or tells a refusal there. Gives the status."""
    try:
        status, lines, beside = make()
        with open(1, "wb", closefd=False) as sink:
            sink.write("".join(f"{line}\n" for line in lines).encode())
    except (Refused, OSError, MemoryError) as fault:
        status, beside = 1, [fault if isinstance(fault, Refused) else Refused(102 if isinstance(fault, OSError) else 99)]
    print(*beside, sep="\n", end="\n" if beside else "", file=sys.stderr)
    return status

def main():
    words = read_words()
    return write(lambda: answer(words, [(name, functools.partial(read_file, name)) for name in words.files]))

if __name__ == "__main__":
    sys.exit(main())
