"""What node_sim has to answer to an input, by docs/FORMATS.md and RFC 8554 alone: that it takes it, or which refusal it tells.

It shares no code with the crates. It plays no scenario: what is said of its nodes, and whether it runs to its end, is left open. So is
which proof is written where there are several.
"""

import collections
import hashlib
import re

from texts import CHECKPOINT, INIT, RECV, SEND, TIMER, entry_hash, sha256, u16, u32, u64

LONGEST_SIGNATURE, LONGEST_PAYLOAD, LONGEST_CONTENT, LONGEST_ITEM = 9_325, 65_536, 131_072, 536_933_530
MOST_CHECKED = 1 << 16
MOST_ENTRIES, MOST_NODES, MOST_KEYS, MOST_LINES = 4_096, 1_024, 8, 1_000
HEIGHTS = {5: 5, 6: 10, 7: 15, 8: 20, 9: 25}
# of a typecode of LM-OTS: the width of a digit in bits, the number of chains, the shift of the checksum
OTS = {1: (1, 265, 7), 2: (2, 133, 6), 3: (4, 67, 4), 4: (8, 34, 0)}
TAKEN = "0"
TRUSTED, SUSPECTED, EXPOSED = b"trusted", b"suspected", b"exposed"


class Refused(Exception):
    pass


class Bytes:
    """Reads fields from the left. What is cut off, and what is left over, has these names."""

    def __init__(self, data, truncated="40 Truncated", trailing="43 Trailing"):
        self.data, self.at, self.truncated, self.trailing = data, 0, truncated, trailing

    def take(self, count):
        if len(self.data) - self.at < count:
            raise Refused(self.truncated)
        self.at += count
        return self.data[self.at - count : self.at]

    def number(self, width):
        return int.from_bytes(self.take(width), "big")

    def limited(self, most):
        count = self.number(4)
        if count > most:
            raise Refused("42 TooLong")
        return count

    def sized(self, most):
        return self.take(self.limited(most))

    def end(self):
        if self.at < len(self.data):
            raise Refused(self.trailing)


def directory(data):
    """The keys of each node."""
    reader, nodes, all_keys = Bytes(data, "24 Truncated", "25 Trailing"), {}, set()
    magic = reader.take(8)
    if magic not in (b"PRDIREC2", b"PRDIRECT"):
        raise Refused("23 BadMagic")
    count = reader.number(4)
    if count > MOST_NODES:
        raise Refused("22 TooManyNodes")
    for _ in range(count):
        if magic == b"PRDIRECT":
            part = Bytes(reader.take(60))
            node, keys = part.number(4), [part.take(56)]
        else:
            part = Bytes(reader.take(5))
            node, most = part.number(4), part.number(1)
            if not 1 <= most <= MOST_KEYS:
                raise Refused("26 KeyCount")
            part = Bytes(reader.take(56 * most))
            keys = [part.take(56) for _ in range(most)]
        for key in keys:
            if int.from_bytes(key[:4], "big") not in HEIGHTS:
                raise Refused("2 UnknownLmsType")
            if int.from_bytes(key[4:8], "big") not in OTS:
                raise Refused("3 UnknownOtsType")
        if node in nodes:
            raise Refused("20 DuplicateNode")
        for key in keys:
            if key in all_keys:
                raise Refused("21 DuplicateKey")
            all_keys.add(key)
        nodes[node] = keys
    reader.end()
    return nodes


CHECKED = {}


def is_lms(key, message, signature):
    """Whether it is a signature of the message under the key. What was found of one is kept, by its digest."""
    place = sha256(key, message, signature)
    if place not in CHECKED:
        if len(CHECKED) == MOST_CHECKED:
            CHECKED.clear()
        CHECKED[place] = verifies(key, message, signature)
    return CHECKED[place]


def verifies(key, message, signature):
    """Whether it is a signature of the message under the key: RFC 8554, algorithms 4b and 6a."""
    lms, ots, identifier, root = key[:4], key[4:8], key[8:24], key[24:]
    height, (width, chains, shift) = HEIGHTS[int.from_bytes(lms, "big")], OTS[int.from_bytes(ots, "big")]
    if len(signature) != 12 + 32 * (chains + 1) + 32 * height:
        return False
    leaf, values, end = signature[:4], signature[40 : 40 + 32 * chains], 40 + 32 * chains
    number = int.from_bytes(leaf, "big")
    if signature[4:8] != ots or signature[end : end + 4] != lms or number >= 1 << height:
        return False
    most, new, head = (1 << width) - 1, hashlib.sha256, identifier + leaf
    digest = sha256(head, u16(0x8181), signature[8:40], message)
    parts = range(8 // width)
    digits = [(byte >> (8 - width * (k + 1))) & most for byte in digest for k in parts]
    checksum = sum(most - digit for digit in digits) << shift
    digits += [(byte >> (8 - width * (k + 1))) & most for byte in u16(checksum) for k in parts]
    ends = []
    for i, digit in enumerate(digits[:chains]):
        value, before = values[32 * i : 32 * i + 32], head + u16(i)
        for j in range(digit, most):
            value = new(before + bytes((j,)) + value).digest()
        ends.append(value)
    place = (1 << height) + number
    value = sha256(identifier, u32(place), u16(0x8282), sha256(head, u16(0x8080), *ends))
    for at in range(end + 4, len(signature), 32):
        pair = (signature[at : at + 32], value) if place % 2 else (value, signature[at : at + 32])
        place //= 2
        value = sha256(identifier, u32(place), u16(0x8383), *pair)
    return value == root


def is_signed(nodes, node, seq, digest, text):
    keys, number = nodes[node], 0
    if len(text) % 32 == 13:
        number, text = text[0], text[1:]
        if not 1 <= number < MOST_KEYS:
            return False
    return number < len(keys) and is_lms(keys[number], u64(seq) + digest, text)


class Item:
    """The fields of an item, and what its checking asks: nodes that it names, and what they signed."""

    def __init__(self, data):
        reader = Bytes(data)
        self.tag, self.messages, self.signed, self.entries = reader.number(1), [], [], []
        if not 1 <= self.tag <= 5:
            raise Refused("41 BadTag")
        self.ranges = False
        if self.tag in (4, 5):
            self.message(reader)
            if self.tag == 5:
                seq, before = reader.number(8), reader.take(32)
                digest = entry_hash(before, seq, RECV, self.quote)
                self.signed.append((self.nodes[1], seq, digest, reader.sized(LONGEST_SIGNATURE)))
        else:
            self.nodes = [reader.number(4)]
            if self.tag == 1:
                self.statement(reader)
            elif self.tag == 2:
                self.segment(reader)
            else:
                flag = reader.number(1)
                if flag > 1:
                    raise Refused("41 BadTag")
                for _ in range(1 + flag):
                    self.statement(reader)
                self.ranges = flag and self.signed[0][1] >= self.signed[1][1]
        reader.end()

    def statement(self, reader):
        self.signed.append((self.nodes[0], reader.number(8), reader.take(32), reader.sized(LONGEST_SIGNATURE)))

    def segment(self, reader):
        self.before = digest = reader.take(32)
        for _ in range(reader.limited(MOST_ENTRIES)):
            entry = reader.number(8), reader.number(1), reader.sized(LONGEST_CONTENT)
            digest = entry_hash(digest, *entry)
            self.entries.append((entry[0], digest, *entry[1:]))
        signature = reader.sized(LONGEST_SIGNATURE)
        if self.entries:
            self.signed.append((self.nodes[0], *self.entries[-1][:2], signature))
        self.pairs = {entry[:2] for entry in self.entries}

    def message(self, reader):
        self.nodes = [reader.number(4), reader.number(4)]
        seq, before = reader.number(8), reader.take(32)
        signature, payload = reader.sized(LONGEST_SIGNATURE), reader.sized(LONGEST_PAYLOAD)
        self.quote = u32(self.nodes[0]) + u64(seq) + before + u32(len(signature)) + signature + payload
        digest = entry_hash(before, seq, SEND, u32(self.nodes[1]) + payload)
        self.signed.append((self.nodes[0], seq, digest, signature))

    def check(self, nodes):
        if any(node not in nodes for node in self.nodes):
            raise Refused("44 UnknownNode")
        if len(self.nodes) == 2 and self.nodes[0] == self.nodes[1]:
            raise Refused("45 SelfMessage")
        if self.tag == 2 and not self.entries:
            raise Refused("46 EmptySegment")
        if self.tag == 2 and self.before != sha256() and self.entries[0][2] != CHECKPOINT:
            raise Refused("47 BadStart")
        if self.ranges:
            raise Refused("48 BadRange")
        if not all(is_signed(nodes, *it) for it in self.signed):
            raise Refused("49 BadSignature")


def store(nodes, data):
    """The texts of its items."""
    reader, last, texts = Bytes(data), None, []
    if reader.take(8) not in (b"PRSTORE2", b"PRSTORE1"):
        raise Refused("60 BadMagic")
    for _ in range(reader.number(8)):
        text = reader.sized(LONGEST_ITEM)
        item = Item(text)
        if last is not None and text <= last:
            raise Refused("61 NotAscending")
        item.check(nodes)
        last = text
        texts.append(text)
    reader.end()
    return texts


def outputs(me, state, kind, relay, sender, payload):
    """The state of Tally or Relay after a step, and what it puts out."""
    if kind == TIMER:
        return state, [(me + 1, payload if relay else b"A" + payload)]
    if relay:
        return min(state + 1, 2**64 - 1), [(me + 1, payload)]
    if len(payload) != 9 or payload[:1] != b"A":
        return state, []
    state = min(state + int.from_bytes(payload[1:], "big"), 2**64 - 1)
    return state, [(sender, b"T" + u64(state))]


def deviation(nodes, segment, relay):
    """Where the segment first deviates, counted from 0, and the number of the reason; none where it conforms."""
    me, begins, state, awaited, received, last = segment.nodes[0], segment.before == sha256(), 0, [], set(), None
    for place, (seq, _, kind, content) in enumerate(segment.entries):
        first, quote = place == 0, quote_of(kind, content)
        wrong = {
            TIMER: len(content) != 8,
            SEND: not 4 <= len(content) <= 4 + LONGEST_PAYLOAD,
            RECV: quote is None or len(quote[3]) > LONGEST_SIGNATURE or len(quote[4]) > LONGEST_PAYLOAD,
            CHECKPOINT: len(content) > LONGEST_PAYLOAD or (first and len(content) != 8),
        }
        if not first and seq <= last:
            return place, 1
        if first and begins and (kind, content) != (INIT, u32(me)):
            return place, 2
        if not INIT <= kind <= CHECKPOINT or (kind == INIT and not first) or (first and not begins and kind != CHECKPOINT):
            return place, 3
        if wrong.get(kind):
            return place, 4
        if quote and not hash_of(nodes, me, quote):
            return place, 5
        if awaited and kind != SEND:
            return place, 6
        if kind == SEND and not awaited:
            return place, 7
        if kind == SEND and content != u32(awaited[0][0]) + awaited[0][1]:
            return place, 8
        if kind == CHECKPOINT and not first and content != u64(state):
            return place, 9
        if quote and quote[:2] in received:
            return place, 10
        last = seq
        if kind == SEND:
            awaited = awaited[1:]
        elif kind == CHECKPOINT and first:
            state = int.from_bytes(content, "big")
        elif kind in (RECV, TIMER):
            sender, payload = (quote[0], quote[4]) if quote else (None, content)
            state, sent = outputs(me, state, kind, relay, sender, payload)
            awaited = [it for it in sent if it[0] != me and it[0] in nodes]
            if quote:
                received.add(quote[:2])
    return None


def quote_of(kind, content):
    """What a RECV entry quotes, if anything: sender, number, the hash before it, signature and payload."""
    if kind != RECV:
        return None
    try:
        reader = Bytes(content)
        return reader.number(4), reader.number(8), reader.take(32), reader.sized(2**32 - 1), content[reader.at :]
    except Refused:
        return None


def hash_of(nodes, me, quote):
    """The hash that the sender signed, where a quote by node `me` is genuine; else none."""
    sender, seq, before, signature, payload = quote
    digest = entry_hash(before, seq, SEND, u32(me) + payload)
    return digest if sender != me and sender in nodes and is_signed(nodes, sender, seq, digest, signature) else None


def contradicts(seq, digest, segment):
    """Whether a statement of the segment's node contradicts it."""
    numbers = [entry[0] for entry in segment.entries]
    if any(one >= two for one, two in zip(numbers, numbers[1:])):
        return False
    if numbers[0] <= seq <= numbers[-1]:
        return (seq, digest) not in segment.pairs
    return (seq + 1 == numbers[0] and digest != segment.before) or (segment.before == sha256() and seq < numbers[0])


def answered(challenge, segments, acks, quotes):
    """Whether an audit challenge or a send challenge is answered."""
    if challenge.tag == 4:
        sent = (*challenge.nodes, challenge.signed[0][1])
        return sent in acks or sent in quotes
    named = {it[1:3] for it in challenge.signed}
    begins = len(challenge.signed) == 1
    return any(it.nodes == challenge.nodes and named <= it.pairs and (not begins or it.before == sha256()) for it in segments)


def said_of(nodes, items, relay):
    """What the items say of each node."""
    items = [Item(text) for text in items]
    segments = [it for it in items if it.tag == 2]
    acks = {(*it.nodes, it.signed[0][1]) for it in items if it.tag == 5}
    held, quotes = {it[:3] for item in items for it in item.signed}, set()
    for segment in segments:
        me = segment.nodes[0]
        for _, _, kind, content in segment.entries:
            if (quote := quote_of(kind, content)) and (digest := hash_of(nodes, me, quote)):
                held.add((*quote[:2], digest))
                quotes.add((quote[0], me, quote[1]))
    numbers = collections.Counter(it[:2] for it in held)
    exposed = {node for (node, _), count in numbers.items() if count > 1}
    for segment in segments:
        me = segment.nodes[0]
        if deviation(nodes, segment, relay) or any(node == me and contradicts(seq, digest, segment) for node, seq, digest in held):
            exposed.add(me)
    suspected = {it.nodes[-1] for it in items if it.tag in (3, 4) and not answered(it, segments, acks, quotes)}
    return {node: EXPOSED if node in exposed else SUSPECTED if node in suspected else TRUSTED for node in nodes}


def proof(nodes, data, relay):
    """What check answers, and whom it names."""
    reader, items = Bytes(data), []
    tags = {1: (1, 1), 2: (1, 2), 3: (2,)}.get(reader.number(1))
    if tags is None:
        raise Refused("41 BadTag")
    for tag in tags:
        text = reader.sized(LONGEST_ITEM)
        if text and text[0] != tag:
            raise Refused("41 BadTag")
        items.append(Item(text))
    reader.end()
    for item in items:
        item.check(nodes)
    exposes = b"exposes %d\n" % items[0].nodes[0]
    if len(tags) == 1:
        if deviation(nodes, items[0], relay) is None:
            raise Refused("51 Conforms")
        return {TAKEN}, exposes.__eq__
    if tags == (1, 1):
        (node, seq, digest, _), (node2, seq2, digest2, _) = (it.signed[0] for it in items)
        shown = (node, seq) == (node2, seq2) and digest != digest2
    else:
        shown = items[0].nodes == items[1].nodes and contradicts(*items[0].signed[0][1:3], items[1])
    if not shown:
        raise Refused("50 NoContradiction")
    return {TAKEN}, exposes.__eq__


def report(said):
    return b"".join(b"%d %s\n" % (node, said[node]) for node in sorted(said))


def says_of(nodes, lines):
    """Whether the lines say one of the three things of each node, ascending."""
    states = (TRUSTED, SUSPECTED, EXPOSED)
    return len(lines) == len(nodes) and all(line in [b"%d %s" % (node, state) for state in states] for node, line in zip(sorted(nodes), lines))


def is_told(witnesses, nodes):
    def fits(output):
        lines, each = output.split(b"\n"), len(nodes) + 1
        parts = [lines[at : at + each] for at in range(0, len(lines), each)]
        heads = [[b"witness %d" % it] for it in range(witnesses)]
        said = [it[:1] for it in parts[:-1]] == heads and all(says_of(nodes, it[1:]) for it in parts[:-1])
        return said and parts[-1] in ([b"equal", b""], [b"different", b""])

    return fits


def is_proof(output):
    return re.fullmatch(rb"0[123]([0-9a-f]{2})+\n", output) is not None


def hex_line(line):
    if len(line) % 2 or line.translate(None, b"0123456789abcdefABCDEF"):
        raise Refused("103 BadHex")
    return bytes.fromhex(line.decode())


def lines_of(data):
    lines = data.split(b"\n")
    return lines if lines[-1] else lines[:-1]


def evidence(words, data):
    lines = lines_of(data)
    if not lines if words[0] == "merge" else len(lines) != 2:
        raise Refused("104 LineCount")
    first, *others = [hex_line(line) for line in lines]
    nodes = directory(first)
    if words[0] == "check":
        return proof(nodes, others[0], words[-1] == "--relay")
    items = sorted({text for it in others for text in store(nodes, it)})
    if words[0] == "merge":
        union = b"PRSTORE2" + u64(len(items)) + b"".join(u32(len(text)) + text for text in items)
        return {TAKEN}, (union.hex().encode() + b"\n").__eq__
    said = said_of(nodes, items, words[-1] == "--relay")
    if words[0] == "status":
        return {TAKEN}, report(said).__eq__
    if int(words[1]) not in nodes:
        raise Refused("44 UnknownNode")
    return {TAKEN}, is_proof if said[int(words[1])] == EXPOSED else b"none\n".__eq__


def decimal(word, least, most):
    if not re.fullmatch(rb"0|[1-9][0-9]{0,19}", word) or not least <= int(word) <= most:
        raise Refused("105 BadScenario")
    return int(word)


def scenario(data):
    """One that is a scenario may come to an end where a key is spent, or is taken twice."""
    lines, listed, acts, witnesses = lines_of(data), set(), False, 0
    if len(lines) > MOST_LINES or any(byte > 127 for byte in data):
        raise Refused("105 BadScenario")
    for line in lines:
        if not line or line.startswith(b"#"):
            continue
        match line.split(b" "):
            case [b"witnesses", count] if not witnesses:
                witnesses = decimal(count, 1, 8)
            case [b"node", node, b"honest" | b"fork" | b"mute" | b"wrong"] if witnesses and not acts and len(listed) < 64:
                node = decimal(node, 0, 2**32 - 1)
                if node in listed:
                    raise Refused("105 BadScenario")
                listed.add(node)
            case [b"timer", node, moment] if decimal(node, 0, 2**32 - 1) in listed:
                decimal(moment, 0, 2**64 - 1)
                acts = True
            case [b"checkpoint" | b"audit" | b"rekey", node] if decimal(node, 0, 2**32 - 1) in listed:
                acts = True
            case _:
                raise Refused("105 BadScenario")
    if not listed:
        raise Refused("105 BadScenario")
    return {TAKEN, "31 WrongKey", "36 KeySpent", "37 LogFull"}, is_told(witnesses, listed)


def answers(words, data):
    """What may come of the input, 0 or the number and the name of a refusal, and whether an output fits where it is 0."""
    try:
        return scenario(data) if words[0] == "run" else evidence(words, data)
    except Refused as refused:
        return {str(refused)}, None
