"""Texts that node_sim reads, as trees of their fields, and changes of them.

A tree spells its text: lengths and counts are those of what stands behind them, and the items of a container ascend, unless a change
lets one tell something else. So what is changed is read on behind the change, up to the checks. The formats are those of
docs/FORMATS.md; nothing here decides whether a text is valid.
"""

import os
import sys
from typing import NamedTuple

TOP = os.path.dirname(os.path.dirname(os.path.dirname(os.path.abspath(__file__))))
sys.path.insert(0, f"{TOP}/checks/reference")
sys.dont_write_bytecode = True

from nodes import Key, Message, Node, entry_hash, sha256, u8, u16, u32, u64
from stores import directory as directory_of, end_of, spelled, spelled_segment, text

INIT, SEND, RECV, TIMER, CHECKPOINT = 1, 2, 3, 4, 5
LONGEST_TEXT = 1 << 20
# Each limit of the formats, one above it, and numbers at the ends of each width.
NUMBERS = {
    1: [0, 1, 2, 3, 4, 5, 6, 7, 8, 9, 127, 128, 255],
    4: [0, 1, 2, 3, 4, 5, 7, 8, 9, 255, 1024, 1025, 4096, 4097, 9325, 9326, 65536, 65537, 131072, 131073, 536_933_530, 536_933_531, 2**31 - 1, 2**31, 2**32 - 2, 2**32 - 1],
    8: [0, 1, 2, 3, 7, 0x1000, 0x1001, 2**32 - 1, 2**32, 2**61, 2**63 - 1, 2**63, 2**64 - 2, 2**64 - 1],
}
MAGICS = [b"PRDIREC2", b"PRDIRECT", b"PRSTORE2", b"PRSTORE1", b"PRPACK01", b"PRSUMM01", b"PRSUMM02", b"PROUTL01"]


class Field(NamedTuple):
    name: str
    data: bytes


class Row(NamedTuple):
    children: tuple


class Sized(NamedTuple):
    """A length in four bytes, and the children. What it tells is another length, if any."""

    children: tuple
    told: int | None = None


class Counted(NamedTuple):
    """A count, and as many children. What it tells is another count, if any."""

    width: int
    children: tuple
    told: int | None = None
    ascending: bool = False


def spell(tree):
    if isinstance(tree, Field):
        return tree.data
    parts = [spell(child) for child in tree.children]
    if isinstance(tree, Row):
        return b"".join(parts)
    if isinstance(tree, Sized):
        body = b"".join(parts)
        return number(4, len(body) if tree.told is None else tree.told) + body
    if tree.ascending:
        parts.sort(key=lambda part: part[4:])
    return number(tree.width, len(parts) if tree.told is None else tree.told) + b"".join(parts)


def number(width, value):
    return (value % 256**width).to_bytes(width, "big")


def places(tree):
    """Each node of the tree, with the way to it."""
    found = [((), tree)]
    for path, node in found:
        if not isinstance(node, Field):
            found += [((*path, at), child) for at, child in enumerate(node.children)]
    return found


def put(tree, path, new):
    if not path:
        return new
    children = list(tree.children)
    children[path[0]] = put(children[path[0]], path[1:], new)
    return tree._replace(children=tuple(children))


class NotRead(Exception):
    pass


class Reader:
    """Reads a valid text into its tree."""

    def __init__(self, data):
        self.data, self.at = data, 0

    def take(self, count):
        part = self.data[self.at : self.at + count]
        if len(part) < count:
            raise NotRead
        self.at += count
        return part

    def number(self, width):
        return int.from_bytes(self.take(width), "big")

    def field(self, name, count):
        return Field(name, self.take(count))

    def end(self, tree):
        if self.at < len(self.data):
            raise NotRead
        return tree

    def sized(self, name, parse=None):
        data = self.take(self.number(4))
        if parse is None:
            return Sized((Field(name, data),))
        try:
            return Sized((parse(data),))
        except NotRead:
            return Sized((Field(name, data),))

    def statement(self):
        return (self.field("seq", 8), self.field("hash", 32), self.signature())

    def signature(self):
        return self.sized("signature", signature)

    def message(self):
        head = (self.field("node", 4), self.field("node", 4), self.field("seq", 8), self.field("hash", 32))
        return (*head, self.signature(), self.sized("payload"))

    def entry(self):
        seq, kind = self.field("seq", 8), self.field("kind", 1)
        return Row((seq, kind, self.sized("content", received if kind.data[0] == RECV else None)))

    def key(self):
        return Row((self.field("type", 4), self.field("type", 4), self.field("identifier", 16), self.field("hash", 32)))


def signature(data):
    reader = Reader(data)
    head = (reader.field("key", 1),) if len(data) % 32 == 13 else ()
    leaf, kind, random = reader.field("leaf", 4), reader.field("type", 4), reader.field("hash", 32)
    chains = {1: 265, 2: 133, 3: 67, 4: 34}.get(int.from_bytes(kind.data, "big"))
    if chains is None:
        raise NotRead
    chains, tree = reader.field("chains", 32 * chains), reader.field("type", 4)
    return Row((*head, leaf, kind, random, chains, tree, reader.field("path", len(data) - reader.at)))


def received(data):
    """The content of a RECV entry."""
    reader = Reader(data)
    head = (reader.field("node", 4), reader.field("seq", 8), reader.field("hash", 32), reader.signature())
    return Row((*head, reader.field("payload", len(data) - reader.at)))


def item(data):
    reader = Reader(data)
    tag = reader.field("tag", 1)
    match tag.data[0]:
        case 1:
            fields = (reader.field("node", 4), *reader.statement())
        case 2:
            head = (reader.field("node", 4), reader.field("hash", 32))
            entries = tuple(reader.entry() for _ in range(reader.number(4)))
            fields = (*head, Counted(4, entries), reader.signature())
        case 3:
            head = (reader.field("node", 4), reader.field("flag", 1))
            first = (Row(reader.statement()),) if head[1].data[0] else ()
            fields = (*head, *first, Row(reader.statement()))
        case 4:
            fields = reader.message()
        case 5:
            fields = (*reader.message(), *reader.statement())
        case _:
            raise NotRead
    return reader.end(Row((tag, *fields)))


def directory(data):
    reader = Reader(data)
    magic = reader.field("magic", 8)
    if magic.data == b"PRDIRECT":
        nodes = [Row((reader.field("node", 4), reader.key())) for _ in range(reader.number(4))]
    else:
        nodes = [
            Row((reader.field("node", 4), Counted(1, tuple(reader.key() for _ in range(reader.number(1))))))
            for _ in range(reader.number(4))
        ]
    return reader.end(Row((magic, Counted(4, tuple(nodes)))))


def older(tree):
    """The older text of a directory in which each node has one key; else the directory."""
    nodes = tree.children[1].children
    if any(isinstance(node.children[1], Row) or len(node.children[1].children) != 1 for node in nodes):
        return tree
    nodes = tuple(Row((node.children[0], node.children[1].children[0])) for node in nodes)
    return Row((Field("magic", b"PRDIRECT"), Counted(4, nodes)))


def store(items, magic=b"PRSTORE2", ascending=True):
    """The store of the items, which are trees."""
    return Row((Field("magic", magic), Counted(8, tuple(Sized((it,)) for it in items), ascending=ascending)))


def store_of(data):
    reader = Reader(data)
    magic = reader.take(8)
    return reader.end(store([item(reader.take(reader.number(4))) for _ in range(reader.number(8))], magic))


def proof(form, *items):
    return Row((Field("tag", u8(form)), *(Sized((it,)) for it in items)))


class Evidence(NamedTuple):
    """A directory, and items that are valid under it. Nodes follow Relay, or else Tally. Of some it is known what comes of the proof that a
    segment is, of some what status says."""

    directory: Row
    items: tuple
    relay: bool
    replayed: tuple = ()
    report: bytes | None = None

    def nodes(self):
        return [int.from_bytes(node.children[0].data, "big") for node in self.directory.children[1].children]


def proofs_of(items):
    """The proofs of all three forms that can be put together of the items. Whether a segment deviates, or contradicts a statement, is not
    asked."""
    said, segments = [it for it in items if spell(it)[0] == 1], [it for it in items if spell(it)[0] == 2]
    yield from (proof(3, it) for it in segments)
    for at, one in enumerate(said):
        for two in said[at + 1 :]:
            if one.children[1:3] == two.children[1:3] and one.children[3] != two.children[3]:
                yield proof(1, one, two)
        for two in segments:
            if one.children[1] == two.children[1]:
                yield proof(2, one, two)


def vectors():
    """What the program evidence_vectors reads: directories, each with items, of which those that were found valid are gathered; and beside
    them the refused ones, each with its directory and its refusal."""
    listed, taken, gathered, refused = None, [], [], []
    with open(f"{TOP}/crates/evidence_vectors/stdin", encoding="utf-8") as file:
        lines = [line.split() for line in file if not line.startswith("#")]
    for words in [*lines, ["directory", ""]]:
        if words[0] == "directory":
            for relay in (False, True):
                items = dict.fromkeys(it for it, by, _ in taken if by == relay)
                said = {"deviates": "0", "conforms": "51 Conforms"}
                replayed = dict.fromkeys((it, said[verdict]) for it, by, verdict in taken if by == relay and verdict in said)
                if items:
                    gathered.append(Evidence(listed, tuple(items), relay, tuple(replayed)))
            taken = []
            listed = directory(bytes.fromhex(words[1])) if words[1] else None
        elif words[0] in ("tally", "relay"):
            data = b"" if words[1] == "-" else bytes.fromhex(words[1])
            if words[2] == "refused":
                refused.append((listed, data, " ".join(words[3:5])))
            else:
                taken.append((item(data), words[0] == "relay", words[2]))
        elif words[0] == "store":
            texts = {bytes.fromhex(it) for word in words[1:3] if word != "-" for it in word.split(",")}
            items = tuple(item(it) for it in sorted(texts))
            report = "".join(f"{words[at]} {words[at + 1]}\n" for at in range(4, len(words) - 1, 4))
            if items:
                gathered.append(Evidence(listed, items, False, (), report.encode()))
    return gathered, refused


def examples():
    gathered = []
    for name in sorted(os.listdir(f"{TOP}/examples")):
        if name.endswith(".txt") and name != "scenario.txt":
            with open(f"{TOP}/examples/{name}", encoding="utf-8") as file:
                first, *stores = [bytes.fromhex(line) for line in file.read().split("\n") if line]
            texts = {spell(part.children[0]) for it in stores for part in store_of(it).children[1].children}
            items = tuple(item(it) for it in sorted(texts))
            gathered.append(Evidence(directory(first), items, False))
    return gathered


class Logged(Node):
    """A node under Tally in a directory of the nodes 1 and 2, with the entries of its log."""

    listed = (1, 2)

    def __init__(self, number):
        self.contents, self.statements = [], []
        super().__init__(number, 1)

    def log(self, kind, content):
        self.contents.append((self.next_seq, kind, content))
        return super().log(kind, content)

    def sign(self, entropy, k):
        self.statements.append((self.next_seq - 1, self.end))
        return super().sign(entropy, k)


class Quick(Key):
    """A key that keeps what its chains have."""

    def __init__(self, *words):
        self.kept = {}
        super().__init__(*words)

    def start(self, leaf, i):
        return self.kept[leaf, i][0] if (leaf, i) in self.kept else super().start(leaf, i)

    def chain(self, leaf, i, value, steps):
        values = self.kept.setdefault((leaf, i), [value])
        while len(values) <= steps:
            values.append(sha256(self.identifier, u32(leaf), u16(i), u8(len(values) - 1), values[-1]))
        return values[steps]


class Signing:
    """Two nodes with keys that are known (H5, W4; two each), whose items are signed anew whatever they say: what a node can sign that
    does not follow its program."""

    def __init__(self):
        self.number, self.keys = 0, {(node, k): Quick(node, 3, k) for node in (1, 2) for k in (0, 1)}
        self.directory = directory(directory_of(self))
        asking, answering = self.nodes = Logged(1), Logged(2)
        self.messages = []
        for turn in range(1, 7):
            (ask,) = asking.timer(turn, bytes([turn]) * 32)
            ack, (answer,) = answering.receive(ask, bytes([turn | 32]) * 32)
            asking.accept(ack)
            back, _ = asking.receive(answer, bytes([turn | 64]) * 32)
            answering.accept(back)
            self.messages += [(ask, ack), (answer, back)]
            if turn % 2 == 0:
                asking.checkpoint()
                answering.checkpoint()

    def key(self, node, k):
        return self.keys[node, k]

    def sign(self, rng, node, seq, digest):
        """A signature by either key, by any leaf: one leaf may sign twice here."""
        key = self.keys[node, rng.randrange(2)]
        key.next_leaf = rng.randrange(32)
        return key.sign(u64(seq) + digest, bytes([rng.randrange(256)]) * 32)

    def seq(self, rng):
        return rng.choice([rng.randrange(1, 40), rng.randrange(1, 40), rng.choice(NUMBERS[8])])

    def said(self, rng, node):
        """A number and a hash: of the node's log, or others."""
        seq, digest = rng.choice(self.nodes[node - 1].statements)
        return (self.seq(rng) if rng.random() < 0.2 else seq, bytes([rng.randrange(3)]) * 32 if rng.random() < 0.3 else digest)

    def message(self, rng):
        message, _ = rng.choice(self.messages)
        if rng.random() < 0.5:
            return message
        sender, receiver, seq, before = message.sender, message.receiver, message.seq, message.before
        payload = rng.choice([message.payload, b"A" + u64(rng.choice(NUMBERS[8])), b"T" + u64(1), b"", rng.randbytes(rng.randrange(20)), rng.choice(HOSTILE)])
        if rng.random() < 0.3:
            seq = self.seq(rng)
        if rng.random() < 0.05:
            receiver = rng.choice([sender, 3])
        sent = entry_hash(before, seq, SEND, u32(receiver) + payload)
        return Message(sender, receiver, seq, before, self.sign(rng, sender, seq, sent), payload)

    def entry(self, rng, seq):
        """An entry of any kind."""
        kind = rng.randrange(7)
        contents = [
            u32(rng.randrange(4)),
            u32(rng.randrange(4)) + rng.choice([b"", b"A" + u64(1), b"T" + u64(rng.randrange(30)), *HOSTILE]),
            u64(rng.choice(NUMBERS[8])),
            rng.randbytes(rng.randrange(64)),
            b"",
        ]
        content = self.message(rng).quote() if rng.random() < 0.3 else rng.choice(contents)
        return seq, kind, content

    def entries(self, rng, entries):
        """The entries, with some changes."""
        entries = list(entries)
        for _ in range(rng.choice([0, 1, 1, 2, 5])):
            at = rng.randrange(len(entries))
            seq, kind, content = entries[at]
            match rng.randrange(10):
                case 0:
                    entries[at] = (self.seq(rng), kind, content)
                case 1:
                    entries[at] = (seq, rng.randrange(8), content)
                case 2 | 3:
                    entries[at] = (seq, kind, damaged(rng, content, [b"", content]))
                case 4:
                    entries[at : at + rng.randrange(3)] = []
                case 5:
                    entries[at:at] = entries[at : at + rng.randrange(1, 4)]
                case 6:
                    entries.insert(at, self.entry(rng, seq))
                case 7:
                    entries[at] = self.entry(rng, seq)
                case 8:
                    entries[at] = (seq, kind, content + bytes(rng.choice([1, 2, 65_531, 65_536, 131_072 - len(content), 131_073])) if rng.random() < 0.1 else content[:-1])
                case 9:
                    entries += [((entries[-1][0] + k) % 2**64, TIMER, u64(k)) for k in range(1, rng.choice([2, 3, 4096 - len(entries), 4098 - len(entries)]) if rng.random() < 0.05 else 3)]
            entries = entries or [self.entry(rng, 1)]
        return entries

    def segment(self, rng, node=None):
        node = node or rng.randrange(1, 3)
        log = self.nodes[node - 1].contents
        starts = [0, 0, *(at for at, (_, kind, _) in enumerate(log) if kind == CHECKPOINT), rng.randrange(len(log))]
        start = rng.choice(starts)
        entries = self.entries(rng, log[start : rng.randrange(start, len(log)) + 1])
        before = end_of(sha256(), log[:start]) if rng.random() < 0.9 else bytes(32)
        if rng.random() < 0.02:
            return spelled_segment(node, before, [], self.sign(rng, node, 1, before))
        return spelled_segment(node, before, entries, self.sign(rng, node, entries[-1][0], end_of(before, entries)))

    def statement(self, rng, node=None):
        node = node or rng.randrange(1, 3)
        seq, digest = self.said(rng, node)
        return u8(1) + u32(node) + u64(seq) + digest + text(self.sign(rng, node, seq, digest))

    def audit(self, rng):
        node = rng.randrange(1, 3)
        named = [self.said(rng, node) for _ in range(rng.choice([1, 2]))]
        if rng.random() < 0.9:
            named.sort()
        signed = [u64(seq) + digest + text(self.sign(rng, node, seq, digest)) for seq, digest in named]
        return u8(3) + u32(node) + u8(len(signed) - 1) + b"".join(signed)

    def ack(self, rng):
        message, ack = rng.choice(self.messages)
        if rng.random() < 0.5:
            return u8(5) + spelled(message) + u64(ack.seq) + ack.before + text(ack.signature)
        message, seq, before = self.message(rng), self.seq(rng), bytes([rng.randrange(3)]) * 32
        digest, signer = entry_hash(before, seq, RECV, message.quote()), message.receiver if message.receiver < 3 else 1
        return u8(5) + spelled(message) + u64(seq) + before + text(self.sign(rng, signer, seq, digest))

    def item(self, rng):
        make = rng.choice([self.statement, self.statement, self.segment, self.segment, self.segment, self.audit, self.ack, None])
        return make(rng) if make else u8(4) + spelled(self.message(rng))

    def evidence(self, rng):
        texts = {self.item(rng) for _ in range(rng.choice([1, 2, 3, 4, 6]))}
        return Evidence(self.directory, tuple(item(it) for it in sorted(texts)), False)

    def proof(self, rng):
        node, form = rng.randrange(1, 3), rng.randrange(1, 4)
        parts = {1: [self.statement, self.statement], 2: [self.statement, self.segment], 3: [self.segment]}[form]
        return proof(form, *(item(part(rng, node if rng.random() < 0.95 else None)) for part in parts))


# Payloads that speak in a voice which is not theirs: quotation marks, markup, references, escapes, overrides of direction, and bytes above 127.
HOSTILE = [
    b'ok" (2 bytes), quotes entry 9',
    b'"; item 1, a statement. Node 1 signed',
    b"</title></svg><script>alert(1)</script>",
    b"' onload='alert(1)",
    b"&lt;&#60;&amp;",
    b"\\x41\\n\\",
    b"\x1b[31mexposed\x1b[0m\r\n1 exposed\n",
    "trusted \u202edesopxe\u2066 \u200b".encode(),
    bytes(range(127, 160)),
    b"`~" * 40,
]


class Pool:
    """What changes take from other texts: data of fields by name, and items."""

    def __init__(self, gathered):
        self.fields, self.items = {}, []
        for evidence in gathered:
            self.items += evidence.items
            for tree in (evidence.directory, *evidence.items):
                for _, node in places(tree):
                    if isinstance(node, Field):
                        self.fields.setdefault(node.name, set()).add(node.data)
        self.fields = {name: sorted(values) for name, values in self.fields.items()}
        self.fields["magic"] = MAGICS


def changed_field(rng, tree, field, pool):
    data = field.data
    match rng.randrange(9):
        case 0 | 1 if data:
            data = flipped(rng, data)
        case 2 | 3 if len(data) in NUMBERS:
            data = number(len(data), rng.choice([*NUMBERS[len(data)], int.from_bytes(data, "big") + 1, int.from_bytes(data, "big") - 1]))
        case 4 | 5:
            data = rng.choice(pool.fields.get(field.name, [data]))
        case 6:
            data = data[: rng.randrange(len(data))] if data else b"\0"
        case 7:
            data = rng.choice([it.data for _, it in places(tree) if isinstance(it, Field) and it.name == field.name])
        case _:
            data = damaged(rng, data, [data])
    return field._replace(data=data)


def changed(rng, tree, pool):
    """The tree with one change, anywhere, or now and then at an item or above."""
    at = places(tree)
    path, node = rng.choice([it for it in at if len(it[0]) < 4] if rng.random() < 0.2 else at)
    if isinstance(node, Field):
        return put(tree, path, changed_field(rng, tree, node, pool))
    children = list(node.children)
    if not isinstance(node, Row) and rng.random() < 0.4:
        width = node.width if isinstance(node, Counted) else 4
        right = int.from_bytes(spell(node)[:width], "big")
        others = [it.told or 0 for _, it in places(tree) if isinstance(it, (Sized, Counted))]
        lengths = [len(spell(it)) - 4 for _, it in places(tree) if isinstance(it, Sized)][:50] or others
        told = rng.choice([right + 1, right - 1, rng.choice(lengths), rng.choice(NUMBERS[width]), rng.choice(NUMBERS[width])])
        return put(tree, path, node._replace(told=told))
    match rng.randrange(8):
        case 0 if children:
            children.pop(rng.randrange(len(children)))
        case 6:
            children = children[: rng.choice([0, len(children) // 2])]
        case 1 if children:
            at = rng.randrange(len(children))
            children[at:at] = [children[at]] * rng.choice([1, 1, 2, 30])
        case 2 if len(children) > 1:
            one, two = rng.sample(range(len(children)), 2)
            children[one], children[two] = children[two], children[one]
        case 3 if isinstance(node, Counted) and node.ascending:
            rng.shuffle(children)
            return put(tree, path, node._replace(children=tuple(children), ascending=False))
        case 4 if isinstance(node, Counted) and node.ascending:
            children.insert(0, Sized((rng.choice(pool.items),)))
        case 5:
            same = [it for _, it in places(tree) if type(it) is type(node)]
            return put(tree, path, rng.choice(same))
        case _:
            return exchanged(rng, tree)
    return put(tree, path, node._replace(children=tuple(children)))


def exchanged(rng, tree):
    """The tree, in which two lengths, two counts or two fields of one name change places."""
    all_places = [(path, node) for path, node in places(tree) if not isinstance(node, Row)]
    if not all_places:
        return tree
    path, node = rng.choice(all_places)
    kind = node.name if isinstance(node, Field) else type(node)
    path2, node2 = rng.choice([(at, it) for at, it in all_places if (it.name if isinstance(it, Field) else type(it)) == kind])
    if isinstance(node, Field):
        return put(put(tree, path, node2), path2, node)
    told, told2 = (int.from_bytes(spell(it)[: getattr(it, "width", 4)], "big") for it in (node, node2))
    tree = put(tree, path, node._replace(told=told2))
    return put(tree, path2, at_path(tree, path2)._replace(told=told))


def at_path(tree, path):
    for at in path:
        tree = tree.children[at]
    return tree


def flipped(rng, data):
    data = bytearray(data)
    data[rng.randrange(len(data))] ^= 1 << rng.randrange(8)
    return bytes(data)


def damaged(rng, data, others):
    """The bytes, with one change that knows nothing of fields."""
    at, size = rng.randrange(len(data) + 1), rng.choice([1, 2, 4, 8, 32, rng.randrange(1, 300)])
    match rng.randrange(9):
        case 0 | 1 if data:
            return flipped(rng, data)
        case 2:
            return data[:at]
        case 3:
            return data[:at] + data[at : at + size] * rng.choice([2, 2, 3, 40]) + data[at + size :]
        case 4:
            return data[:at] + data[at + size :]
        case 5:
            return data[:at] + rng.randbytes(min(size, 64)) + data[at:]
        case 6:
            width = rng.choice([1, 4, 8])
            return data[:at] + number(width, rng.choice(NUMBERS[width])) + data[at + width :]
        case 7:
            other = rng.choice(others)
            start = rng.randrange(len(other) + 1)
            return data[:at] + other[start : start + size] + data[at + rng.choice([0, size]) :]
        case _:
            if data:
                data = bytearray(data)
                for _ in range(rng.randrange(1, 9)):
                    data[rng.randrange(len(data))] = rng.choice([0, 1, 255, rng.randrange(256)])
            return bytes(data)


def damaged_lines(rng, data):
    """The lines of digits, with one change of the digits or the lines."""
    at = rng.randrange(len(data) + 1)
    lines = data.split(b"\n")
    line = rng.randrange(len(lines))
    match rng.randrange(11):
        case 0 | 1 | 2 if at < len(data):
            return data[:at] + rng.choice(b"0123456789abcdefABCDEF").to_bytes(1, "big") + data[at + 1 :]
        case 3:
            return data[:at] + rng.choice([b"\n", b"\r", b" ", b"g", b"G", b"/", b":", b"@", b"`", b"\0", b"\xff", b"0x", b"0", b"00"]) + data[at:]
        case 4:
            return data[:at] + data[at + rng.choice([1, 1, 2, 3, 64]) :]
        case 5:
            return data[:at]
        case 6:
            lines[line:line] = [lines[line]] * rng.choice([1, 1, 3])
        case 7:
            lines.pop(line)
        case 8:
            rng.shuffle(lines)
        case 9:
            lines.insert(line, rng.choice([b"", b"00", b"0"]))
        case _:
            return data[:at] + bytes([rng.randrange(256)]) + data[at + 1 :]
    return b"\n".join(lines)


KINDS = ["honest", "fork", "mute", "wrong"]


def scenario(rng):
    """The lines of a scenario of few nodes."""
    ids = rng.sample([0, 1, 2, 3, 4, 9, 2**31, 2**32 - 2, 2**32 - 1], rng.choice([1, 2, 2, 2, 3]))
    lines = [f"witnesses {rng.choice([1, 1, 2, 2, 3, 8])}", *(f"node {it} {rng.choice(KINDS)}" for it in ids)]
    if rng.random() < 0.01:
        lines += [f"timer {rng.choice(ids)} 1"] * 33
    for _ in range(rng.randrange(9)):
        it = rng.choice(ids)
        lines.append(rng.choice([f"timer {it} {rng.choice([0, 5, 7, 2**64 - 1])}", f"timer {it} 1", f"audit {it}", f"audit {it}", f"checkpoint {it}", f"rekey {it}"]))
    return lines


WORDS = [*KINDS, "node", "witnesses", "timer", "checkpoint", "audit", "rekey", "", "#", "+1", "-1", "01", "00", "0", "1", "8", "9", "4294967295", "4294967296", "18446744073709551615", "18446744073709551616", "99999999999999999999999", "0x1", "1 ", "é"]


def changed_scenario(rng, lines):
    """The text of the lines, with some changes."""
    lines = list(lines)
    for _ in range(rng.choice([1, 1, 1, 2, 4])):
        at = rng.randrange(len(lines))
        words = lines[at].split(" ")
        word = rng.randrange(len(words))
        match rng.randrange(12):
            case 0 | 1 | 2:
                words[word] = rng.choice(WORDS)
            case 3:
                words.pop(word)
            case 4:
                words.insert(word, rng.choice(WORDS))
            case 5:
                lines[at:at] = [lines[at]] * rng.choice([1, 1, 2, 31])
                continue
            case 6:
                other = rng.randrange(len(lines))
                lines[at], lines[other] = lines[other], lines[at]
                continue
            case 7 if len(lines) > 1:
                lines.pop(at)
                continue
            case 8:
                lines.insert(at, rng.choice(["", "", "#", "# a remark", " ", "\t", " #"]))
                continue
            case 9:
                lines += [rng.choice(["", "#"])] * rng.choice([1000 - len(lines), 1001 - len(lines), 999 - len(lines), 3])
                continue
            case 10:
                lines[at] += rng.choice([" ", "\r", "\t", "\0", "x", "  1"])
                continue
            case _:
                lines[at] = damaged(rng, lines[at].encode(), [b"node 1 honest", b"timer 1 1"]).decode("latin-1")
                continue
        lines[at] = " ".join(words)
    text = "\n".join(lines).encode("latin-1", "replace") + rng.choice([b"\n", b"\n", b"\n", b"", b"\n\n"])
    return damaged(rng, text, [text]) if rng.random() < 0.1 else text
