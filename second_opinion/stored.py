"""Inputs whose answers the repository has stored, and which no code of this folder made.

- `crates/tour/stdout` and `examples/explained/`: what proved programs say of the evidence of `examples/`.
- `crates/mailbox_tour/stdout`: what a proved program says of evidence of nodes that run Mailbox.
- `examples/README.md`: what `bulwynef` writes there of the same files.
- `crates/evidence_vectors/stdin`: items and stores, with the answers of implementations that are not ours.
- `refusals`: an input of `examples/` after one change each, and the refusal that FORMATS has for it.
"""

import os
import re
from typing import NamedTuple

from check import sha256, u32, u64

TOP = os.path.dirname(os.path.dirname(os.path.abspath(__file__)))
EXAMPLES = f"{TOP}/examples"


class Case(NamedTuple):
    """The words and the lines of an input, and what is to be written: the answer, or the line of the refusal."""

    source: str
    name: str
    words: list
    lines: list
    wanted: str

    def text(self):
        return input_of(*self.lines)

    def files(self):
        """The one file of these lines. A file has no blank line, so beside an empty text each stands in a file of its own."""
        return [self.text()] if all(self.lines) else self.lines


def read(path):
    with open(f"{TOP}/{path}", "rb") as file:
        return file.read()


def input_of(*texts):
    """An input of lines that spell these texts."""
    return b"".join(text.hex().encode() + b"\n" for text in texts)


def lines_of(text):
    """The texts that the lines of an input spell."""
    return [bytes.fromhex(line.decode()) for line in text.splitlines()]


def store_of(items):
    """The store of the items."""
    items = sorted(set(items))
    return b"PRSTORE2" + u64(len(items)) + b"".join(u32(len(item)) + item for item in items)


def items_of(store):
    items, at = [], 16
    while at < len(store):
        size = int.from_bytes(store[at : at + 4], "big")
        items.append(store[at + 4 : at + 4 + size])
        at += 4 + size
    return items


def merged(stores):
    """The one store, or that of the items of all."""
    return stores[0] if len(stores) == 1 else store_of(item for store in stores for item in items_of(store))


def proof_of(form, *items):
    return bytes([form]) + b"".join(u32(len(item)) + item for item in items)


def said_in(text):
    """The lines on nodes, without what `explain` says of one of which there is no item."""
    return "".join(re.findall(r"^\d+ (?:trusted|suspected|exposed)\n", text.replace(" trusted (no item)\n", " trusted\n"), re.MULTILINE))


def tours():
    return scenes("tour", "tour", [])


def mailbox():
    return scenes("mailbox", "mailbox_tour", ["--program", "mailbox"])


def scenes(source, crate, program):
    """What a tour makes, and what it says of it: each witness the same, and where it writes a proof, of which node it is."""
    for part in read(f"crates/{crate}/stdout").decode().split("== ")[1:]:
        name, rest = part.split("\n", 1)
        inputs, told = rest.split("--\n")
        directory, *stores = lines_of(inputs.encode())
        wanted = said_in(told.split("witness 1\n")[0])
        yield Case(source, name, ["status", *program], [directory, merged(stores)], wanted)
        for proof in re.findall(r"^0[123][0-9a-f]{20,}$", told, re.MULTILINE):
            node = re.search(r"(\d+) exposed", wanted)[1]
            yield Case(source, f"{name}, proof", ["check", *program], [directory, bytes.fromhex(proof)], f"exposes {node}\n")


def explained():
    """What `explain` says of each store of `examples/`."""
    for file in sorted(os.listdir(f"{EXAMPLES}/explained")):
        name, *kind, ending = file.split(".")
        if ending != "txt" or kind not in ([], ["stores"]):
            continue
        told = read(f"examples/explained/{file}").decode()
        directory, *stores = lines_of(read(f"examples/{name}.txt"))
        yield Case("explained", file, ["status"], [directory, merged(stores)], said_in(told))


def page():
    """What stands on the page of examples behind `bulwynef status`, of files that are there."""
    asked = r"^    \$ bulwynef status(?: --program (\w+))? --directory (\S+) (.+)\n((?:    \d.*\n)+)"
    for program, directory, stores, told in re.findall(asked, read("examples/README.md").decode(), re.MULTILINE):
        names = [directory, *stores.split()]
        if all(os.path.isfile(f"{EXAMPLES}/{name}") for name in names):
            first, *others = [read(f"examples/{name}") for name in names]
            yield Case("page", stores, ["status", "--program", program or "tally"], [first, merged(others)], told.replace("    ", ""))


class Vector(NamedTuple):
    """A line of the vectors under its directory: its first word, and the others."""

    directory: bytes
    kind: str
    words: list


def vectors():
    directory = b""
    for line in read("crates/evidence_vectors/stdin").decode().splitlines():
        kind, *words = line.split(" ")
        if kind == "directory":
            directory = bytes.fromhex(words[0])
        elif kind != "#":
            yield Vector(directory, kind, words)


def vector_cases():
    """What the vectors say of inputs of the two commands."""
    makers = {"tally": item_cases, "relay": item_cases, "store": store_cases, "cuts": cut_cases}
    for vector in vectors():
        yield from makers[vector.kind](vector)


def item_in(word):
    return b"" if word == "-" else bytes.fromhex(word)


def items_in(*words):
    return [item_in(it) for word in words if word != "-" for it in word.split(",")]


def item_cases(vector):
    """A store of the item alone is refused as the item is; a segment alone is a proof where it deviates."""
    item, told = item_in(vector.words[0]), vector.words[1:]
    relay, refusal = ["--relay"] * (vector.kind == "relay"), " ".join(told) + "\n"
    if told[0] == "refused":
        yield Case("vectors", refusal[:-1], ["status", *relay], [vector.directory, store_of([item])], refusal)
    if item[:1] == b"\x02":
        node = int.from_bytes(item[1:5], "big")
        wanted = {"conforms": "refused 51 Conforms\n", "deviates": f"exposes {node}\n"}.get(told[0], refusal)
        yield Case("vectors", refusal[:-1], ["check", *relay], [vector.directory, proof_of(3, item)], wanted)


def store_cases(vector):
    """What a store says. That it is the right store is shown by its digest, which the line ends with."""
    items, rows = items_in(*vector.words[:2]), vector.words[3:-1]
    assert sha256(store_of(items)).hex() == vector.words[-1], vector.words[-1]
    wanted = "".join(f"{rows[at]} {rows[at + 1]}\n" for at in range(0, len(rows), 4))
    yield Case("vectors", f"a store of {len(items)}", ["status"], [vector.directory, store_of(items)], wanted)


def cut_cases(vector):
    """The text of two items, cut off at each place, lengthened, or with its items turned."""
    text = item_in(vector.words[1])
    one, two = items_of(text)
    turned = text[:16] + u32(len(two)) + two + u32(len(one)) + one
    for at in range(len(text)):
        yield Case("cuts", f"at {at}", ["status"], [vector.directory, text[:at]], "refused 40 Truncated\n")
    yield Case("cuts", "longer", ["status"], [vector.directory, text + b"\0"], "refused 43 Trailing\n")
    yield Case("cuts", "turned", ["status"], [vector.directory, turned], "refused 61 NotAscending\n")


def refusals():
    """An input after one change each. Its directory has three nodes of two keys: nodes stand at 12, 129 and 246, keys 5 behind them."""
    directory, store = lines_of(read("examples/equivocation.txt"))
    one, two = items_of(store)
    proof = proof_of(1, one, two)

    def after(text, at, *numbers):
        return text[:at] + bytes(numbers) + text[at + len(numbers) :]

    for wanted, text in (
        ("24 Truncated", directory[:7]),
        ("24 Truncated", directory[:11]),
        ("24 Truncated", directory[:-1]),
        ("24 Truncated", after(directory, 11, 4)),
        ("24 Truncated", after(directory, 10, 4, 0)),
        ("24 Truncated", after(directory, 16, 8)),
        ("23 BadMagic", after(directory, 0, 0)),
        ("22 TooManyNodes", after(directory, 10, 4, 1)),
        ("26 KeyCount", after(directory, 16, 0)),
        ("26 KeyCount", after(directory, 16, 9)),
        ("2 UnknownLmsType", after(directory, 20, 4)),
        ("2 UnknownLmsType", after(directory, 20, 10, 0, 0, 0, 0)),
        ("3 UnknownOtsType", after(directory, 24, 0)),
        ("3 UnknownOtsType", after(directory, 24, 5)),
        ("20 DuplicateNode", after(directory, 129, *directory[12:129])),
        ("21 DuplicateKey", after(directory, 73, *directory[17:73])),
        ("21 DuplicateKey", after(directory, 134, *directory[17:73])),
        ("25 Trailing", directory + b"\0"),
    ):
        yield Case("refusals", wanted, ["status"], [text, store], f"refused {wanted}\n")
    for wanted, text in (("60 BadMagic", after(store, 0, 0)), ("61 NotAscending", store[:16] + 2 * (u32(len(one)) + one))):
        yield Case("refusals", wanted, ["status"], [directory, text], f"refused {wanted}\n")
    for wanted, text in (
        ("40 Truncated", b""),
        ("40 Truncated", proof[:-1]),
        ("40 Truncated", proof_of(1, b"", two)),
        ("41 BadTag", after(proof, 0, 0)),
        ("41 BadTag", after(proof, 0, 2)),
        ("41 BadTag", after(proof, 5, 3)),
        ("40 Truncated", after(proof, 1, 0x20, 0x00, 0xF4, 0x9A)),
        ("42 TooLong", after(proof, 1, 0x20, 0x00, 0xF4, 0x9B)),
        ("43 Trailing", proof + b"\0"),
        ("49 BadSignature", after(proof, len(proof) - 1, proof[-1] ^ 1)),
        ("50 NoContradiction", proof_of(1, one, one)),
    ):
        yield Case("refusals", wanted, ["check"], [directory, text], f"refused {wanted}\n")
    for count in (0, 1, 3):
        yield Case("refusals", f"{count} lines", ["check"], [directory] * count, "refused 104 LineCount\n")
