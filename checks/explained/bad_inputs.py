"""Inputs that are not as they should be, and of each the refusal. Written by hand.

`bad_files` and `bad_lines` take the directory's line, the store's and the proof's, and the store's items as (where the item begins, how long it
is). `bad_files` takes a bundle too. It gives words of `bulwynef`, files by their names, and the line of the refusal: what `status` refuses of
stores and `check` of a proof, `explain` refuses by the same line. `bad_lines` gives a command of `node_sim`, its input, and the refusal.
"""

MAGIC, COUNT = 8, 16
PICTURE = b"\x89PNG\r\n\x1a\n\0\0\0\rIHDR"
DIGITS = "a line has a character that is no hexadecimal digit, or an odd number of digits"
TAG = "a tag, a flag or a form is unknown, or an item of a proof has another form than its part"
CUT_OFF, LINES = "a store, a proof or an item in them is cut off", "the input does not have the lines that the command reads"
LEFT, SIGNATURE = "bytes are left over after a store, a proof or an item", "a signature of an item is not valid"
UNLISTED, ASCENDING = "a node that is named or asked for is not listed in the directory", "the items of a store do not ascend by their bytes"
LINE = "this line is not as bundles have it, is missing, or stands behind the last"
OLDER = "a bundle of format 1, which is no longer read: ask for one of format 2, or for the directory and the proof"
NO_DIRECTORY = "refused 23 BadMagic: nodes: the first bytes are not those of a directory"
NO_STORE = "refused 60 BadMagic: file, item 0, byte 16: the first bytes are not those of a store"
KEYS = "the directory lists a node with no key, or with more than it may have"


def disguised(line):
    """What a file says that begins otherwise than the digits of its line: its own bytes."""
    return [PICTURE, b"\xef\xbb\xbf" + line, b"\xff\xfe" + line, b"0x" + line, b" " + line, b'"' + line + b'"', b"\n" + line]


def no_digits(line):
    """The line with another character behind its first eight, or with an odd number of digits."""
    changed = [line[:200] + b"z" + line[201:], line[:10] + b"\xc3\xa9" + line[12:], line[:-1]]
    return [line + b"\r\n", line + b"\r", line + b" ", *changed]


class Files:
    """The words of `bulwynef` for each kind of file, and the files that are as they should be."""

    on = "--program tally --directory nodes"
    store = [f"status {on} file", f"explain {on} file"]
    nodes = [*store, "explain --directory nodes"]
    proof = [f"check {on} file", f"explain {on} --proof file"]
    more = [f"{words} more" for words in store]

    def __init__(self, nodes, raw):
        self.files = {"nodes": nodes, "file": raw}

    def of(self, each, file, told, name="file"):
        """The file of this name, in the place of the right one, is refused by this line."""
        return [(words, {**self.files, name: file}, told) for words in each]


def bad_directories(its, line, raw):
    nodes = its.files["nodes"]
    yield from its.of(its.nodes, raw, f"{NO_DIRECTORY}; the file is a store", "nodes")
    for text in disguised(line):
        yield from its.of(its.nodes, text, NO_DIRECTORY, "nodes")
    for text in (b"", nodes[:7], nodes[:20], line[:40]):
        yield from its.of(its.nodes, text, "refused 24 Truncated: nodes: the directory is cut off", "nodes")
    for text in (nodes + b"\0", line + b"00"):
        yield from its.of(its.nodes, text, "refused 25 Trailing: nodes: bytes are left over after the directory", "nodes")
    for text in (*no_digits(line), line + b"\n\r\n"):
        yield from its.of(its.nodes, text, f"refused 103 BadHex: nodes: {DIGITS}", "nodes")
    for text in (line + b"\n\n", line + b"\n\n\n", 3 * (line + b"\n")):
        yield from its.of(its.nodes, text, f"refused 104 LineCount: nodes: {LINES}", "nodes")
    yield from its.of(its.nodes, nodes[:16] + b"\x09" + nodes[17:], f"refused 26 KeyCount: nodes: {KEYS}", "nodes")
    yield from its.of(its.nodes, nodes[:129] + nodes[12:129] + nodes[246:], "refused 20 DuplicateNode: nodes: the directory lists a node twice", "nodes")
    for words in its.nodes:
        no_file, few = words.replace("nodes", "none"), words.replace("--directory", "--most 20 --directory")
        yield from its.of([no_file], raw, "refused 100 ReadFailed: none: it can't be opened, or can't be read to its end")
        yield from its.of([few], raw, "refused 101 InputTooLong: nodes: the input has more bytes than it may")


def bad_stores(its, directory, line, convicting, items):
    nodes, raw = its.files["nodes"], its.files["file"]
    (first, first_size), (second, second_size) = items
    at, last = second - 4, second + second_size - 1

    def changed(place, value):
        return raw[:place] + value + raw[place + len(value) :]

    def under(text):
        return directory + b"\n" + text + b"\n"

    swapped, broken = raw[: first - 4] + raw[at:] + raw[first - 4 : at], changed(last, bytes([raw[last] ^ 1]))
    for text in (nodes, directory, under(directory)):
        yield from its.of(its.store, text, f"{NO_STORE}; the file is a directory")
    for text in (convicting, changed(0, b"X"), under(convicting.hex().encode()), *disguised(line)):
        yield from its.of(its.store, text, NO_STORE)
    yield from its.of(its.store, b"", f"refused 40 Truncated: file, item 0: {CUT_OFF}")
    yield from its.of(its.store, changed(first - 4, b"\0\0\0\x06"), f"refused 40 Truncated: file, item 0, byte 16: {CUT_OFF}")
    yield from its.of(its.store, raw[: second + 13], f"refused 40 Truncated: file, item 1, byte {at}: {CUT_OFF}")
    yield from its.of(its.store, raw + b"\0", f"refused 43 Trailing: file, item 2, byte {len(raw)}: {LEFT}")
    yield from its.of(its.store, swapped, f"refused 61 NotAscending: file, item 1, byte {16 + 4 + second_size}: {ASCENDING}")
    yield from its.of(its.store, changed(second + 1, b"\0\0\0\x63"), f"refused 44 UnknownNode: file, item 1, byte {at}: {UNLISTED}")
    yield from its.of(its.store, changed(second, b"\x09"), f"refused 41 BadTag: file, item 1, byte {at}: {TAG}; the file is a store")
    for text in (broken, broken.hex().encode(), under(broken.hex().encode())):
        yield from its.of(its.store, text, f"refused 49 BadSignature: file, item 1, byte {at}: {SIGNATURE}")
    for text in (*no_digits(line), *(under(text) for text in no_digits(line)[1:]), under(b" " + line), directory + b"\r\n" + line + b"\r\n"):
        yield from its.of(its.store, text, f"refused 103 BadHex: file: {DIGITS}")
    for text in (line + b"\n" + line + b"\n", line + b"\n" + directory, under(b""), under(line) + b"\n", under(line) + line):
        yield from its.of(its.store, text, f"refused 104 LineCount: file: {LINES}")
    # A second store.
    yield from its.of(its.more, b"", f"refused 40 Truncated: more, item 0: {CUT_OFF}", "more")
    yield from its.of(its.more, line + b"\r\n", f"refused 103 BadHex: more: {DIGITS}", "more")
    yield from its.of(its.more, convicting, NO_STORE.replace("file", "more"), "more")
    yield from its.of(its.more, broken, f"refused 49 BadSignature: more, item 1, byte {at}: {SIGNATURE}", "more")


def bad_proofs(its, directory, line):
    raw, convicting = its.files["file"], bytes.fromhex(line.decode())
    part = 5 + int.from_bytes(convicting[1:5], "big")
    yield from its.of(its.proof, raw, f"refused 41 BadTag: file: {TAG}; the file is a store")
    for text in disguised(line):
        yield from its.of(its.proof, text, f"refused 41 BadTag: file: {TAG}")
    for text in (b"", convicting[:-1]):
        yield from its.of(its.proof, text, f"refused 40 Truncated: file: {CUT_OFF}")
    yield from its.of(its.proof, convicting + b"\0", f"refused 43 Trailing: file: {LEFT}")
    yield from its.of(its.proof, convicting[:part] + convicting[1:part], "refused 50 NoContradiction: file: the parts of a proof do not contradict each other")
    for text in no_digits(line):
        yield from its.of(its.proof, text, f"refused 103 BadHex: file: {DIGITS}")
    for text in (line + b"\n\n", directory + b"\n" + line + b"\n", directory + b"\n" + raw.hex().encode() + b"\n", 3 * (line + b"\n")):
        yield from its.of(its.proof, text, f"refused 104 LineCount: file: {LINES}")


def bad_bundles(its, bundle):
    lines = bundle.split(b"\n")
    front = next(place for place, line in enumerate(lines) if place and not line.startswith(b"#"))

    def bundled(place, line):
        return b"\n".join([*lines[:place], line, *lines[place + 1 :]])

    yield from its.of(["check file"], b"bulwynef bundle 3\n", f"refused 106 BadBundle: file, line 1: {LINE}")
    yield from its.of(["check file"], bundled(0, b"bulwynef bundle 1"), f"refused 131 OlderBundle: file: {OLDER}")
    yield from its.of(["check file"], bundle + b"\n", f"refused 106 BadBundle: file, line {len(lines)}: {LINE}")
    yield from its.of(["check file"], bundled(front, b"program other_1"), "refused 109 UnknownProgram: file: the bundle names a program that is not known")
    yield from its.of(["check file"], bundled(front + 1, lines[front + 1][1:]), f"refused 106 BadBundle: file, line {front + 2}: {LINE}")
    yield from its.of(["check file"], bundled(front + 2, lines[front + 2].upper()), f"refused 106 BadBundle: file, line {front + 3}: {LINE}")


def bad_files(directory, store, proof, items, bundle):
    nodes, raw, convicting = (bytes.fromhex(line.decode()) for line in (directory, store, proof))
    its = Files(nodes, raw)
    yield from bad_directories(its, directory, raw)
    yield from bad_stores(its, directory, store, convicting, items)
    yield from its.of(["prove --program tally --directory nodes 99 file"], raw, f"refused 44 UnknownNode: {UNLISTED}")
    yield from bad_proofs(its, directory, proof)
    yield from bad_bundles(its, bundle)


def bad_lines(directory, store, proof, items):
    raw = bytes.fromhex(store.decode())
    (first, first_size), (second, second_size) = items

    def two(one, other):
        return one + b"\n" + other + b"\n"

    def changed(at, value):
        return whole(raw[:at] + value + raw[at + len(value) :])

    def whole(text):
        return two(directory, text.hex().encode())

    last = second + second_size - 1
    broken = changed(last, bytes([raw[last] ^ 1]))
    swapped = raw[: first - 4] + raw[second - 4 :] + raw[first - 4 : second - 4]
    return [
        # The lines as they were sent.
        ("status", b"", "104 LineCount"),
        ("check", b"", "104 LineCount"),
        ("status", directory + b"\n", "104 LineCount"),
        ("check", two(directory, proof) + proof + b"\n" + proof, "104 LineCount"),
        ("check", two(directory, proof) + b"\n", "104 LineCount"),
        ("check", PICTURE, "104 LineCount"),
        ("merge", PICTURE, "103 BadHex"),
        # The lines of `merge`: a line for each store.
        ("merge", two(directory, store) + b"\n", "40 Truncated"),
        ("merge", two(directory, store) + store + b"\r\n", "103 BadHex"),
        ("merge", two(directory, store) + proof + b"\n", "60 BadMagic"),
        ("merge", two(directory, store) + broken.split(b"\n")[1], "49 BadSignature"),
        *(("status", two(directory, text), "103 BadHex") for text in (*disguised(store)[1:-1], *no_digits(store)[1:])),
        *(("status", two(text, store), "103 BadHex") for text in (*disguised(directory)[1:-1], *no_digits(directory)[1:])),
        ("status", two(directory + b"\r", store + b"\r"), "103 BadHex"),
        ("status", two(b"", store), "24 Truncated"),
        ("status", two(directory, b""), "40 Truncated"),
        # One text in place of another.
        ("status", two(store, directory), "23 BadMagic"),
        ("status", two(directory, directory), "60 BadMagic"),
        ("status", two(directory, proof), "60 BadMagic"),
        ("check", two(directory, store), "41 BadTag"),
        # The directory.
        ("status", two(directory[:20], store), "24 Truncated"),
        ("status", two(directory + b"00", store), "25 Trailing"),
        # The store, and its items.
        ("status", changed(0, b"X"), "60 BadMagic"),
        ("status", whole(raw + b"\0"), "43 Trailing"),
        ("status", whole(raw[: second + 13]), "40 Truncated"),
        ("status", whole(swapped), "61 NotAscending"),
        ("status", broken, "49 BadSignature"),
        ("status", changed(second + 1, b"\0\0\0\x63"), "44 UnknownNode"),
        ("status", changed(second, b"\x09"), "41 BadTag"),
        ("status", changed(first - 4, b"\0\0\0\x06"), "40 Truncated"),
    ]
