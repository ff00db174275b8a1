"""Tests that no number is cut down to the bits of its type: what the type has not is refused before the call, by each function of the package
and of each number that a call of the header takes."""

import os
import re

import pytest
from scene import KEYS, LISTED, TOP, first_message

from bulwynef import Key, Node, Program, Refusal, Store, audit_challenge, check_proof, directory, explain_proof, library, statement_of

U8, U32, U64 = 8, 32, 64
# where a number goes in: its bits, one that is allowed there, and the call
NUMBERS = {
    "check_proof program": (U8, 1, lambda n, at: check_proof(LISTED, b"", n)),
    "explain_proof program": (U8, 1, lambda n, at: explain_proof(LISTED, b"", n)),
    "Store program": (U8, 1, lambda n, at: Store(LISTED, n).close()),
    "Node program": (U8, 1, lambda n, at: Node(LISTED, 1, KEYS[1], n).close()),
    "Node me": (U32, 1, lambda n, at: Node(LISTED, n, KEYS[1], Program.TALLY).close()),
    "Node first_seq": (U64, 1, lambda n, at: Node(LISTED, 1, KEYS[1], Program.TALLY, first_seq=n).close()),
    "Node key's LMS type": (U32, 5, lambda n, at: Node(LISTED, 1, KEYS[1]._replace(lms_type=n), Program.TALLY).close()),
    "Node key's LM-OTS type": (U32, 4, lambda n, at: Node(LISTED, 1, KEYS[1]._replace(ots_type=n), Program.TALLY).close()),
    "Key.public LMS type": (U32, 5, lambda n, at: KEYS[1]._replace(lms_type=n).public()),
    "Key.public LM-OTS type": (U32, 4, lambda n, at: KEYS[1]._replace(ots_type=n).public()),
    "Key.new LMS type": (U32, 5, lambda n, at: Key.new(n).public()),
    "Key.new LM-OTS type": (U32, 4, lambda n, at: Key.new(5, n).public()),
    "directory node": (U32, 1, lambda n, at: directory({n: [KEYS[1].public()]})),
    "Store.indication node": (U32, 2, lambda n, at: at["store"].indication(n)),
    "Store.proof node": (U32, 2, lambda n, at: at["store"].proof(n)),
    "Store.challenges node": (U32, 2, lambda n, at: at["store"].challenges(n)),
    "statement_of place": (U64, 0, lambda n, at: statement_of(at["item"], n)),
    "Node.timer moment": (U64, 1, lambda n, at: at["node"].timer(n)),
    "Node.message seq": (U64, 1, lambda n, at: at["node"].message(n)),
    "Node.next_key LMS type": (U32, 5, lambda n, at: at["node"].next_key(KEYS[1]._replace(lms_type=n))),
    "Node.next_key LM-OTS type": (U32, 4, lambda n, at: at["node"].next_key(KEYS[1]._replace(ots_type=n))),
}


@pytest.fixture
def at():
    with Store(LISTED, Program.TALLY) as store, Node(LISTED, 1, KEYS[1], Program.TALLY) as node:
        node.timer(5)
        yield {"store": store, "node": node, "item": first_message(node)}


@pytest.mark.parametrize("where", NUMBERS)
def test_what_a_type_has_not_is_refused(where, at):
    bits, allowed, call = NUMBERS[where]
    for number in (-1, -(2**bits) + allowed, 2**bits, 2**bits + allowed, 2 ** (bits + 1) + allowed, 2**200 + allowed):
        with pytest.raises(ValueError):
            call(number, at)
    for other in (float(allowed), str(allowed), None):
        with pytest.raises(TypeError):
            call(other, at)


@pytest.mark.parametrize("where", NUMBERS)
def test_what_a_type_has_reaches_the_library(where, at):
    bits, allowed, call = NUMBERS[where]
    for number in (0, allowed, 2**bits - 1):
        try:
            call(number, at)
        except Refusal:
            pass


def test_a_number_that_is_refused_changes_nothing(at):
    before = at["node"].history(), at["node"].remaining(), at["store"].export()
    for where in NUMBERS:
        with pytest.raises(ValueError):
            NUMBERS[where][2](-1, at)
    assert (at["node"].history(), at["node"].remaining(), at["store"].export()) == before


def declared():
    """The parameters of each call of the header that answers a number: of one that is handed over as it is the bits, else None."""
    with open(os.path.join(TOP, "c", "bulwynef.h"), encoding="utf-8") as file:
        text = re.sub(r"/\*.*?\*/", "", file.read(), flags=re.S)
    bits = {"uint8_t": U8, "uint32_t": U32, "uint64_t": U64, "size_t": 64}
    found = {}
    for name, words in re.findall(r"^uint8_t bulwynef_(\w+)\((.*?)\);", text, re.S | re.M):
        found[name] = [None if "*" in word else bits[word.split()[-2]] for word in words.split(",")]
    return found


def test_the_header_s_calls_are_those_that_are_called():
    called = {name: [it.bits if isinstance(it, library.Number) else None for it in takes] for name, takes in library.CALLS.items()}
    assert called == declared()


def test_each_number_of_each_call_is_tested(monkeypatch):
    monkeypatch.setattr(library, "LIBRARY", None)
    tried = 0
    for name, takes in library.CALLS.items():
        for place, it in enumerate(takes):
            if isinstance(it, library.Number):
                for number in (-1, 2**it.bits, 2**it.bits + 1):
                    words = [0 if isinstance(other, library.Number) else None for other in takes]
                    words[place] = number
                    with pytest.raises(ValueError):
                        library.call(name, *words)
                    tried += 1
    assert tried == 3 * sum(bits is not None for takes in declared().values() for bits in takes)


def test_a_directory_has_keys_of_56_bytes_and_at_most_255():
    for keys in ([KEYS[1].public()[:-1]], [b""], [KEYS[1].public()] * 256):
        with pytest.raises(ValueError):
            directory({1: keys})


def test_texts_are_bytes():
    with Store(LISTED, Program.TALLY) as store:
        for call in (store.take, store.load, store.pack, store.apply, audit_challenge):
            for text in ("00", None, 7):
                with pytest.raises(Exception) as refused:
                    call(text)
                assert not isinstance(refused.value, Refusal)
