"""bindings/cases.txt, by this package. bindings/README.md says how a line is read."""

import os

import pytest
from scene import TOP

from bulwynef import Key, Node, Program, Refusal, Store, audit_challenge, check_proof, explain_proof, send_challenge, statement_of
from bulwynef.library import SIZE, U8, Opened, call, text, told

OUT_OF_RANGE, NOT_EXPOSED = 116, 115


def sized(*texts):
    """Each text with its length behind it."""
    return [word for it in texts for word in (it, len(it))]


class Rebuilt(Node):
    """A node of the bytes of a journal."""

    def __init__(self, program, directory, secrets, journal):
        Opened.__init__(self)
        with self._mine() as at:
            call("node_rebuild", program, *sized(directory, secrets, journal), at)

    def knows(self, statement):
        return self._told(U8, "node_knows", *sized(statement))


def at(found, place):
    if place >= len(found):
        raise Refusal(OUT_OF_RANGE)
    return found[place]


def proof_of(store, node):
    proof = store.proof(node)
    if proof is None:
        raise Refusal(NOT_EXPOSED)
    return proof


# Of each call what is done with the runner and with its words.
CALLS = {
    "check_proof": lambda _, program, directory, proof: check_proof(directory, proof, Program(program)),
    "explain_proof": lambda _, program, directory, proof: explain_proof(directory, proof, Program(program)).encode(),
    "public_key": lambda _, lms, ots, identifier, seed: Key(identifier, seed, lms, ots).public(),
    "statement_of": lambda _, item, place: statement_of(item, place),
    "audit_challenge": lambda _, first, last: audit_challenge(last, first),
    "send_challenge": lambda _, message: send_challenge(message),
    "store_open": lambda it, name, program, directory: it.open(name, Store(directory, Program(program))),
    "store_take": lambda it, name, item: int(it.at[name].take(item)),
    "store_import": lambda it, name, text: it.at[name].load(text),
    "store_merge": lambda it, name, other: it.at[name].merge(it.at[other]),
    "store_includes": lambda it, name, other: int(it.at[name].includes(it.at[other])),
    "store_indication": lambda it, name, node: int(it.at[name].indication(node)),
    "store_proof": lambda it, name, node: proof_of(it.at[name], node),
    "store_challenge": lambda it, name, node, place: at(it.at[name].challenges(node), place),
    "store_explain": lambda it, name: it.at[name].explain().encode(),
    "store_export": lambda it, name: it.at[name].export(),
    "store_outline": lambda it, name: it.at[name].outline(),
    "store_summary": lambda it, name: it.at[name].summary(),
    "store_short_summary": lambda it, name, outline: it.at[name].summary(outline),
    "store_pack": lambda it, name, summary: it.at[name].pack(summary),
    "store_apply": lambda it, name, pack: it.at[name].apply(pack),
    "node_new": lambda it, name, program, directory, node, first, lms, ots, identifier, seed: it.open(
        name, Node(directory, node, Key(identifier, seed, lms, ots), Program(program), first)
    ),
    "node_timer": lambda it, name, moment, entropy: it.at[name].timer(moment, entropy),
    "node_waiting": lambda it, name, place: at(it.at[name].waiting(), place),
    "node_message": lambda it, name, seq: it.at[name].message(seq),
    "node_answer": lambda it, name, challenge, entropy: it.at[name].answer(challenge, entropy),
    "node_history": lambda it, name: it.at[name].history(),
    "node_accept_ack": lambda it, name, ack: it.at[name].accept_ack(ack),
    "node_checkpoint": lambda it, name: it.at[name].checkpoint(),
    "node_remaining": lambda it, name: it.at[name].remaining(),
    "node_next_key": lambda it, name, lms, ots, identifier, seed: it.at[name].next_key(Key(identifier, seed, lms, ots)),
    "journal_block": lambda _, record: text("journal_block", *sized(record)),
    "journal_end": lambda _, journal: told(SIZE, "journal_end", *sized(journal)),
    "node_beginning": lambda _, program, directory, node, first, lms, ots, identifier, seed: text(
        "node_beginning", program, *sized(directory), node, first, *Key(identifier, seed, lms, ots).words()
    ),
    "record_timer": lambda _, moment, entropy: text("record_timer", moment, *sized(entropy)),
    "record_answer": lambda _, challenge, entropy: text("record_answer", *sized(challenge, entropy)),
    "record_ack": lambda _, ack: text("record_ack", *sized(ack)),
    "record_checkpoint": lambda _: text("record_checkpoint"),
    "record_next_key": lambda _, lms, ots, identifier, seed: text("record_next_key", *Key(identifier, seed, lms, ots).words()),
    "node_rebuild": lambda it, name, program, directory, secrets, journal: it.open(name, Rebuilt(program, directory, secrets, journal)),
    "node_knows": lambda it, name, statement: it.at[name].knows(statement),
}


class Runner:
    def __init__(self):
        self.texts, self.at = {}, {}

    def open(self, name, it):
        self.at[name] = it

    def value(self, word):
        return self.texts[word[1:]] if word.startswith("@") else int(word) if word.isdigit() else word

    def answer(self, asked, words):
        """The number, and what is answered beside it."""
        try:
            answer = CALLS[asked](self, *map(self.value, words))
        except Refusal as refusal:
            return [refusal.number]
        return [0] if answer is None else [0, answer]

    def is_right(self, line):
        left, _, right = line.partition(" = ")
        asked, *words = left.split()
        found, wanted = self.answer(asked, words), right.split()
        if wanted[-1].startswith(">"):
            self.texts[wanted[-1][1:]] = found[-1]
            return found[0] == 0
        return found == [self.value(word) for word in wanted]


def test_each_call_answers_as_the_cases_say():
    runner, calls = Runner(), 0
    with open(os.path.join(TOP, "bindings", "cases.txt"), encoding="ascii") as file:
        for number, line in enumerate(file, 1):
            if line.startswith("text "):
                _, name, *digits = line.split()
                runner.texts[name] = bytes.fromhex("".join(digits))
            elif line.startswith("zeros "):
                _, name, count = line.split()
                runner.texts[name] = bytes(int(count))
            elif not line.startswith("#"):
                calls += 1
                if not runner.is_right(line):
                    pytest.fail(f"line {number}: another answer")
    assert calls > 100
