#!/usr/bin/env python3
"""Holds both builds of `judge` to the second opinion: on proofs of all three forms, on each of them cut off or with a byte changed, under each
program and other directories. It also tries words, files and devices.

Ends with 1 if an answer differs, and if there were fewer cases than LEAST.
"""

import itertools
import os
import random
import subprocess
import sys
import tempfile

sys.dont_write_bytecode = True

TOP = os.path.dirname(os.path.dirname(os.path.dirname(os.path.abspath(__file__))))
sys.path[:0] = [f"{TOP}/second_opinion", f"{TOP}/checks"]

import check
import stored
from builds import builds_of

LEAST = 250
CHANGES = 60


def opinion(program, directory, proof):
    """What the second opinion says of a proof: an answer, or a refusal without its place."""
    try:
        return f"exposes {check.of_proof(program, ('directory', directory), ('proof', proof))[0]}\n"
    except check.Refused as refused:
        return str(refused).split(":")[0] + "\n"


def mail():
    """The directory and the proof that the crate has for its own run."""
    texts = []
    for name in ("nodes.dir", "lost_mail.proof"):
        with open(f"{TOP}/crates/judge/data/{name}", "rb") as file:
            texts.append(file.read())
    return texts


def proofs():
    """Proofs of each form, whether they convict or not, with a directory each."""
    directory, proof = mail()
    yield "mailbox", directory, proof
    for vector in stored.vectors():
        if vector.kind == "store":
            items = stored.items_in(*vector.words[:2])
            segments = [item for item in items if item[:1] == b"\x02"][:2]
            said = [item for item in items if item[:1] == b"\x01"][:3]
            yield from (("tally", vector.directory, stored.proof_of(3, segment)) for segment in segments)
            yield from (("tally", vector.directory, stored.proof_of(1, *pair)) for pair in itertools.combinations(said, 2))
            yield from (("relay", vector.directory, stored.proof_of(2, one, segment)) for one in said for segment in segments)


def changed(text, draw):
    """The text cut off, with a byte more, or with a byte changed."""
    at = draw.randrange(len(text))
    return draw.choice([text[:at], text + b"\0", text[:at] + bytes([text[at] ^ 1 << draw.randrange(8)]) + text[at + 1 :]])


def texts():
    """What is judged: a program, a directory and a proof."""
    draw, found = random.Random(7), list(dict.fromkeys(proofs()))
    for program, directory, proof in found:
        yield program, directory, proof
        yield draw.choice(sorted(check.PROGRAMS)), directory, proof
    for _ in range(CHANGES):
        program, directory, proof = draw.choice(found)
        yield program, directory, changed(proof, draw)
        yield program, changed(directory, draw), proof
    yield from (("tally", text, b"") for text in (b"", b"PRDIR"))


def judged(build, words, stdout=subprocess.PIPE):
    done = subprocess.run([build, *words], stdin=subprocess.DEVNULL, stdout=stdout, stderr=subprocess.PIPE)
    return done.returncode, (done.stdout or b"").decode(), done.stderr.decode()


def on_texts(build, room):
    """How many texts were judged, and those of which the build says something else than the second opinion."""
    count, others = 0, []
    names = [f"{room}/directory", f"{room}/proof"]
    for program, *pair in texts():
        for name, text in zip(names, pair):
            with open(name, "wb") as file:
                file.write(text)
        wanted = opinion(program, *pair)
        got = judged(build, [program, *names])
        count += 1
        if got != ((0, wanted, "") if wanted.startswith("exposes") else (1, "", wanted)):
            others.append(f"text {count}: {got}, and not {wanted!r}")
    return count, others


def on_words(build, room):
    """What other words and devices are answered."""
    directory, proof = (f"{TOP}/crates/judge/data/{name}" for name in ("nodes.dir", "lost_mail.proof"))
    for words in ([], ["mailbox"], ["mailbox", directory], ["mailbox", directory, proof, proof], ["mail", directory, proof], ["Mailbox", directory, proof]):
        status, out, beside = judged(build, words)
        if (status, out) != (2, "") or not beside.startswith("usage: judge PROGRAM DIRECTORY PROOF"):
            yield f"{words}: {status}, {out!r}, {beside!r}"
    for names in ([f"{room}/none", proof], [directory, f"{room}/none"], [room, proof]):
        if judged(build, ["mailbox", *names]) != (1, "", "refused 100 ReadFailed\n"):
            yield f"{names}: {judged(build, ['mailbox', *names])}"
    with open("/dev/full", "wb") as full:
        if judged(build, ["mailbox", directory, proof], full) != (1, "", "refused 102 WriteFailed\n"):
            yield "a full device"


def main():
    failed = False
    for build in builds_of("judge"):
        with tempfile.TemporaryDirectory() as room:
            count, others = on_texts(build, room)
            others += on_words(build, room)
        for other in others[:20]:
            print(f"{os.path.basename(build)}: {other}")
        print(f"{os.path.basename(build)}: {count} proofs judged as the second opinion judges them; {len(others)} otherwise")
        failed |= bool(others) or count < LEAST
    return 1 if failed else 0


if __name__ == "__main__":
    sys.exit(main())
