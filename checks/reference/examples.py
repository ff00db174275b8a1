#!/usr/bin/env python3
"""Holds the files of bytes in examples/ to the lines of digits there: each file is the bytes of one line; and what pages say that `explain`
and `check.py` write to what is stored in examples/explained.

    checks/reference/examples.py [write]

The first line of a text is its directory, `nodes.dir` if it is that of most texts, else `NAME.dir`. The others are its stores:
`NAME.store`, or `NAME.1.store`, `NAME.2.store` and so on. `NAME.proof` is the proof of `NAME.bundle`. With `write` the files are made anew.

`lost_mail.store` has no text: it is the store of the scene `dropped_mail` that crates/mailbox_tour writes, under the directory `nodes.dir`.
What `explain` writes of it is stored in checks/explained/cases.txt, below the program and the digests.
"""

import hashlib
import re
import sys
from collections import Counter
from pathlib import Path

TOP = Path(__file__).resolve().parents[2]
EXAMPLES = TOP / "examples"
PAGES = ["README.md", "examples/README.md", "docs/OPERATORS.md"]
MADE = {".dir", ".store", ".proof"}
MAILS = TOP / "crates" / "mailbox_tour" / "stdout"
CASES = TOP / "checks" / "explained" / "cases.txt"


def texts():
    """Each text's name, and its lines as bytes."""
    for path in sorted(EXAMPLES.glob("*.txt")):
        if path.stem != "scenario":
            yield path.stem, [bytes.fromhex(line) for line in path.read_text().splitlines()]


def lost_mail():
    """The directory and the store of the relay that lost a mail."""
    scene = MAILS.read_text().split("== dropped_mail\n")[1].split("\n--")[0]
    return [bytes.fromhex(line) for line in scene.split()]


def told_of_lost_mail():
    """What `explain` writes of it."""
    directory, store = [" ".join(re.findall("....", hashlib.sha256(data).hexdigest())) for data in lost_mail()]
    case = CASES.read_text(encoding="utf-8").split("\n== a dropped mail\n")[1].split("\n== ")[0].strip("\n")
    return f"Program: Mailbox\nSHA-256 of the directory: {directory}\nSHA-256 of the store: {store}\n{case}\n"


def wanted():
    """Each file's name, and its bytes."""
    common = Counter(lines[0] for _, lines in texts()).most_common(1)[0][0]
    directory, store = lost_mail()
    files = {"nodes.dir": common, "lost_mail.store": store}
    if directory != common:
        files["lost_mail.dir"] = directory
    for name, (directory, *stores) in texts():
        if directory != common:
            files[f"{name}.dir"] = directory
        for number, store in enumerate(stores, 1):
            files[f"{name}.store" if len(stores) == 1 else f"{name}.{number}.store"] = store
    for path in sorted(EXAMPLES.glob("*.bundle")):
        files[f"{path.stem}.proof"] = bytes.fromhex(path.read_text().splitlines()[-1])
    return files


def name_of(words, proved):
    """The name of what these words ask of: the one store that they name, or the proof that the page makes; none where they name neither."""
    stores = re.findall(r"(\w+)\.store\b", words)
    proofs = [proved[proof] for proof in re.findall(r"\S+\.proof\b", words) if proof in proved]
    return (stores + proofs)[0] if len(stores + proofs) == 1 else None


def told_otherwise():
    """What pages say that `explain` writes, where none of the stored answers is so."""
    stored = {path.stem: path.read_text() for path in (EXAMPLES / "explained").glob("*.txt")} | {"lost_mail": told_of_lost_mail()}
    for page in PAGES:
        text = (TOP / page).read_text()
        proved = {proof: f"{store}.proof{node}" for proof, node, store in re.findall(r"--output (\S+\.proof) (\d+) (\w+)\.store", text)}
        told = re.findall(r"^    \$ .*\bexplain (.*)\n((?:    [^$].*\n)+)", text, re.M)
        texts = [(name_of(words, proved), re.sub(r"^    ", "", said, flags=re.M)) for words, said in told]
        for name, said in texts:
            if said not in ([stored[name]] if name in stored else stored.values()):
                yield f"{page}: explain writes otherwise: {name or said.splitlines()[0]} .."
        if not texts:
            yield f"{page}: tells nothing of what explain writes"
        for name, said in re.findall(r"^    \$ python3 \S*check\.py .*\b(\w+)\.store\n((?:    \d.*\n)+)", text, re.M):
            if re.findall(r"\d+ [a-z]+", said) != re.findall(r"^\d+ [a-z]+", "\n".join(stored[name].split("\n")[4:]), re.M):
                yield f"{page}: check.py answers otherwise: {name}"


def main():
    faults = list(told_otherwise())
    files = wanted()
    there = {path.name: path for path in EXAMPLES.iterdir() if path.suffix in MADE}
    if sys.argv[1:] == ["write"]:
        for path in there.values():
            path.unlink()
        for name, data in files.items():
            (EXAMPLES / name).write_bytes(data)
        there = {name: EXAMPLES / name for name in files}
    wrong = sorted(name for name in files.keys() | there.keys() if name not in there or files.get(name) != there[name].read_bytes())
    for name in wrong:
        print(f"examples/{name}: is not the bytes of its line: write it anew by the word `write`")
    print(*faults, sep="\n", end="\n" if faults else "")
    if not wrong and not faults:
        print(f"{len(files)} files of examples/ are the bytes of their lines, and {len(PAGES)} pages tell of explain what is stored")
    return 1 if wrong or faults else 0


if __name__ == "__main__":
    sys.exit(main())
