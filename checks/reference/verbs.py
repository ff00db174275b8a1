#!/usr/bin/env python3
"""Writes the verbs of scripts with what their comments say, from the crates probe_*, into checks/calls/README.md, and ends with status 1 if that page
has others. With the word `write` it writes them anew.

It ends with status 1 too if a verb has no comment that begins with it, or no line in a script of crates/probe/data; and if a refusal of a crate that has
verbs comes in no script. `Memory` (99) comes where growths are refused.
"""

import re
import sys

sys.dont_write_bytecode = True

from words import TOP, Part

COMMENT = re.compile(r"(?:^/// .*\n)+(?=pub fn)", re.M)
VERB = re.compile(r"`([a-z_]+)[` ]")
REFUSING = ["lms_sign/src/key.rt", "lms_sign/src/secret_key.rt", "authenticators/src/fault.rt", "commitment/src/fault.rt"]
REFUSAL = re.compile(r"^ +\w+Fault::(\w+) => (\d+),$", re.M)
ARM = re.compile(r'^ +"(\w+)" => \w+::\w+\(self, words\)', re.M)


def texts(pattern):
    return {path: path.read_text(encoding="utf-8") for path in sorted(TOP.glob(pattern))}


def told_of(sources):
    """What the comments say, by verb."""
    told = {}
    for text in sources.values():
        for comment in COMMENT.findall(text):
            words = " ".join(line[4:] for line in comment.splitlines())
            found = VERB.match(words)
            if found:
                told[found[1]] = words
    return told


def refusals():
    """The refusals of the crates that have verbs, as scripts write them."""
    for name in REFUSING:
        for word, number in REFUSAL.findall((TOP / "crates" / name).read_text(encoding="utf-8")):
            if word != "Memory":
                yield f"refused {number} {word}"


def main():
    sources = texts("crates/probe_*/src/*.rt")
    scripts = "\n".join(texts("crates/probe/data/*.txt").values())
    said = {line.split()[0] for line in scripts.splitlines() if line.strip()}
    told, faults = told_of(sources), 0
    verbs = [(path, verb) for path, text in sources.items() for verb in ARM.findall(text)]
    for path, verb in verbs:
        for lacking in [word for word, there in (("comment", verb in told), ("line in a script", verb in said)) if not there]:
            print(f"{path.relative_to(TOP)}: {verb} has no {lacking}")
            faults += 1
    wanted = set(refusals())
    for refusal in sorted(wanted - set(re.findall(r"=> (refused \d+ \w+)", scripts))):
        print(f"{refusal} comes in no script")
        faults += 1
    table = "".join(f"- {words}\n" for verb, words in told.items() if verb in {verb for _, verb in verbs})
    if not Part("checks/calls/README.md", "checks/reference/verbs.py").held_to(table, "write" in sys.argv[1:]):
        faults += 1
    print(f"{len(verbs)} verbs, {len(wanted)} refusals, {faults} faults")
    sys.exit(1 if faults else 0)


if __name__ == "__main__":
    main()
