"""Holds what `bulwynef` says of bundles to what second_opinion/check.py says of the same files, and reads by both what `bulwynef bundle` writes."""

import hashlib
import os
import re
import subprocess
import sys
import tempfile

TOP = os.path.dirname(os.path.dirname(os.path.dirname(os.path.abspath(__file__))))
SECOND = [sys.executable, f"{TOP}/second_opinion/check.py"]


def bundle(directory, proof, program="tally", sentence="# a sentence", first="bulwynef bundle 2"):
    lines = [first, sentence, f"program {program}", directory.hex(), proof.hex()]
    return "".join(f"{line}\n" for line in lines).encode()


def files_of(directory, proof):
    """Files, of which most are bundles, by their names."""
    good = bundle(directory, proof)
    two = b"PRDIREC2" + (2).to_bytes(4, "big") + directory[12:246]
    return {
        "nodes": directory,
        "two.proof": proof,
        "two": two,
        "nodes.digits": directory.hex().encode() + b"\n",
        "two.digits": proof.hex().encode() + b"\n",
        "good": good,
        "other": bundle(directory, proof, program="other_1"),
        "relay": bundle(directory, proof, program="relay"),
        "first": bundle(directory, proof, first="bulwynef bundle 3"),
        "older": bundle(directory, proof, first="bulwynef bundle 1"),
        "sentence": bundle(directory, proof, sentence="no sentence"),
        "behind": good + b"# a sentence\n",
        "odd": good.replace(proof.hex().encode(), proof.hex()[1:].encode()),
        "no_directory": bundle(proof, proof),
        "no_proof": bundle(directory, directory),
        "digits_within": bundle(directory.hex().encode() + b"\n", proof),
        "cut_off": good[:-1],
        "short": b"bulw",
    }


# The words of check.py; bulwynef gets the first of two files by --directory
ASKED = """good; nodes good; nodes.digits good; two good; two.proof good; none good; nodes none; none; .; nodes .; --program relay good; --program tally relay; relay
other; --program tally other; --program relay two other; first; older; nodes older; sentence; behind; odd; no_directory; nodes no_directory; no_proof; digits_within; cut_off
--program tally nodes two.proof; --program tally nodes.digits two.digits; --program tally nodes short; --program tally nodes nodes""".replace("\n", "; ").split("; ")


def refusal(error):
    found = re.match(rb"refused (\d+) (\w+)", error)
    return found.groups() if found else error


def words_of(asked):
    flags, files = (asked[:2], asked[2:]) if asked[0] == "--program" else ([], asked)
    return ["check", *flags, *(["--directory", *files] if len(files) == 2 else files)]


def second(folder, asked):
    """What check.py answers."""
    done = subprocess.run([*SECOND, *asked], cwd=folder, stdin=subprocess.DEVNULL, capture_output=True)
    return done.returncode, done.stdout, refusal(done.stderr)


def hold_asked(hold, run, build, folder, asked, **how):
    status, out, error = run([build, *words_of(asked)], cwd=folder, **how)
    found, wanted = (status, out, refusal(error)), second(folder, asked)
    hold(f"check {' '.join(asked)}", found == wanted, (found, wanted))


def hold_made(hold, run, build, folder):
    """A bundle that is made, of bytes and of digits, is read by both; of what convicts nobody none is made."""
    for files in (["nodes", "two.proof"], ["nodes.digits", "two.digits"]):
        made = run([build, "bundle", "--program", "tally", "--directory", *files, "--output", "made"], cwd=folder)
        hold(f"bundle of {files}", made == (0, b"", b""), made)
        with open(f"{folder}/made", "rb") as it:
            text = it.read()
        with open(f"{folder}/good", "rb") as it:
            hold(f"the last lines of the bundle of {files}", text.splitlines()[-3:] == it.read().splitlines()[-3:], text[:2000])
        own = hashlib.sha256(open(build, "rb").read()).hexdigest()
        hold("the sentence about the program", f"\n# Made by the bulwynef whose file has the SHA-256 value {own}\n".encode() in text, text[:2000])
        hold_asked(hold, run, build, folder, ["made"])
        os.remove(f"{folder}/made")
    for words, number in ((["nodes", "nodes"], b"41"), (["two.proof", "two.proof"], b"23"), (["nodes", "none"], b"100"), (["nodes", "good"], b"41")):
        status, out, error = run([build, "bundle", "--program", "tally", "--directory", *words, "--output", "made"], cwd=folder)
        is_so = (status, out, refusal(error)[0]) == (1, b"", number) and not os.path.exists(f"{folder}/made")
        hold(f"bundle of {words}", is_so, (status, error))


def hold_bundles(hold, run, build):
    with open(f"{TOP}/examples/wrong_output.bundle", "rb") as it:
        directory, proof = (bytes.fromhex(line.decode()) for line in it.read().splitlines()[-2:])
    with tempfile.TemporaryDirectory() as folder:
        for name, data in files_of(directory, proof).items():
            with open(f"{folder}/{name}", "wb") as it:
                it.write(data)
        for asked in ASKED:
            hold_asked(hold, run, build, folder, asked.split())
        for asked in ("-", "nodes -"):
            with open(f"{folder}/good", "rb") as one, open(f"{folder}/good", "rb") as other:
                done = subprocess.run([*SECOND, *asked.split()], cwd=folder, stdin=one, capture_output=True)
                found = run([build, *words_of(asked.split())], cwd=folder, stdin=other)
                hold(f"check {asked}", found == (done.returncode, done.stdout, done.stderr), (found, done))
        with open(f"{folder}/two.proof", "rb") as it:
            found = run([build, "check", "--program", "tally", "--directory", "nodes", "-"], cwd=folder, stdin=it)
        told = b"exposes 2\nprogram tally\ndirectory %s\n" % hashlib.sha256(directory).hexdigest().encode()
        hold("a proof of standard input", found == (0, told, b""), found)
        found = run([build, "check", "two.proof"], cwd=folder)
        hold("a proof without a directory", found[:2] == (2, b"") and found[2].startswith(b"error: two.proof is no bundle"), found)
        hold_made(hold, run, build, folder)
