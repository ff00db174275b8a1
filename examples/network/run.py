#!/usr/bin/env python3
"""A network that runs: five mail relays and two witnesses, each a process of its own, over TCP on loopback.

    run.py [--seconds N] [--faults drops=2,modifies=3,forks=4,silent=5] [--epochs N] [--kill P] [--keep FOLDER]
           [--lose P] [--repeat P] [--reorder P] [--delay S] [--seed N] [--mails N] [--w 4]

Faults: `drops` acknowledges mails and goes on as if they had not come, `mangles` does so with a bit turned in each such acknowledgement,
`modifies` sends something else on, `forks` tells two histories, and `silent` answers nothing from a third of the time on, though it goes on
to send; `--faults ""` has none. Each epoch has a directory and fresh nodes of its own. At the end of each epoch both witnesses must export the
same bytes; each faulty relay must be exposed, or suspected where it mangles or is silent, and each other one trusted; and each proof must
convince processes that have the directory and the proof alone: the library, second_opinion/check.py and, where it is built, `bulwynef check`.

With --kill P, four times a second and with this chance, one of the processes is killed by SIGKILL and begun again. Then a faulty relay may be
exposed or suspected, whatever its fault is. No witness may say less than before, nothing that was acknowledged may be missing in the end, and
no leaf of a relay that has one node may have signed two texts: all statements are looked at that stand in stores and journals.

Ends with 1 where something is not so. --keep leaves of each epoch the directory and the export as `mailbox_sim status` reads them, what is
explained of them and, where bulwynef is built, its page. Needs the package of python/ (BULWYNEF_LIBRARY may name the shared library).
"""

import argparse
import asyncio
import hashlib
import json
import os
import random
import socket
import subprocess
import sys
import tempfile
import time
from collections import Counter

HERE = os.path.dirname(os.path.abspath(__file__))
TOP = os.path.dirname(os.path.dirname(HERE))
try:
    import bulwynef
except ImportError:
    sys.path.insert(0, os.path.join(TOP, "python", "src"))
sys.path.insert(0, HERE)

import afterwards
import protocol
from bulwynef import Key, Program, Store, directory, texts_in
from places import Place, environment

RELAYS, WITNESSES, KEEPER = range(1, 6), 2, 1
MOST_SECONDS, TICK = 1800, 0.25
# Who has a second node by its key, so that its leaves sign two texts by intent
TWOFOLD = ("drops", "forks", "mangles")
WANTED = {"drops": "exposed", "mangles": "suspected", "modifies": "exposed", "forks": "exposed", "silent": "suspected"}
H10, TYPES_OF_W = 6, {1: 1, 2: 2, 4: 3, 8: 4}
# The keeper signs some four times for a mail, and a key of H10 signs 1,024 times.
KEYS = {KEEPER: 4}
CHECK = """
import sys
from bulwynef import Program, check_proof
listed, proof = (bytes.fromhex(open(path).read()) for path in sys.argv[1:])
print("exposes", check_proof(listed, proof, Program.MAILBOX))
"""
BULWYNEF = os.path.join(TOP, "crates", "bulwynef", "out", "bulwynef")


def free_ports(count):
    """Ports that nobody listens to now."""
    sockets = [socket.socket() for _ in range(count)]
    for it in sockets:
        it.bind((protocol.HOST, 0))
    ports = [it.getsockname()[1] for it in sockets]
    for it in sockets:
        it.close()
    return ports


async def said_by(words):
    """What a process writes."""
    process = await asyncio.create_subprocess_exec(*words, stdout=asyncio.subprocess.PIPE, env=environment())
    said, _ = await process.communicate()
    return said.decode().strip()


def checkers(listed, proof):
    """The commands that tell whom a proof convicts; the files have the directory and the proof, each in a line of digits."""
    second = os.path.join(TOP, "second_opinion", "check.py")
    found = [[sys.executable, "-c", CHECK, listed, proof], [sys.executable, second, "--program", "mailbox", listed, proof]]
    return found + [[BULWYNEF, "check", "--program", "mailbox", "--directory", listed, proof]] * os.path.exists(BULWYNEF)


class Epoch:
    """One directory, fresh relays, and the witnesses' evidence of them."""

    def __init__(self, words, number, folder):
        self.words, self.number, self.folder = words, number, folder
        self.keys = {node: [Key.new(H10, TYPES_OF_W[words.w]) for _ in range(KEYS.get(node, 1))] for node in RELAYS}
        self.listed = directory({node: [key.public() for key in keys] for node, keys in self.keys.items()})
        ports = free_ports(len(RELAYS) + WITNESSES)
        self.relay_ports, self.witness_ports = dict(zip(RELAYS, ports)), ports[len(RELAYS) :]
        self.relays = {node: Place("relay.py", self.told(node) | self.told_relay(node)) for node in RELAYS}
        self.witnesses = [Place("witness.py", self.told(10 + which) | self.told_witness(which)) for which in range(WITNESSES)]
        self.places, self.wrong, self.began = [*self.witnesses, *self.relays.values()], [], time.monotonic()
        # what each witness said: how many items it has, and whom it exposes
        self.before = [(0, set())] * WITNESSES

    # ---- processes

    def path(self, what):
        return os.path.join(self.folder, f"epoch{self.number}.{what}")

    def told(self, who):
        """What each process is told."""
        words = self.words
        told = {word: getattr(words, word) for word in ("lose", "repeat", "reorder", "delay", "seconds")}
        return {**told, "seed_of_link": words.seed * 1000 + self.number * 100 + who, "directory": self.listed.hex(), "ports": self.relay_ports}

    def told_relay(self, node):
        senders = len(RELAYS) - 1
        keys = [(key.key_id.hex(), key.seed.hex(), key.lms_type, key.ots_type) for key in self.keys[node]]
        told = {"me": node, "keys": keys, "witnesses": self.witness_ports, "fault": self.words.faults.get(node)}
        told |= {"journal": self.path(f"relay{node}"), "handed_on": self.path(f"relay{node}.handed_on")}
        return told | {"most_mails": self.words.mails // senders, "every": max(0.2, self.words.seconds * senders / self.words.mails)}

    def told_witness(self, which):
        return {"port": self.witness_ports[which], "other": self.witness_ports[1 - which], "kept": self.path(f"witness{which}")}

    def age(self):
        return time.monotonic() - self.began

    async def kill_some(self):
        """Kills one process or another at times, and begins it again; until each is up when the time is over."""
        chance, begun = random.Random(self.words.seed * 1000 + self.number), []
        try:
            while self.age() < self.words.seconds:
                await asyncio.sleep(TICK)
                up = [place for place in self.places if place.is_up]
                if up and chance.random() < self.words.kill:
                    begun.append(asyncio.create_task(chance.choice(up).kill_and_start(self.age, chance)))
            await asyncio.gather(*begun)
        finally:
            for task in begun:
                task.cancel()
            await asyncio.gather(*begun, return_exceptions=True)

    async def end(self):
        for port in [*self.relay_ports.values(), *self.witness_ports]:
            await protocol.asked(port, protocol.END, wait=3)
        for place in self.places:
            await place.end()

    # ---- what is said

    async def report(self, port):
        reply = await protocol.asked(port, protocol.REPORT, wait=20)
        return json.loads(reply) if reply else None

    async def reports(self, ports):
        return await asyncio.gather(*(self.report(port) for port in ports))

    async def live(self):
        """Both witnesses and all relays at work, with a line every other second."""
        await asyncio.gather(*(place.start(self.age()) for place in self.places))
        self.began = time.monotonic()
        kills = asyncio.create_task(self.kill_some())
        try:
            while self.age() < self.words.seconds:
                await asyncio.sleep(2)
                await self.tell()
            await kills
        finally:
            kills.cancel()
            await asyncio.gather(kills, return_exceptions=True)

    async def tell(self):
        reports = await self.reports([*self.witness_ports, *self.relay_ports.values()])
        witnesses, relays = reports[:WITNESSES], reports[WITNESSES:]
        self.compare(witnesses)
        self.wrong += [f"{place.script} has ended by itself" for place in self.places if place.has_failed()]
        told = next(filter(None, reversed(witnesses)), None)
        if told:
            mails = sum(it["mails"] for it in relays if it)
            said = "  ".join(f"{node} {what}" for node, what in told["said"].items())
            print(f"epoch {self.number} {self.age():5.0f} s {mails:5} mails {told['taken']:6} items   {said}", flush=True)

    def compare(self, witnesses):
        """Notes a witness that says less than before."""
        for which, told in enumerate(witnesses):
            if told:
                taken, exposed = self.before[which]
                self.before[which] = told["taken"], set(told["proofs"])
                if told["taken"] < taken or exposed - set(told["proofs"]):
                    self.wrong.append(f"witness {which} has lost what it told")

    async def settled(self):
        """The reports and exports of both witnesses, once these are equal and say what they should; or the last ones, after a while."""
        until, found = time.monotonic() + 90, ([None], [None])
        while time.monotonic() < until:
            reports = await self.reports(self.witness_ports)
            exports = await asyncio.gather(*(protocol.asked(port, protocol.EXPORT, wait=20) for port in self.witness_ports))
            found = reports, exports
            self.compare(reports)
            if all(reports) and exports[0] and exports[0] == exports[1] and not self.differs(reports[0]):
                return found
            await asyncio.sleep(1)
        return found

    def differs(self, report):
        """Those of whom something else is said than what they did. Where processes are killed a faulty relay may be exposed or suspected."""
        wanted = {str(node): {WANTED.get(self.words.faults.get(node), "trusted")} for node in RELAYS}
        if self.words.kill:
            wanted = {node: it if it == {"trusted"} else {"exposed", "suspected"} for node, it in wanted.items()}
        return [f"{node} is {report['said'][node]}, and not {' or '.join(it)}" for node, it in wanted.items() if report["said"][node] not in it]

    async def judge(self, reports, exports):
        """What is not as it should be after the epoch."""
        if not all(reports) or not all(exports):
            return ["a witness does not answer"]
        wrong = [] if exports[0] == exports[1] else ["the witnesses export other bytes"]
        proofs = {(node, proof) for report in reports for node, proof in report["proofs"].items()}
        files = [self.path(kind) for kind in ("directory", "proof")]
        for node, proof in proofs:
            for path, digits in zip(files, (self.listed.hex(), proof)):
                with open(path, "w", encoding="ascii") as file:
                    file.write(digits + "\n")
            said = [await said_by(words) for words in checkers(*files)]
            wrong += [f"the proof against {node} does not convince: {said}"] * any(it.split("\n")[0] != f"exposes {node}" for it in said)
        print(f"epoch {self.number}: {len(proofs)} proofs were checked by {len(checkers(*files))} other processes each", flush=True)
        return [each for report in reports for each in self.differs(report)] + wrong + self.wrong

    def look_back(self):
        """What is wrong in the journals of witnesses and relays, once all processes have ended."""
        relays, kept = [self.ended(node) for node in RELAYS], [texts_in(place.told["kept"])[2:] for place in self.witnesses]
        taken = list(dict.fromkeys(item for items in kept for item in items))
        single = [relay for relay in relays if self.words.faults.get(relay.number) not in TWOFOLD]
        lost = list(afterwards.missing(relays, taken))
        wrong, count = afterwards.broken(single, taken)
        kills, items = sum(place.kills for place in self.places), sum(len(relay.handed_on) for relay in relays)
        acks = sum(len(relay.acknowledged()) for relay in relays)
        print(f"epoch {self.number}: {kills} times a process was killed and begun again")
        print(f"epoch {self.number}: {items} items and {acks} messages were acknowledged, of which {len(lost) or 'none'} is missing")
        print(f"epoch {self.number}: {count} leaves of {len(single)} relays signed, {len(wrong) or 'none'} of them two texts", flush=True)
        return lost + wrong

    def ended(self, node):
        """A relay as it left its files."""
        told, fault = self.relays[node].told, self.words.faults.get(node)
        journals = [told["journal"], told["journal"] + ".other"][: 1 + (fault in TWOFOLD)]
        return afterwards.Relay(node, self.listed, self.keys[node], journals, told["handed_on"], fault == "modifies")

    def sum_up(self, reports, relays):
        """What went over the network, and when faults were exposed; of a process that was killed what it knows since then."""
        every = [it for it in [*reports, *relays] if it]
        mails, plain, signed = (sum(it[what] for it in relays if it) for what in ("mails", "mail_bytes", "signatures"))
        frames, lost = (sum(it[what] for it in every) for what in ("frames", "lost"))
        for_what = sum((Counter(it["bytes"]) for it in every), Counter())
        per_mail = ", ".join(f"{what} {count // max(mails, 1)}" for what, count in sorted(for_what.items()))
        print(f"epoch {self.number}: {mails} mails, {mails / self.words.seconds:.1f} a second, {plain // max(mails, 1)} bytes a mail")
        print(f"epoch {self.number}: {frames} frames, {lost} lost; {signed / max(mails, 1):.1f} signatures a mail; bytes a mail: {per_mail}")
        for node, told in zip(self.relay_ports, relays):
            seen = [report["exposed_at"][str(node)] for report in reports if report and str(node) in report["exposed_at"]]
            if told and told["fault_at"] and seen and not self.relays[node].kills:
                print(f"epoch {self.number}: {node} {self.words.faults.get(node)}: exposed {min(seen) - told['fault_at']:.1f} s after its fault")

    def keep(self, export):
        path = os.path.join(self.words.keep, f"epoch{self.number}")
        with open(f"{path}.txt", "w", encoding="ascii") as file:
            file.write(f"{self.listed.hex()}\n{export.hex()}\n")
        with open(f"{path}.explained.txt", "w", encoding="utf-8") as file, Store(self.listed, Program.MAILBOX) as store:
            store.load(export)
            file.write(store.explain())
        print(f"epoch {self.number}: {path}.txt, sha256 of the export {hashlib.sha256(export).hexdigest()}; why: {path}.explained.txt")
        if os.path.exists(BULWYNEF) and draw(f"{path}.txt", f"{path}.html"):
            print(f"epoch {self.number}: its page: {path}.html")

    async def run(self):
        try:
            await self.live()
            reports, exports = await self.settled()
            relays = await self.reports(self.relay_ports.values())
            wrong = await self.judge(reports, exports)
        finally:
            await self.end()
        if self.words.kill:
            wrong += self.look_back()
        self.sum_up(reports, relays)
        if self.words.keep and exports[0]:
            self.keep(exports[0])
        for each in wrong:
            print(f"epoch {self.number}: {each}")
        return not wrong


def draw(lines, page):
    """Whether the page of the two lines of a file was written: bulwynef ends with 3 where somebody is exposed."""
    with open(lines, encoding="ascii") as file:
        files = [f"{lines}.{kind}" for kind in ("directory", "store")]
        for path, line in zip(files, file):
            with open(path, "wb") as made:
                made.write(bytes.fromhex(line))
    listed, store = files
    ran = subprocess.run([BULWYNEF, "explain", "--program", "mailbox", "--directory", listed, "--html", page, store])
    return ran.returncode in (0, 3)


def faults_of(text):
    try:
        faults = {int(node): fault for fault, node in (it.split("=") for it in text.split(",") if it)}
    except ValueError:
        faults = {0: text}
    if any(fault not in WANTED or node not in RELAYS for node, fault in faults.items()):
        raise argparse.ArgumentTypeError(f"a fault is one of {', '.join(WANTED)}, and a relay one of 1 to 5, as drops=3,silent=5")
    return faults


def words_of():
    parser = argparse.ArgumentParser(description=__doc__, formatter_class=argparse.RawDescriptionHelpFormatter)
    parser.add_argument("--seconds", type=float, default=60)
    for word, usual in (("lose", 0.05), ("repeat", 0.05), ("reorder", 0.05), ("delay", 0.05)):
        parser.add_argument(f"--{word}", type=float, default=usual)
    parser.add_argument("--seed", type=int, default=1)
    parser.add_argument("--faults", type=faults_of, default="drops=2,modifies=3,forks=4,silent=5")
    parser.add_argument("--epochs", type=int, default=1)
    parser.add_argument("--kill", type=float, default=0, metavar="P", help="the chance that a process is killed, each quarter of a second")
    parser.add_argument("--keep")
    parser.add_argument("--mails", type=int, default=400, help="at most so many mails an epoch")
    parser.add_argument("--w", type=int, default=8, choices=TYPES_OF_W, help="the width of the one-time signatures")
    words = parser.parse_args()
    words.seconds = min(words.seconds, MOST_SECONDS)
    return words


async def main():
    words, good = words_of(), True
    with tempfile.TemporaryDirectory(prefix="bulwynef-network-") as folder:
        for number in range(1, words.epochs + 1):
            good = await Epoch(words, number, folder).run() and good
    print("as it should be" if good else "not as it should be")
    return 0 if good else 1


if __name__ == "__main__":
    sys.exit(asyncio.run(main()))
