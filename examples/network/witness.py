"""A witness: a store of evidence in a process of its own.

It takes the statements that relays hand it, challenges relays in turns to show their logs, hands challenges that nothing answers to their
relays, and exchanges what it has with the other witness by outlines, summaries and packs. Its store has a journal: what it takes is on disk
before it answers anybody, so one that was killed takes up again all that it told.
"""

import asyncio
import json
import sys
import time

import protocol
from bulwynef import Indication, KeptStore, Program, Refusal, audit_challenge, statements_of, texts_in

# How many open challenges of a relay are handed to it in a turn
AT_ONCE = 6


class Witness:
    def __init__(self, told):
        self.told = told
        self.ports = {int(node): port for node, port in told["ports"].items()}
        self.store = KeptStore(told["kept"], Program.MAILBOX, bytes.fromhex(told["directory"]))
        self.link = protocol.Link(told)
        # of each relay: the number and the latest statement that was seen, those up to which its log is here, and when it was exposed
        self.latest, self.shown, self.exposed_at = {}, {}, {}
        # by a message's name, its acknowledgement
        self.acks, self.asked_last, self.taken, self.refused = {}, set(), 0, 0
        self.began, self.is_over, self.turns = time.monotonic() - told["age"], False, 0
        for item in texts_in(told["kept"])[2:]:
            self.taken += 1
            self.notice(item)

    # ---- what others ask

    def handle(self, kind, body):
        """The answer. All that it may come from is on disk."""
        try:
            if kind == protocol.TAKE:
                return self.take_all([*protocol.in_turn(body)])
            if kind == protocol.CHALLENGE:
                self.take(body)
                return self.acks.get(protocol.Message(body).name, b"")
            if kind == protocol.OUTLINE:
                return self.store.outline()
            if kind == protocol.PACK:
                return self.store.pack(body)
            if kind == protocol.REPORT:
                return json.dumps(self.report()).encode()
            if kind == protocol.EXPORT:
                return self.store.export()
        except Refusal:
            self.refused += 1
            return None
        self.is_over = self.is_over or kind == protocol.END
        return b""

    def take_all(self, items):
        """Takes items as one group; what is refused is no evidence, and is dropped. The answer has a byte for each item: 1 if the store has it."""
        told = self.store.take_all(items)
        for item, is_new in zip(items, told):
            if isinstance(is_new, Refusal):
                self.refused += 1
            else:
                self.taken += is_new
                self.notice(item)
        return bytes(not isinstance(is_new, Refusal) for is_new in told)

    def take(self, item):
        """Takes an item, and keeps in mind what it tells."""
        self.taken += self.store.take(item)
        self.notice(item)

    def notice(self, item):
        for statement in statements_of(item):
            node, seq = protocol.whose(statement)
            if node in self.ports and seq > self.latest.get(node, (0, b""))[0]:
                self.latest[node] = seq, statement
        if item[0] == protocol.ACK:
            self.acks[protocol.Message(item).name] = item

    def report(self):
        said = {node: self.store.indication(node).name.lower() for node in self.ports}
        proofs = {node: self.store.proof(node).hex() for node in self.ports if said[node] == "exposed"}
        told = {"said": said, "proofs": proofs, "exposed_at": self.exposed_at, "taken": self.taken, "refused": self.refused}
        return {**told, **self.link.counts()}

    # ---- what it does by itself

    def audit(self, node):
        """Challenges a relay to show its log from where it was shown last up to the latest statement of its that was seen; not before it
        answered what was asked of it. Whether it did."""
        last, first = self.latest.get(node), self.shown.get(node)
        if self.store.challenges(node):
            return False
        if last and (first is None or first[0] < last[0]):
            self.take(audit_challenge(last[1], first[1] if first else None))
        return True

    async def settle(self, node):
        """Hands open challenges of a relay to it, and takes its answers."""
        for challenge in self.store.challenges(node)[:AT_ONCE]:
            answer = await self.link.ask(self.ports[node], protocol.ANSWER, challenge, "audits", 10.0)
            if not answer:
                continue
            try:
                self.take(answer)
                if challenge[0] == protocol.AUDIT and answer[0] == protocol.SEGMENT:
                    last = statements_of(challenge)[-1]
                    self.shown[node] = protocol.whose(last)[1], last
            except Refusal:
                self.refused += 1

    async def exchange(self):
        """Asks the other witness for what is not here."""
        outline = await self.link.ask(self.told["other"], protocol.OUTLINE, b"", "exchange", 10.0)
        if outline:
            pack = await self.link.ask(self.told["other"], protocol.PACK, self.store.summary(outline), "exchange", 10.0)
            if pack:
                try:
                    self.taken += self.store.apply(pack)
                except Refusal:
                    self.refused += 1

    def note(self):
        for node in self.ports:
            if node not in self.exposed_at and self.store.indication(node) is Indication.EXPOSED:
                self.exposed_at[node] = time.time()

    def audit_in_turn(self):
        """Audits one relay after the other; and each once more when the time is over."""
        nodes = sorted(self.ports)
        if time.monotonic() - self.began < self.told["seconds"]:
            self.audit(nodes[self.turns % len(nodes)])
        else:
            self.asked_last.update(node for node in nodes if node not in self.asked_last and self.audit(node))

    async def live(self):
        """Works until it is told to end. A store that its disk has failed for good is one more reason to end."""
        while not self.is_over and not self.store.closed_by:
            self.turns += 1
            self.audit_in_turn()
            await asyncio.gather(*(self.settle(node) for node in self.ports))
            if self.turns % 4 == 0:
                await self.exchange()
            self.note()
            await asyncio.sleep(0.25)


async def main():
    witness = Witness(json.load(sys.stdin))
    async with await protocol.serve(witness.told["port"], witness.handle):
        print("ready", flush=True)
        await asyncio.wait_for(witness.live(), witness.told["seconds"] + 180)
    if witness.store.closed_by:
        raise Refusal(witness.store.closed_by)


if __name__ == "__main__":
    asyncio.run(main())
