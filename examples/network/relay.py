"""A mail relay: a node of Mailbox in a process of its own, and the faults that it may have.

It writes and leaves mails for the others, sends what waits until it is acknowledged, and hands the statements that it gets to a witness.
What nobody acknowledges it hands to both witnesses as a challenge, who give it the acknowledgement that they get. Relay 1 keeps the mails.

Its node has a journal. One that was killed is the node that it was, sends again what waits, and hands on again the statements that its journal
has.
"""

import asyncio
import hashlib
import json
import os
import random
import sys
import time

import protocol
from bulwynef import KeptNode, Key, Program, Refusal, statement_of, texts_in

KEEPER = 1
TRIES = 3
KEY_SPENT = 36
# How many messages are on their way at once, how many statements are handed on at once, how many steps stand between checkpoints, and how
# many leaves a key keeps back
AT_ONCE, STATEMENTS, STEPS, LEAST_LEAVES = 12, 256, 32, 24


# The moment that fetches mails; the first byte of one that leaves a mail, and what stands below that of one that writes one to seven bytes of it
FETCH, LEAVES, WRITES = 0x80 << 56, 0x88, 0x80


def wishes(text, to):
    """The moments of the timer that write a text and leave it for a node (docs/PROGRAMS.md)."""
    pieces = [text[at : at + 7] for at in range(0, len(text), 7)]
    wanted = [int.from_bytes(bytes([WRITES + len(p)]) + bytes(7 - len(p)) + p, "big") for p in pieces]
    return [*wanted, LEAVES << 56 | to]


# Who has a second node by its key; and of these, who drops mails.
TWOFOLD, DROPS = ("drops", "forks", "mangles"), ("drops", "mangles")


def mangled(ack):
    """An acknowledgement with one bit turned, in the sender's signature."""
    return ack[:80] + bytes([ack[80] ^ 1]) + ack[81:]


class Relay:
    def __init__(self, told):
        self.me, self.told, self.fault = told["me"], told, told["fault"]
        self.ports = {int(node): port for node, port in told["ports"].items()}
        keys = [Key(bytes.fromhex(key_id), bytes.fromhex(seed), *types) for key_id, seed, *types in told["keys"]]
        listed = bytes.fromhex(told["directory"])
        # Who modifies mails runs another program. Who drops them, or tells two histories, has a second node by its key.
        program = Program.RELAY if self.fault == "modifies" else Program.MAILBOX
        journals = [told["journal"], told["journal"] + ".other"][: 1 + (self.fault in TWOFOLD)]
        nodes = [KeptNode(path, program, listed, self.me, keys, may_begin=told["may_begin"]) for path in journals]
        self.node, self.other = nodes[0], nodes[1] if nodes[1:] else None
        self.link = protocol.Link(told)
        self.random = random.Random(told["seed_of_link"] + 1)
        self.mails = self.mail_bytes = self.signatures = self.steps = self.refused = 0
        self.tries, self.due, self.sides, self.statements = {}, {}, {}, {}
        self.began, self.is_over, self.fault_at = time.monotonic() - told["age"], False, None
        self.handed_on = os.open(told["handed_on"], os.O_WRONLY | os.O_CREAT | os.O_APPEND, 0o600)
        for node, path in zip(nodes, journals):
            self.take_up(node, texts_in(path)[1:])
        # Those of the keys are left that no record goes over to.
        self.keys = keys[1 + sum(text[0] == protocol.REKEYED for text in texts_in(journals[0])) :]

    def take_up(self, node, records):
        """Notes what a node's journal says: which node answered which message, the statements that the relay got, and the mails that it left."""
        for record in records:
            if record[0] == protocol.TICKED:
                self.mails += record[33] == LEAVES
                self.mail_bytes += record[33] - WRITES if WRITES < record[33] < LEAVES else 0
            elif record[0] == protocol.RECEIVED:
                message = protocol.received(record)
                self.sides[protocol.Message(message).name] = node
                self.note(statement_of(message))
            elif record[0] == protocol.ACKNOWLEDGED:
                self.note(statement_of(protocol.acknowledged(record, node.message), 1))

    def age(self):
        return time.monotonic() - self.began

    def errs(self):
        """Notes when the first fault happened."""
        self.fault_at = self.fault_at or time.time()
        return True

    def is_silent(self):
        return self.fault == "silent" and self.age() > self.told["seconds"] / 3 and self.errs()

    # ---- what others ask

    def handle(self, kind, body):
        if kind == protocol.END:
            self.is_over = True
            return b""
        if kind == protocol.REPORT:
            return json.dumps(self.report()).encode()
        if kind != protocol.ANSWER or self.is_silent():
            return None
        try:
            return self.answer(body)
        except Refusal:
            self.refused += 1
            return None

    def answer(self, item):
        """The acknowledgement of a message, whose sender's statement goes to a witness; or the segment that an audit asks for."""
        if item[:1] != bytes([protocol.MESSAGE]):
            return self.node.answer(item)
        message = protocol.Message(item)
        node = self.side(message)
        self.renew()
        ack = node.answer(item)
        if message.name not in self.sides:
            self.sides[message.name] = node
            self.signatures += 1
            self.step()
        self.note(statement_of(item))
        return mangled(ack) if self.fault == "mangles" and node is self.other else ack

    def side(self, message):
        """The node that answers. Who drops mails acknowledges them by the other one, whose log nobody is shown; who tells two histories
        tells every second message to the other one."""
        if message.name in self.sides or not self.other:
            return self.sides.get(message.name, self.node)
        is_mail = message.payload[:1] in (b"D", b"M")
        is_odd = len(self.sides) % 2 == 1
        wrong = (is_mail if self.fault in DROPS else is_odd) and self.errs()
        return self.other if wrong else self.node

    def report(self):
        told = {"mails": self.mails, "mail_bytes": self.mail_bytes, "signatures": self.signatures, "refused": self.refused}
        return {**told, "waiting": len(self.node.waiting()), "fault_at": self.fault_at, **self.link.counts()}

    # ---- what it does by itself

    def renew(self):
        """Goes over to the next key before the one in use is spent."""
        if self.keys and self.node.remaining() < LEAST_LEAVES:
            self.node.next_key(self.keys.pop(0))

    def step(self):
        """Logs a checkpoint now and then, so that an audit can begin there."""
        self.steps += 1
        if self.steps % STEPS == 0:
            self.node.checkpoint()

    def note(self, statement):
        """Keeps a statement that is to go to a witness."""
        self.statements[statement] = True

    def wish(self):
        """Ticks the timer for one mail to another node, or for what the keeper holds."""
        if self.fault == "modifies":
            self.errs()
        self.renew()
        if self.random.random() < 0.4:
            self.tick([FETCH])
        else:
            text = f"mail {self.mails} of {self.me}: {'x' * self.random.randrange(100)}".encode()
            self.tick(wishes(text, self.random.choice([node for node in self.ports if node not in (self.me, KEEPER)])))
            self.mails += 1
            self.mail_bytes += len(text)
        self.step()

    def tick(self, moments):
        """Ticks the timer at each moment, by one group of records."""
        for refusal in filter(None, self.node.timer_all(moments)):
            raise refusal

    async def fork(self):
        """Tells the keeper the other history: something else under the numbers that the first one has."""
        self.other.timer(FETCH)
        self.errs()
        for item in [self.other.message(seq) for seq in self.other.waiting()[-1:]]:
            await self.link.ask(self.ports[KEEPER], protocol.ANSWER, item, "messages")

    async def send(self, seq):
        """Sends what waits; and what is not acknowledged goes to the witnesses as a challenge."""
        item = self.node.message(seq)
        receiver = protocol.Message(item).receiver
        if seq not in self.tries:
            self.signatures += 1
        self.tries[seq] = self.tries.get(seq, 0) + 1
        self.due[seq] = self.age() + min(0.2 * 2 ** min(self.tries[seq], 5), 4)
        self.accept(await self.link.ask(self.ports[receiver], protocol.ANSWER, item, "messages"))
        if self.tries[seq] >= TRIES and seq in self.node.waiting():
            for port in self.told["witnesses"]:
                ack = await self.link.ask(port, protocol.CHALLENGE, item, "challenges")
                self.is_handed_on([item] if ack is not None else [])
                self.accept(ack)

    def accept(self, ack):
        """Accepts an acknowledgement, whose statement goes to a witness."""
        if not ack:
            return
        try:
            self.node.accept_ack(ack)
            self.note(statement_of(ack, 1))
        except Refusal:
            self.refused += 1

    async def hand_on(self):
        """Hands the statements that it keeps to a witness, who has those that it says it has, and has refused the others."""
        items = list(self.statements)[:STATEMENTS]
        if not items:
            return
        body = b"".join(map(protocol.with_length, items))
        answer = await self.link.ask(self.random.choice(self.told["witnesses"]), protocol.TAKE, body, "statements")
        if answer is not None:
            self.is_handed_on([item for item, is_taken in zip(items, answer) if is_taken])
            for item in items:
                self.statements.pop(item, None)

    def is_handed_on(self, items):
        """Notes what a witness acknowledged, for whoever tests in the end that nothing of it is missing."""
        os.write(self.handed_on, b"".join(hashlib.sha256(item).digest() for item in items))

    async def turn(self):
        wanted = self.age() / self.told["every"]
        if self.me != KEEPER and self.age() < self.told["seconds"] and self.mails < min(wanted, self.told["most_mails"]):
            try:
                self.wish()
                if self.fault == "forks":
                    await self.fork()
            except Refusal:
                self.refused += 1
        due = [seq for seq in self.node.waiting() if self.due.get(seq, 0) <= self.age()]
        await asyncio.gather(*(self.send(seq) for seq in due[:AT_ONCE]))
        await self.hand_on()

    async def live(self):
        """Works until it is told to end. A node that is closed for good is one more reason to end."""
        while not self.is_over and not self.node.closed_by:
            await self.turn()
            await asyncio.sleep(0.05)


async def main():
    relay = Relay(json.load(sys.stdin))
    async with await protocol.serve(relay.ports[relay.me], relay.handle):
        print("ready", flush=True)
        await asyncio.wait_for(relay.live(), relay.told["seconds"] + 180)
    if relay.node.closed_by:
        raise Refusal(relay.node.closed_by)


if __name__ == "__main__":
    asyncio.run(main())
