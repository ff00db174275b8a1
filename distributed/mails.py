#!/usr/bin/env python3
"""Writes the evidence of a network under `mailbox`, in which node 1 relays: a directory, and a store of what witnesses of all nodes hold.

    mails.py FOLDER [MAILS [NODES]]

FOLDER/nodes is the directory, FOLDER/mails.store the store. Each user in turn leaves a mail for the next, who fetches it. The relay logs a checkpoint
behind each fourth mail, and witnesses hold its log in segments from one to the next, each user's log in one segment, and each statement that was
signed. All follow the program. Keys are of H5 and W4, up to eight a node: at most 64 mails. It shares no code with the crates.
"""

import os
import sys

TOP = os.path.dirname(os.path.dirname(os.path.abspath(__file__)))
sys.path[:0] = [f"{TOP}/checks/reference", f"{TOP}/second_opinion"]
sys.dont_write_bytecode = True

from check import Mailbox
from evidence import statement, store
from nodes import LEAVES, Key, Node, sha256, u8, u32, u64
from stores import spelled_segment

SEND_MAIL, FETCH = 0x88 << 56, 0x80 << 56


class Mailing(Node):
    """A node under `mailbox`, with the entries of its log, the hash before each, and the signatures of those that it signed."""

    program = Mailbox()

    def __init__(self, number, listed, keys):
        self.listed, self.contents, self.signatures, self.held = listed, [], {}, self.program.start
        super().__init__(number, 1)
        self.keys = [self.key, *(Key(number, self.ots_type, at) for at in range(1, keys))]

    def log(self, kind, content):
        self.contents.append((self.next_seq, kind, content, self.end))
        return super().log(kind, content)

    def sign(self, entropy, k):
        self.key = next(key for key in self.keys if key.next_leaf < LEAVES)
        signature = super().sign(entropy, k)
        self.signatures[self.next_seq - 1] = self.end, signature
        return signature

    def wish(self, moment, entropy):
        self.log(4, u64(moment))
        self.held, outputs = self.program.ticked(self.number, self.held, moment)
        return self.send(outputs, entropy, 0)

    def receive(self, message, entropy):
        self.log(3, message.quote())
        self.sign(entropy, 0)
        self.held, outputs = self.program.received(self.number, self.held, message.sender, message.payload)
        return self.send(outputs, entropy, 1)

    def segment(self, first, last):
        """Its log from an entry to the last one up to another that it signed."""
        last = max(seq for seq in self.signatures if seq <= last)
        entries = [it for it in self.contents if first <= it[0] <= last]
        return spelled_segment(self.number, entries[0][3], [it[:3] for it in entries], self.signatures[last][1])


def told(nodes, user, wish, turn):
    """A user wishes something, and all messages go out."""
    going = nodes[user].wish(wish, u32(turn) + u32(user))
    while going:
        message = going.pop(0)
        going += nodes[message.receiver].receive(message, u32(turn) + u32(message.sender) + u64(message.seq))


def main():
    folder, mails, count = sys.argv[1], *(int(word) for word in (sys.argv[2:] + ["64", "16"][len(sys.argv) - 2 :])[:2])
    listed = tuple(range(1, count + 1))
    nodes = {number: Mailing(number, listed, 8 if number == 1 else 1) for number in listed}
    relay, begins = nodes[1], [1]
    for mail in range(mails):
        sender, receiver = 2 + mail % (count - 1), 2 + (mail + 1) % (count - 1)
        told(nodes, sender, SEND_MAIL | receiver, 2 * mail)
        told(nodes, receiver, FETCH, 2 * mail + 1)
        if mail % 4 == 3:
            begins.append(relay.log(5, relay.program.encode(relay.held))[0])
    items = [statement(number, seq, end, signature) for number, node in nodes.items() for seq, (end, signature) in node.signatures.items()]
    items += [relay.segment(first, behind) for first, behind in zip(begins, begins[1:])]
    items += [nodes[number].segment(1, nodes[number].next_seq) for number in listed[1:]]
    os.makedirs(folder, exist_ok=True)
    rows = b"".join(u32(number) + u8(len(node.keys)) + b"".join(key.public() for key in node.keys) for number, node in nodes.items())
    with open(f"{folder}/nodes", "wb") as file:
        file.write(b"PRDIREC2" + u32(count) + rows)
    with open(f"{folder}/mails.store", "wb") as file:
        file.write(store(items))
    print(f"{count} nodes, {mails} mails, {len(set(items))} items")


if __name__ == "__main__":
    main()
