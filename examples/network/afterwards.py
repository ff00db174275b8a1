"""What is asked of stores and journals once all processes have ended: whether anything that was acknowledged is missing, and whether any leaf
signed two texts."""

import hashlib

import leaves
import protocol
from bulwynef import KeptNode, Program, texts_in


class Relay:
    """A relay as its journals have it."""

    def __init__(self, number, listed, keys, journals, handed_on, is_other_program=False):
        self.number, self.listed, self.keys, self.journals = number, listed, keys, journals
        self.program = Program.RELAY if is_other_program else Program.MAILBOX
        self.records = {path: texts_in(path)[1:] for path in journals}
        with open(handed_on, "rb") as file:
            told = file.read()
        self.handed_on = {told[at : at + 32] for at in range(0, len(told), 32)}

    def received(self):
        """The sender and the number of each message that its journals have."""
        messages = (protocol.received(it) for records in self.records.values() for it in records if it[0] == protocol.RECEIVED)
        return {message[1:5] + message[9:17] for message in messages}

    def acknowledged(self):
        """The receiver and the number of each message whose acknowledgement its journals have."""
        records = (it for records in self.records.values() for it in records if it[0] == protocol.ACKNOWLEDGED)
        return {(int.from_bytes(it[1:5], "big"), self.number.to_bytes(4, "big") + it[5:13]) for it in records}

    def rebuilt(self):
        """Its node, of the first of its journals."""
        return KeptNode(self.journals[0], self.program, self.listed, self.number, self.keys)


def missing(relays, items):
    """What was acknowledged and is not there; the items are those of the witnesses' journals."""
    there = {hashlib.sha256(item).digest() for item in items}
    received = {relay.number: relay.received() for relay in relays}
    for relay in relays:
        if relay.handed_on - there:
            yield f"{len(relay.handed_on - there)} items that witnesses acknowledged to relay {relay.number} are missing"
        lost = [receiver for receiver, name in relay.acknowledged() if name not in received[receiver]]
        if lost:
            yield f"{len(lost)} messages of relay {relay.number} are missing that {sorted(set(lost))} acknowledged"


def broken(relays, items):
    """What is wrong with the leaves of relays that have one node each; and how many leaves were looked at."""
    statements, wrong = list(leaves.statements_in_store(items, relays[0].listed, Program.MAILBOX)), []
    numbers = {relay.number for relay in relays}
    for relay in relays:
        with relay.rebuilt() as node:
            for records in relay.records.values():
                statements += leaves.statements_of_node(records, node)
                statements += leaves.statements_in_journal(records, node)
            if not node.is_safe_to_resume(items):
                wrong.append(f"the journal of relay {relay.number} does not have all that the relay signed")
    mine = [statement for statement in statements if protocol.whose(statement)[0] in numbers]
    wrong += [f"leaf {leaf} of key {key} of relay {node} signed two texts" for node, key, leaf in leaves.signed_twice(mine)]
    return wrong, len(leaves.signed_by_leaf(mine))
