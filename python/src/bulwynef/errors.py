"""Why a call is refused."""

from typing import Dict, Optional, Tuple

# number: name, sentence (docs/FORMATS.md, "Refusals")
SENTENCES: Dict[int, Tuple[str, str]] = {
    2: ("UnknownLmsType", "The LMS typecode of a key is not known."),
    3: ("UnknownOtsType", "The LM-OTS typecode of a key is not known."),
    4: ("HeightTooLarge", "The tree of a key is too high for the key to be made."),
    20: ("DuplicateNode", "The directory lists a node twice."),
    21: ("DuplicateKey", "The directory lists a key twice."),
    22: ("TooManyNodes", "The directory lists more nodes than it may."),
    23: ("BadMagic", "The first bytes are not those of a directory."),
    24: ("Truncated", "The directory is cut off."),
    25: ("Trailing", "Bytes are left over after the directory."),
    26: ("KeyCount", "The directory lists a node with no key, or with more than it may have."),
    27: ("UnlistedNode", "A key is of a node that is not listed."),
    30: ("UnknownNode", "The node that is to begin is not listed in the directory."),
    31: ("WrongKey", "The key is none of the node's keys, is or was in use, or has signed already."),
    32: ("NotMine", "The message is for another node."),
    33: ("UnknownSender", "The sender is not listed in the directory, or is this node."),
    34: ("BadSignature", "No key of the sender verifies the message's signature."),
    35: ("PayloadTooLong", "The payload of a message is too long."),
    36: ("KeySpent", "The key in use has too few leaves left."),
    37: ("LogFull", "The log is full."),
    38: ("BadAck", "The acknowledgement is for no message that the node sent, or it is not valid."),
    39: ("NumberTaken", "Another message of this sender with this number was received."),
    40: ("Truncated", "A text is cut off."),
    41: ("BadTag", "A tag, a flag or a form is unknown, or is not the one that is asked for."),
    42: ("TooLong", "A length or a count is above its limit."),
    43: ("Trailing", "Bytes are left over."),
    44: ("UnknownNode", "A node is not listed."),
    45: ("SelfMessage", "A message is from a node to itself."),
    46: ("EmptySegment", "A segment has no entry."),
    47: ("BadStart", "A segment begins neither with a log's first entry nor with a CHECKPOINT."),
    48: ("BadRange", "The range of an audit challenge is empty, or is of two nodes."),
    49: ("BadSignature", "A signature of an item is not valid."),
    50: ("NoContradiction", "The parts of a proof do not contradict each other, or are of two nodes."),
    51: ("Conforms", "The segment that a proof presents conforms."),
    60: ("BadMagic", "The first bytes of a text are not those of what it is read as."),
    61: ("NotAscending", "The items of a store, or the digests of a summary, do not ascend."),
    62: ("NothingKept", "No bucket of a short summary is kept."),
    70: ("NotForMe", "The challenge is against another node."),
    71: ("NotInLog", "The challenge names an entry that is not in the log."),
    72: ("NoAnswerNeeded", "The item is no challenge."),
    99: ("Memory", "A growth of memory was refused."),
    110: ("Closed", "The handle is closed."),
    111: ("OtherKind", "The handle is open for something else, or for another program."),
    112: ("OtherDirectory", "The two stores are under two directories."),
    113: ("BadProgram", "The program is unknown."),
    114: ("StillOpen", "The handle is open."),
    115: ("NotExposed", "The items do not expose the node."),
    116: ("OutOfRange", "There is nothing at this place or with this number."),
    117: ("WrongLength", "The bytes, or the room for them, have another length than they must have."),
    122: ("Damaged", "The journal is damaged in a way that no crash causes."),
    123: ("OtherProgram", "The journal is of another program."),
    124: ("OtherDirectory", "The journal is of another directory."),
    126: ("EmptyJournal", "The journal has no text."),
    127: ("NoBeginning", "The first text of the journal does not say how a node began."),
    128: ("OtherKey", "None of the seeds makes a key that the journal names."),
    129: ("BadRecord", "A text of the journal is no record."),
}

# the same, of the refusals that journals report, and no call of the library
OF_JOURNALS: Dict[int, Tuple[str, str]] = {
    118: ("GroupTooLong", "The group is longer than a journal takes at once."),
    119: ("JournalFull", "The journal is full."),
    120: ("DiskFailed", "The journal's file failed, and the journal is as it was."),
    121: ("Lost", "It is not known what the journal has: it is closed until its file is opened again."),
    125: ("BadItem", "A text of the journal is not that of a valid item."),
    130: ("Ended", "The record was written, but its call was not done: rebuild the node from its journal."),
}


class Refusal(Exception):
    """A call was refused, with a number, a name and a sentence. It changed nothing, with three exceptions: `Node.answer` may have received
    the message where it reports 99, and what is kept in a journal is closed for good by 121 and by 130."""

    number: int
    name: str
    sentence: str
    # the place of the text of a journal that is refused, from 0
    place: Optional[int]

    def __init__(self, number: int, place: Optional[int] = None) -> None:
        self.number, self.place = number, place
        self.name, self.sentence = {**SENTENCES, **OF_JOURNALS}.get(number, ("Unknown", "The number is none that there is."))
        where = "" if place is None else f" (text {place} of the journal)"
        super().__init__(f"refused {number} {self.name}: {self.sentence}{where}")
