//! Why a call is refused.

use std::fmt;

macro_rules! refusals {
    ($($own:ident = $number:literal, $name:literal, $sentence:literal;)*) => {
        /// Why a call is refused: one of the refusals of `bulwynef.h`, by its number. Later versions of the library have more.
        #[derive(Clone, Copy, Debug, PartialEq, Eq, Hash)]
        #[non_exhaustive]
        pub enum Refusal {
            $(#[doc = $sentence] $own,)*
            /// One that this crate does not know.
            Other(u8),
        }

        impl Refusal {
            /// The refusal of a number.
            pub fn from_number(number: u8) -> Refusal {
                match number {
                    $($number => Refusal::$own,)*
                    other => Refusal::Other(other),
                }
            }

            /// Its number.
            pub fn number(self) -> u8 {
                match self {
                    $(Refusal::$own => $number,)*
                    Refusal::Other(number) => number,
                }
            }

            /// Its name, as the formats have it.
            pub fn name(self) -> &'static str {
                match self {
                    $(Refusal::$own => $name,)*
                    Refusal::Other(_) => "Unknown",
                }
            }

            /// What it says, for a person.
            pub fn sentence(self) -> &'static str {
                match self {
                    $(Refusal::$own => $sentence,)*
                    Refusal::Other(_) => "The number is none that this version knows.",
                }
            }
        }
    };
}

// made by checks/reference/refusals.py
refusals! {
    UnknownLmsType = 2, "UnknownLmsType", "The LMS typecode of a key is not known.";
    UnknownOtsType = 3, "UnknownOtsType", "The LM-OTS typecode of a key is not known.";
    HeightTooLarge = 4, "HeightTooLarge", "The tree of a key is too high for the key to be made.";
    DuplicateNode = 20, "DuplicateNode", "The directory lists a node twice.";
    DuplicateKey = 21, "DuplicateKey", "The directory lists a key twice.";
    TooManyNodes = 22, "TooManyNodes", "The directory lists more nodes than it may.";
    DirectoryBadMagic = 23, "BadMagic", "The first bytes are not those of a directory.";
    DirectoryTruncated = 24, "Truncated", "The directory is cut off.";
    DirectoryTrailing = 25, "Trailing", "Bytes are left over after the directory.";
    KeyCount = 26, "KeyCount", "The directory lists a node with no key, or with more than it may have.";
    UnlistedNode = 27, "UnlistedNode", "A key is of a node that is not listed.";
    NodeUnknownNode = 30, "UnknownNode", "The node that is to begin is not listed in the directory.";
    WrongKey = 31, "WrongKey", "The key is none of the node's keys, is or was in use, or has signed already.";
    NotMine = 32, "NotMine", "The message is for another node.";
    UnknownSender = 33, "UnknownSender", "The sender is not listed in the directory, or is this node.";
    MessageBadSignature = 34, "BadSignature", "No key of the sender verifies the message's signature.";
    PayloadTooLong = 35, "PayloadTooLong", "The payload of a message is too long.";
    KeySpent = 36, "KeySpent", "The key in use has too few leaves left.";
    LogFull = 37, "LogFull", "The log is full.";
    BadAck = 38, "BadAck", "The acknowledgement is for no message that the node sent, or it is not valid.";
    NumberTaken = 39, "NumberTaken", "Another message of this sender with this number was received.";
    Truncated = 40, "Truncated", "A text is cut off.";
    BadTag = 41, "BadTag", "A tag, a flag or a form is unknown, or is not the one that is asked for.";
    TooLong = 42, "TooLong", "A length or a count is above its limit.";
    Trailing = 43, "Trailing", "Bytes are left over.";
    UnknownNode = 44, "UnknownNode", "A node is not listed.";
    SelfMessage = 45, "SelfMessage", "A message is from a node to itself.";
    EmptySegment = 46, "EmptySegment", "A segment has no entry.";
    BadStart = 47, "BadStart", "A segment begins neither with a log's first entry nor with a CHECKPOINT.";
    BadRange = 48, "BadRange", "The range of an audit challenge is empty, or is of two nodes.";
    BadSignature = 49, "BadSignature", "A signature of an item is not valid.";
    NoContradiction = 50, "NoContradiction", "The parts of a proof do not contradict each other, or are of two nodes.";
    Conforms = 51, "Conforms", "The segment that a proof presents conforms.";
    BadMagic = 60, "BadMagic", "The first bytes of a text are not those of what it is read as.";
    NotAscending = 61, "NotAscending", "The items of a store, or the digests of a summary, do not ascend.";
    NothingKept = 62, "NothingKept", "No bucket of a short summary is kept.";
    NotForMe = 70, "NotForMe", "The challenge is against another node.";
    NotInLog = 71, "NotInLog", "The challenge names an entry that is not in the log.";
    NoAnswerNeeded = 72, "NoAnswerNeeded", "The item is no challenge.";
    Memory = 99, "Memory", "A growth of memory was refused.";
    Closed = 110, "Closed", "The handle is closed.";
    OtherKind = 111, "OtherKind", "The handle is open for something else, or for another program.";
    OtherDirectory = 112, "OtherDirectory", "The two stores are under two directories.";
    BadProgram = 113, "BadProgram", "The program is unknown.";
    StillOpen = 114, "StillOpen", "The handle is open.";
    NotExposed = 115, "NotExposed", "The items do not expose the node.";
    OutOfRange = 116, "OutOfRange", "There is nothing at this place or with this number.";
    WrongLength = 117, "WrongLength", "The bytes, or the room for them, have another length than they must have.";
    Damaged = 122, "Damaged", "The journal is damaged in a way that no crash causes.";
    OtherProgram = 123, "OtherProgram", "The journal is of another program.";
    JournalOtherDirectory = 124, "OtherDirectory", "The journal is of another directory.";
    EmptyJournal = 126, "EmptyJournal", "The journal has no text.";
    NoBeginning = 127, "NoBeginning", "The first text of the journal does not say how a node began.";
    OtherKey = 128, "OtherKey", "None of the seeds makes a key that the journal names.";
    BadRecord = 129, "BadRecord", "A text of the journal is no record.";
}
// end

impl fmt::Display for Refusal {
    fn fmt(&self, f: &mut fmt::Formatter<'_>) -> fmt::Result {
        write!(f, "refused {} {}: {}", self.number(), self.name(), self.sentence())
    }
}

impl std::error::Error for Refusal {}
