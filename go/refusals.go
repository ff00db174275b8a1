package bulwynef

import "fmt"

// A Refusal is why a call is refused, by the number of bulwynef.h. It changed nothing, but that Node.Answer may have received the message
// where it is RefusedMemory. Compare it by ==, or by errors.Is.
type Refusal uint8

func (it Refusal) Error() string {
	name, sentence := it.told()
	return fmt.Sprintf("refused %d %s: %s", uint8(it), name, sentence)
}

// Name gives the name that the formats have for it.
func (it Refusal) Name() string {
	name, _ := it.told()
	return name
}

// The refusals.
// made by checks/reference/refusals.py
const (
	RefusedUnknownLmsType        Refusal = 2
	RefusedUnknownOtsType        Refusal = 3
	RefusedHeightTooLarge        Refusal = 4
	RefusedDuplicateNode         Refusal = 20
	RefusedDuplicateKey          Refusal = 21
	RefusedTooManyNodes          Refusal = 22
	RefusedDirectoryBadMagic     Refusal = 23
	RefusedDirectoryTruncated    Refusal = 24
	RefusedDirectoryTrailing     Refusal = 25
	RefusedKeyCount              Refusal = 26
	RefusedUnlistedNode          Refusal = 27
	RefusedNodeUnknownNode       Refusal = 30
	RefusedWrongKey              Refusal = 31
	RefusedNotMine               Refusal = 32
	RefusedUnknownSender         Refusal = 33
	RefusedMessageBadSignature   Refusal = 34
	RefusedPayloadTooLong        Refusal = 35
	RefusedKeySpent              Refusal = 36
	RefusedLogFull               Refusal = 37
	RefusedBadAck                Refusal = 38
	RefusedNumberTaken           Refusal = 39
	RefusedTruncated             Refusal = 40
	RefusedBadTag                Refusal = 41
	RefusedTooLong               Refusal = 42
	RefusedTrailing              Refusal = 43
	RefusedUnknownNode           Refusal = 44
	RefusedSelfMessage           Refusal = 45
	RefusedEmptySegment          Refusal = 46
	RefusedBadStart              Refusal = 47
	RefusedBadRange              Refusal = 48
	RefusedBadSignature          Refusal = 49
	RefusedNoContradiction       Refusal = 50
	RefusedConforms              Refusal = 51
	RefusedBadMagic              Refusal = 60
	RefusedNotAscending          Refusal = 61
	RefusedNothingKept           Refusal = 62
	RefusedNotForMe              Refusal = 70
	RefusedNotInLog              Refusal = 71
	RefusedNoAnswerNeeded        Refusal = 72
	RefusedMemory                Refusal = 99
	RefusedClosed                Refusal = 110
	RefusedOtherKind             Refusal = 111
	RefusedOtherDirectory        Refusal = 112
	RefusedBadProgram            Refusal = 113
	RefusedStillOpen             Refusal = 114
	RefusedNotExposed            Refusal = 115
	RefusedOutOfRange            Refusal = 116
	RefusedWrongLength           Refusal = 117
	RefusedDamaged               Refusal = 122
	RefusedOtherProgram          Refusal = 123
	RefusedJournalOtherDirectory Refusal = 124
	RefusedEmptyJournal          Refusal = 126
	RefusedNoBeginning           Refusal = 127
	RefusedOtherKey              Refusal = 128
	RefusedBadRecord             Refusal = 129
)

// end

// made by checks/reference/refusals.py
func (it Refusal) told() (name, sentence string) {
	switch it {
	case 2:
		return "UnknownLmsType", "The LMS typecode of a key is not known."
	case 3:
		return "UnknownOtsType", "The LM-OTS typecode of a key is not known."
	case 4:
		return "HeightTooLarge", "The tree of a key is too high for the key to be made."
	case 20:
		return "DuplicateNode", "The directory lists a node twice."
	case 21:
		return "DuplicateKey", "The directory lists a key twice."
	case 22:
		return "TooManyNodes", "The directory lists more nodes than it may."
	case 23:
		return "BadMagic", "The first bytes are not those of a directory."
	case 24:
		return "Truncated", "The directory is cut off."
	case 25:
		return "Trailing", "Bytes are left over after the directory."
	case 26:
		return "KeyCount", "The directory lists a node with no key, or with more than it may have."
	case 27:
		return "UnlistedNode", "A key is of a node that is not listed."
	case 30:
		return "UnknownNode", "The node that is to begin is not listed in the directory."
	case 31:
		return "WrongKey", "The key is none of the node's keys, is or was in use, or has signed already."
	case 32:
		return "NotMine", "The message is for another node."
	case 33:
		return "UnknownSender", "The sender is not listed in the directory, or is this node."
	case 34:
		return "BadSignature", "No key of the sender verifies the message's signature."
	case 35:
		return "PayloadTooLong", "The payload of a message is too long."
	case 36:
		return "KeySpent", "The key in use has too few leaves left."
	case 37:
		return "LogFull", "The log is full."
	case 38:
		return "BadAck", "The acknowledgement is for no message that the node sent, or it is not valid."
	case 39:
		return "NumberTaken", "Another message of this sender with this number was received."
	case 40:
		return "Truncated", "A text is cut off."
	case 41:
		return "BadTag", "A tag, a flag or a form is unknown, or is not the one that is asked for."
	case 42:
		return "TooLong", "A length or a count is above its limit."
	case 43:
		return "Trailing", "Bytes are left over."
	case 44:
		return "UnknownNode", "A node is not listed."
	case 45:
		return "SelfMessage", "A message is from a node to itself."
	case 46:
		return "EmptySegment", "A segment has no entry."
	case 47:
		return "BadStart", "A segment begins neither with a log's first entry nor with a CHECKPOINT."
	case 48:
		return "BadRange", "The range of an audit challenge is empty, or is of two nodes."
	case 49:
		return "BadSignature", "A signature of an item is not valid."
	case 50:
		return "NoContradiction", "The parts of a proof do not contradict each other, or are of two nodes."
	case 51:
		return "Conforms", "The segment that a proof presents conforms."
	case 60:
		return "BadMagic", "The first bytes of a text are not those of what it is read as."
	case 61:
		return "NotAscending", "The items of a store, or the digests of a summary, do not ascend."
	case 62:
		return "NothingKept", "No bucket of a short summary is kept."
	case 70:
		return "NotForMe", "The challenge is against another node."
	case 71:
		return "NotInLog", "The challenge names an entry that is not in the log."
	case 72:
		return "NoAnswerNeeded", "The item is no challenge."
	case 99:
		return "Memory", "A growth of memory was refused."
	case 110:
		return "Closed", "The handle is closed."
	case 111:
		return "OtherKind", "The handle is open for something else, or for another program."
	case 112:
		return "OtherDirectory", "The two stores are under two directories."
	case 113:
		return "BadProgram", "The program is unknown."
	case 114:
		return "StillOpen", "The handle is open."
	case 115:
		return "NotExposed", "The items do not expose the node."
	case 116:
		return "OutOfRange", "There is nothing at this place or with this number."
	case 117:
		return "WrongLength", "The bytes, or the room for them, have another length than they must have."
	case 122:
		return "Damaged", "The journal is damaged in a way that no crash causes."
	case 123:
		return "OtherProgram", "The journal is of another program."
	case 124:
		return "OtherDirectory", "The journal is of another directory."
	case 126:
		return "EmptyJournal", "The journal has no text."
	case 127:
		return "NoBeginning", "The first text of the journal does not say how a node began."
	case 128:
		return "OtherKey", "None of the seeds makes a key that the journal names."
	case 129:
		return "BadRecord", "A text of the journal is no record."
	}
	return "Unknown", "The number is none that this version knows."
}

// end
