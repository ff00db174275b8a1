package bulwynef

// #include <bulwynef.h>
import "C"

// The texts of a node's journal, by which it survives its process. The host owns the file, and keeps to the order of the steps in
// bulwynef.h, "nodes that survive". It makes the record of a call, and writes and syncs the record's block. Then it makes the call of the
// node, with the same input and the same entropy. Last it sends what the node answers. Only an acknowledgement is accepted before it is
// recorded.

// JournalBlock gives the open block of a text, which stands for it in a journal.
func JournalBlock(record []byte) ([]byte, error) {
	return text(func(to *handle) C.uint8_t { return C.bulwynef_journal_block(at(record), size(record), to) })
}

// JournalEnd gives the place of the closed gate in the bytes of a journal. What is behind the gate counts for nothing.
func JournalEnd(journal []byte) (int, error) {
	var end C.size_t
	err := done(C.bulwynef_journal_end(at(journal), size(journal), &end))
	return int(end), err
}

// NodeBeginning gives the first text: how node id of the directory begins, by the key, with a log that begins with the number firstSeq. It
// has the public key, and no seed. RebuildNode tests whether the directory lists the node with this key.
func NodeBeginning(directory []byte, id uint32, key *Key, program Program, firstSeq uint64) ([]byte, error) {
	return text(func(to *handle) C.uint8_t {
		return C.bulwynef_node_beginning(C.uint8_t(program), at(directory), size(directory), C.uint32_t(id), C.uint64_t(firstSeq),
			C.uint32_t(key.LmsType), C.uint32_t(key.OtsType), at(key.ID[:]), size(key.ID[:]), at(key.Seed[:]), size(key.Seed[:]), to)
	})
}

// RecordTimer gives the record of TimerWith.
func RecordTimer(moment uint64, entropy Entropy) ([]byte, error) {
	return text(func(to *handle) C.uint8_t {
		return C.bulwynef_record_timer(C.uint64_t(moment), at(entropy[:]), size(entropy[:]), to)
	})
}

// RecordAnswer gives the record of AnswerWith, if that is given a message. An audit changes nothing of the node, and has no record.
func RecordAnswer(challenge []byte, entropy Entropy) ([]byte, error) {
	return text(func(to *handle) C.uint8_t {
		return C.bulwynef_record_answer(at(challenge), size(challenge), at(entropy[:]), size(entropy[:]), to)
	})
}

// RecordAck gives the record of an acknowledgement that AcceptAck accepted.
func RecordAck(ack []byte) ([]byte, error) {
	return text(func(to *handle) C.uint8_t { return C.bulwynef_record_ack(at(ack), size(ack), to) })
}

// RecordCheckpoint gives the record of Checkpoint.
func RecordCheckpoint() ([]byte, error) {
	return text(func(to *handle) C.uint8_t { return C.bulwynef_record_checkpoint(to) })
}

// RecordNextKey gives the record of NextKey. It has the public key, and no seed.
func RecordNextKey(key *Key) ([]byte, error) {
	return text(func(to *handle) C.uint8_t {
		return C.bulwynef_record_next_key(C.uint32_t(key.LmsType), C.uint32_t(key.OtsType), at(key.ID[:]), size(key.ID[:]), at(key.Seed[:]),
			size(key.Seed[:]), to)
	})
}

// RebuildNode gives the node of a journal's bytes: it began as the first text says, and did what the further ones record. Each key that the
// journal names is among these.
func RebuildNode(directory []byte, keys []*Key, journal []byte, program Program) (*Node, error) {
	var secrets []byte
	for _, key := range keys {
		secrets = append(append(secrets, key.ID[:]...), key.Seed[:]...)
	}
	it := &Node{newOpened()}
	err := done(C.bulwynef_node_rebuild(C.uint8_t(program), at(directory), size(directory), at(secrets), size(secrets), at(journal),
		size(journal), &it.handle))
	if err != nil {
		return nil, err
	}
	it.closeAtItsEnd()
	return it, nil
}

// Knows tells whether a statement is another node's, or one that this node signed. If a witness holds one that the node does not know, the
// journal is an old copy, and none of the node's keys may ever sign again. Nothing is verified of the statement here.
func (it *Node) Knows(statement []byte) (bool, error) {
	var knows C.uint8_t
	err := it.with(func(at_ *handle) C.uint8_t { return C.bulwynef_node_knows(at_, at(statement), size(statement), &knows) })
	return knows == 1, err
}
