package bulwynef

// #include <bulwynef.h>
import "C"

import "crypto/rand"

// A Node follows its program, logs what comes and goes, and signs it. It ends with its process, unless a journal has each call that changed
// it: then RebuildNode gives it back. If a call is refused as RefusedMemory and its record is written, close the node and rebuild it.
// Goroutines may share one: it has a lock, and one call at a time. If it has a journal, they bring a lock that is held from a record to the
// end of its call.
type Node struct{ *opened }

// NewNode gives node id of the directory, which signs by the key; its log begins with the number firstSeq.
func NewNode(directory []byte, id uint32, key *Key, program Program, firstSeq uint64) (*Node, error) {
	it := &Node{newOpened()}
	err := done(C.bulwynef_node_new(C.uint8_t(program), at(directory), size(directory), C.uint32_t(id), C.uint64_t(firstSeq),
		C.uint32_t(key.LmsType), C.uint32_t(key.OtsType), at(key.ID[:]), size(key.ID[:]), at(key.Seed[:]), size(key.Seed[:]), &it.handle))
	if err != nil {
		return nil, err
	}
	it.closeAtItsEnd()
	return it, nil
}

// NewEntropy gives random bytes for one call that signs, and for its record.
func NewEntropy() (Entropy, error) {
	var entropy Entropy
	_, err := rand.Read(entropy[:])
	return entropy, err
}

// Timer ticks; what the node sends waits.
func (it *Node) Timer(moment uint64) error {
	entropy, err := NewEntropy()
	if err != nil {
		return err
	}
	return it.TimerWith(moment, entropy)
}

// TimerWith does the same with this entropy, which no other call may have.
func (it *Node) TimerWith(moment uint64, entropy Entropy) error {
	return it.with(func(at_ *handle) C.uint8_t {
		return C.bulwynef_node_timer(at_, C.uint64_t(moment), at(entropy[:]), size(entropy[:]))
	})
}

// Waiting gives the numbers of the messages that wait for their acknowledgements.
func (it *Node) Waiting() ([]uint64, error) {
	return each(func(place C.size_t) (uint64, error) {
		var seq C.uint64_t
		err := it.with(func(at_ *handle) C.uint8_t { return C.bulwynef_node_waiting(at_, place, &seq) })
		return uint64(seq), err
	})
}

// Message gives a message that was sent, as a challenge to acknowledge it.
func (it *Node) Message(seq uint64) ([]byte, error) {
	return it.text(func(at_, to *handle) C.uint8_t { return C.bulwynef_node_message(at_, C.uint64_t(seq), to) })
}

// Answer gives to a message its acknowledgement, to an audit a segment of the log; what was answered before, as it was. After
// RefusedMemory the same call again answers it.
func (it *Node) Answer(challenge []byte) ([]byte, error) {
	entropy, err := NewEntropy()
	if err != nil {
		return nil, err
	}
	return it.AnswerWith(challenge, entropy)
}

// AnswerWith does the same with this entropy, which no other call may have.
func (it *Node) AnswerWith(challenge []byte, entropy Entropy) ([]byte, error) {
	return it.text(func(at_, to *handle) C.uint8_t {
		return C.bulwynef_node_answer(at_, at(challenge), size(challenge), at(entropy[:]), size(entropy[:]), to)
	})
}

// History gives the entries of the log, each as a segment has it. Nothing is signed for it.
func (it *Node) History() ([]byte, error) {
	return it.text(func(at_, to *handle) C.uint8_t { return C.bulwynef_node_history(at_, to) })
}

// AcceptAck accepts an acknowledgement of just a message that was sent: it waits no longer.
func (it *Node) AcceptAck(ack []byte) error {
	return it.with(func(at_ *handle) C.uint8_t { return C.bulwynef_node_accept_ack(at_, at(ack), size(ack)) })
}

// Checkpoint logs a checkpoint, from which an audit can begin, and gives its number.
func (it *Node) Checkpoint() (uint64, error) {
	var seq C.uint64_t
	err := it.with(func(at_ *handle) C.uint8_t { return C.bulwynef_node_checkpoint(at_, &seq) })
	return uint64(seq), err
}

// Remaining gives how many statements the key in use still signs.
func (it *Node) Remaining() (uint32, error) {
	var leaves C.uint32_t
	err := it.with(func(at_ *handle) C.uint8_t { return C.bulwynef_node_remaining(at_, &leaves) })
	return uint32(leaves), err
}

// NextKey has the node sign by another of its keys from now on.
func (it *Node) NextKey(key *Key) error {
	return it.with(func(at_ *handle) C.uint8_t {
		return C.bulwynef_node_next_key(at_, C.uint32_t(key.LmsType), C.uint32_t(key.OtsType), at(key.ID[:]), size(key.ID[:]),
			at(key.Seed[:]), size(key.Seed[:]))
	})
}
