// Package bulwynef has stores of evidence, nodes that answer for what they did, and proofs that a third party checks, over bulwynef.h.
//
// The library behind it is proved; this package hands bytes to it and back. pkg-config says where the library lies. What the C interface
// asks of its caller is kept here: each Store and each Node has a lock, is closed by Close or once nobody has it, and a slice has its length.
//
// Licensed under MIT or Apache-2.0, at your choice.
package bulwynef

// #cgo pkg-config: bulwynef
// #include <bulwynef.h>
import "C"

import (
	"crypto/rand"
	"encoding/binary"
	"errors"
	"runtime"
	"sync"
	"sync/atomic"
	"unsafe"
)

// A Program is what nodes follow.
type Program uint8

// The programs.
const (
	Tally   Program = C.BULWYNEF_TALLY
	Relay   Program = C.BULWYNEF_RELAY
	Mailbox Program = C.BULWYNEF_MAILBOX
)

// An Indication is what a store says of a node.
type Indication uint8

// The indications. 0 is none of them.
const (
	Trusted   Indication = C.BULWYNEF_TRUSTED
	Suspected Indication = C.BULWYNEF_SUSPECTED
	Exposed   Indication = C.BULWYNEF_EXPOSED
)

func (it Indication) String() string {
	return [...]string{"no indication", "trusted", "suspected", "exposed"}[it&3]
}

// A PublicKey is a node's, as a directory has it.
type PublicKey [C.BULWYNEF_PUBLIC_KEY_LEN]byte

// Entropy is random bytes, fresh for each call that signs.
type Entropy [C.BULWYNEF_ENTROPY_LEN]byte

// A Key is a seed and what else makes a key (RFC 8554): a tree of type 5 signs 32 statements, of type 6 1,024. A seed signs in one node, in
// one process, once.
type Key struct {
	LmsType, OtsType uint32
	ID               [C.BULWYNEF_KEY_ID_LEN]byte
	Seed             [C.BULWYNEF_SEED_LEN]byte
}

// NewKey gives a key of H5 and W8, of random bytes.
func NewKey() (*Key, error) {
	key := &Key{LmsType: C.BULWYNEF_H5, OtsType: C.BULWYNEF_W8}
	if _, err := rand.Read(key.ID[:]); err != nil {
		return nil, err
	}
	_, err := rand.Read(key.Seed[:])
	return key, err
}

// String leaves the seed out.
func (key *Key) String() string { return "a key" }

// GoString leaves the seed out.
func (key *Key) GoString() string { return "a key" }

// Public gives the public key.
func (key *Key) Public() (PublicKey, error) {
	var public PublicKey
	err := done(C.bulwynef_public_key(C.uint32_t(key.LmsType), C.uint32_t(key.OtsType), at(key.ID[:]), size(key.ID[:]), at(key.Seed[:]),
		size(key.Seed[:]), at(public[:]), size(public[:])))
	return public, err
}

// Listed is a node of a directory, with its public keys, one to eight.
type Listed struct {
	Node uint32
	Keys []PublicKey
}

// Directory gives the text of a directory of these nodes, in this order.
func Directory(nodes ...Listed) ([]byte, error) {
	text := binary.BigEndian.AppendUint32([]byte("PRDIREC2"), uint32(len(nodes)))
	for _, it := range nodes {
		if len(it.Keys) < 1 || len(it.Keys) > 8 {
			return nil, errors.New("a node has one key to eight")
		}
		text = append(binary.BigEndian.AppendUint32(text, it.Node), byte(len(it.Keys)))
		for _, key := range it.Keys {
			text = append(text, key[:]...)
		}
	}
	return text, nil
}

func at(text []byte) *C.uint8_t {
	if len(text) == 0 {
		return nil
	}
	return (*C.uint8_t)(unsafe.Pointer(&text[0]))
}

func size(text []byte) C.size_t { return C.size_t(len(text)) }

func done(answer C.uint8_t) error {
	if answer == C.BULWYNEF_OK {
		return nil
	}
	return Refusal(answer)
}

// text gives what a call answers behind a handle at its end.
func text(call func(*C.struct_bulwynef_handle) C.uint8_t) ([]byte, error) {
	var handle C.struct_bulwynef_handle
	if err := done(call(&handle)); err != nil {
		return nil, err
	}
	defer C.bulwynef_close(&handle)
	bytes := make([]byte, int(C.bulwynef_text_len(&handle)))
	return bytes, done(C.bulwynef_text_copy(&handle, at(bytes), size(bytes)))
}

// each gives what a call gives at each place, from 0 to the first at which there is nothing.
func each[T any](call func(place C.size_t) (T, error)) ([]T, error) {
	var found []T
	for {
		it, err := call(C.size_t(len(found)))
		if err == RefusedOutOfRange {
			return found, nil
		}
		if err != nil {
			return nil, err
		}
		found = append(found, it)
	}
}

// opened is a handle with its lock. It is not copied: `go vet` says where one is.
type opened struct {
	lock   sync.Mutex
	handle C.struct_bulwynef_handle
	number uint64
}

var howMany atomic.Uint64

func newOpened() *opened { return &opened{number: howMany.Add(1)} }

// with does a call on the handle, which no other one has meanwhile.
func (it *opened) with(call func(*C.struct_bulwynef_handle) C.uint8_t) error {
	it.lock.Lock()
	defer it.lock.Unlock()
	defer runtime.KeepAlive(it)
	return done(call(&it.handle))
}

// text does a call that answers a text.
func (it *opened) text(call func(handle, text *C.struct_bulwynef_handle) C.uint8_t) ([]byte, error) {
	it.lock.Lock()
	defer it.lock.Unlock()
	defer runtime.KeepAlive(it)
	return text(func(to *C.struct_bulwynef_handle) C.uint8_t { return call(&it.handle, to) })
}

// Close lets go of what lies behind the handle. What is closed stays closed; each later call is refused (110).
func (it *opened) Close() error {
	it.lock.Lock()
	defer it.lock.Unlock()
	runtime.SetFinalizer(it, nil)
	C.bulwynef_close(&it.handle)
	return nil
}

// letGo counts those that were closed once nobody had them.
var letGo atomic.Int64

func (it *opened) closeAtItsEnd() {
	runtime.SetFinalizer(it, func(it *opened) {
		C.bulwynef_close(&it.handle)
		letGo.Add(1)
	})
}

// CheckProof gives the node that the proof convicts before anybody who has the directory and the program.
func CheckProof(directory, proof []byte, program Program) (uint32, error) {
	var node C.uint32_t
	err := done(C.bulwynef_check_proof(C.uint8_t(program), at(directory), size(directory), at(proof), size(proof), &node))
	return uint32(node), err
}

// ExplainProof says the same, and why, for a person to read.
func ExplainProof(directory, proof []byte, program Program) (string, error) {
	told, err := text(func(to *C.struct_bulwynef_handle) C.uint8_t {
		return C.bulwynef_explain_proof(C.uint8_t(program), at(directory), size(directory), at(proof), size(proof), to)
	})
	return string(told), err
}

// StatementOf gives the statement at a place, from 0, of those that an item has signatures of. Nothing is verified of items here: a store
// verifies what it takes.
func StatementOf(item []byte, place int) ([]byte, error) {
	return text(func(to *C.struct_bulwynef_handle) C.uint8_t {
		return C.bulwynef_statement_of(at(item), size(item), C.size_t(place), to)
	})
}

// AuditChallenge gives the demand for a node's log up to the entry of its statement last, from that of first or, where that is empty, from
// the beginning.
func AuditChallenge(first, last []byte) ([]byte, error) {
	return text(func(to *C.struct_bulwynef_handle) C.uint8_t {
		return C.bulwynef_audit_challenge(at(first), size(first), at(last), size(last), to)
	})
}

// SendChallenge gives the demand to acknowledge the message of an item, a message or an acknowledgement.
func SendChallenge(message []byte) ([]byte, error) {
	return text(func(to *C.struct_bulwynef_handle) C.uint8_t {
		return C.bulwynef_send_challenge(at(message), size(message), to)
	})
}
