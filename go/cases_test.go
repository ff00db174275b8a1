package bulwynef

import (
	"bufio"
	"bytes"
	"encoding/hex"
	"errors"
	"fmt"
	"os"
	"strconv"
	"strings"
	"testing"
)

// cases runs bindings/cases.txt. bindings/README.md says how a line is read.
type cases struct {
	texts  map[string][]byte
	stores map[string]*Store
	nodes  map[string]*Node
}

func number(word string) uint64 {
	it, err := strconv.ParseUint(word, 10, 64)
	if err != nil {
		panic(err)
	}
	return it
}

func (it *cases) text(word string) []byte {
	text, found := it.texts[strings.TrimPrefix(word, "@")]
	if !found {
		panic("no such text: " + word)
	}
	return text
}

func (it *cases) key(words []string) *Key {
	key := &Key{LmsType: uint32(number(words[0])), OtsType: uint32(number(words[1]))}
	if copy(key.ID[:], it.text(words[2])) != len(key.ID) || copy(key.Seed[:], it.text(words[3])) != len(key.Seed) {
		panic("another length")
	}
	return key
}

// keys gives the keys of a text of secrets, each an identifier and a seed. The journal has their types.
func (it *cases) keys(word string) (found []*Key) {
	for secrets := it.text(word); len(secrets) > 0; {
		key := &Key{}
		copy(key.ID[:], secrets)
		secrets = secrets[len(key.ID):]
		copy(key.Seed[:], secrets)
		secrets = secrets[len(key.Seed):]
		found = append(found, key)
	}
	return found
}

func (it *cases) entropy(word string) (entropy Entropy) {
	copy(entropy[:], it.text(word))
	return entropy
}

func at_place[T any](found []T, err error, place string) (T, error) {
	var none T
	if err != nil {
		return none, err
	}
	if int(number(place)) >= len(found) {
		return none, RefusedOutOfRange
	}
	return found[number(place)], nil
}

func flag(it bool, err error) (any, error) {
	if it {
		return uint64(1), err
	}
	return uint64(0), err
}

// any_of gives an answer of whatever type.
func any_of[T any](it T, err error) (any, error) { return it, err }

func (it *cases) ofStore(w []string) (any, error) {
	if w[0] == "store_open" {
		store, err := NewStore(it.text(w[3]), Program(number(w[2])))
		it.stores[w[1]] = store
		return nil, err
	}
	store := it.stores[w[1]]
	switch w[0] {
	case "store_take":
		return flag(store.Take(it.text(w[2])))
	case "store_import":
		return any_of(store.Import(it.text(w[2])))
	case "store_merge":
		return any_of(store.Merge(it.stores[w[2]]))
	case "store_includes":
		return flag(store.Includes(it.stores[w[2]]))
	case "store_indication":
		said, err := store.Indication(uint32(number(w[2])))
		return uint64(said), err
	case "store_proof":
		return any_of(store.Proof(uint32(number(w[2]))))
	case "store_challenge":
		found, err := store.Challenges(uint32(number(w[2])))
		return any_of(at_place(found, err, w[3]))
	case "store_explain":
		told, err := store.Explain()
		return []byte(told), err
	case "store_export":
		return any_of(store.Export())
	case "store_outline":
		return any_of(store.Outline())
	case "store_summary":
		return any_of(store.Summary())
	case "store_short_summary":
		return any_of(store.ShortSummary(it.text(w[2])))
	case "store_pack":
		return any_of(store.Pack(it.text(w[2])))
	case "store_apply":
		return any_of(store.Apply(it.text(w[2])))
	}
	panic("no such call: " + w[0])
}

func (it *cases) ofNode(w []string) (any, error) {
	if w[0] == "node_new" {
		node, err := NewNode(it.text(w[3]), uint32(number(w[4])), it.key(w[6:]), Program(number(w[2])), number(w[5]))
		it.nodes[w[1]] = node
		return nil, err
	}
	if w[0] == "node_rebuild" {
		node, err := RebuildNode(it.text(w[3]), it.keys(w[4]), it.text(w[5]), Program(number(w[2])))
		it.nodes[w[1]] = node
		return nil, err
	}
	node := it.nodes[w[1]]
	switch w[0] {
	case "node_timer":
		return nil, node.TimerWith(number(w[2]), it.entropy(w[3]))
	case "node_waiting":
		found, err := node.Waiting()
		return any_of(at_place(found, err, w[2]))
	case "node_message":
		return any_of(node.Message(number(w[2])))
	case "node_answer":
		return any_of(node.AnswerWith(it.text(w[2]), it.entropy(w[3])))
	case "node_history":
		return any_of(node.History())
	case "node_accept_ack":
		return nil, node.AcceptAck(it.text(w[2]))
	case "node_checkpoint":
		return any_of(node.Checkpoint())
	case "node_remaining":
		leaves, err := node.Remaining()
		return uint64(leaves), err
	case "node_next_key":
		return nil, node.NextKey(it.key(w[2:]))
	case "node_knows":
		return flag(node.Knows(it.text(w[2])))
	}
	panic("no such call: " + w[0])
}

// ofJournal answers what belongs to no handle: a block, an end, and the texts of a journal. If it is none of these, the answer is false.
func (it *cases) ofJournal(w []string) (any, error, bool) {
	var made []byte
	var err error
	switch w[0] {
	case "journal_end":
		end, err := JournalEnd(it.text(w[1]))
		return uint64(end), err, true
	case "journal_block":
		made, err = JournalBlock(it.text(w[1]))
	case "node_beginning":
		made, err = NodeBeginning(it.text(w[2]), uint32(number(w[3])), it.key(w[5:]), Program(number(w[1])), number(w[4]))
	case "record_timer":
		made, err = RecordTimer(number(w[1]), it.entropy(w[2]))
	case "record_answer":
		made, err = RecordAnswer(it.text(w[1]), it.entropy(w[2]))
	case "record_ack":
		made, err = RecordAck(it.text(w[1]))
	case "record_checkpoint":
		made, err = RecordCheckpoint()
	case "record_next_key":
		made, err = RecordNextKey(it.key(w[1:]))
	default:
		return nil, nil, false
	}
	return made, err, true
}

func (it *cases) answer(w []string) (any, error) {
	switch w[0] {
	case "check_proof":
		node, err := CheckProof(it.text(w[2]), it.text(w[3]), Program(number(w[1])))
		return uint64(node), err
	case "explain_proof":
		told, err := ExplainProof(it.text(w[2]), it.text(w[3]), Program(number(w[1])))
		return []byte(told), err
	case "public_key":
		public, err := it.key(w[1:]).Public()
		return public[:], err
	case "statement_of":
		return any_of(StatementOf(it.text(w[1]), int(number(w[2]))))
	case "audit_challenge":
		return any_of(AuditChallenge(it.text(w[1]), it.text(w[2])))
	case "send_challenge":
		return any_of(SendChallenge(it.text(w[1])))
	}
	if strings.HasPrefix(w[0], "store_") {
		return it.ofStore(w)
	}
	if made, err, is := it.ofJournal(w); is {
		return made, err
	}
	return it.ofNode(w)
}

// isRight tells whether the call answers what stands behind `=`.
func (it *cases) isRight(words, wanted []string) bool {
	found, err := it.answer(words)
	var refusal Refusal
	if errors.As(err, &refusal) || err != nil {
		return len(wanted) == 1 && wanted[0] == fmt.Sprint(uint8(refusal))
	}
	if wanted[0] != "0" || len(wanted) == 1 {
		return wanted[0] == "0" && found == nil
	}
	text, isText := found.([]byte)
	switch wanted[1][0] {
	case '>':
		it.texts[wanted[1][1:]] = text
		return isText
	case '@':
		return isText && bytes.Equal(text, it.text(wanted[1]))
	}
	return found == number(wanted[1])
}

func TestEachCallAnswersAsTheCasesSay(t *testing.T) {
	file, err := os.Open("../bindings/cases.txt")
	if err != nil {
		t.Fatal(err)
	}
	defer file.Close()
	it := &cases{map[string][]byte{}, map[string]*Store{}, map[string]*Node{}}
	lines, calls := bufio.NewScanner(file), 0
	lines.Buffer(nil, 1<<20)
	for place := 1; lines.Scan(); place++ {
		words := strings.Fields(lines.Text())
		switch words[0] {
		case "#":
		case "text":
			text, err := hex.DecodeString(strings.Join(words[2:], ""))
			if err != nil {
				t.Fatal(err)
			}
			it.texts[words[1]] = text
		case "zeros":
			it.texts[words[1]] = make([]byte, number(words[2]))
		default:
			calls++
			asked, wanted, _ := strings.Cut(lines.Text(), " = ")
			if !it.isRight(strings.Fields(asked), strings.Fields(wanted)) {
				t.Fatalf("line %d: another answer", place)
			}
		}
	}
	if lines.Err() != nil || calls <= 100 {
		t.Fatal(lines.Err(), calls)
	}
}
