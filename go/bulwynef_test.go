package bulwynef

import (
	"bytes"
	"errors"
	"fmt"
	"runtime"
	"strings"
	"sync"
	"testing"
	"time"
)

func scene(t *testing.T) (listed []byte, first, second *Key) {
	t.Helper()
	var nodes []Listed
	keys := [2]*Key{}
	for place := range keys {
		key, err := NewKey()
		if err != nil {
			t.Fatal(err)
		}
		public, err := key.Public()
		if err != nil {
			t.Fatal(err)
		}
		keys[place] = key
		nodes = append(nodes, Listed{uint32(place + 1), []PublicKey{public}})
	}
	listed, err := Directory(nodes...)
	if err != nil {
		t.Fatal(err)
	}
	return listed, keys[0], keys[1]
}

func TestManyGoroutinesShareANodeAndAStore(t *testing.T) {
	listed, first, _ := scene(t)
	one, err := NewNode(listed, 1, first, Tally, 1)
	if err != nil {
		t.Fatal(err)
	}
	witness, _ := NewStore(listed, Tally)
	other, _ := NewStore(listed, Tally)
	var all sync.WaitGroup
	for moment := uint64(1); moment <= 8; moment++ {
		all.Add(1)
		go func(moment uint64) {
			defer all.Done()
			if err := one.Timer(moment); err != nil {
				t.Error(err)
			}
			witness.Merge(other)
			other.Merge(witness)
		}(moment)
	}
	all.Wait()
	if waiting, err := one.Waiting(); len(waiting) != 8 || err != nil {
		t.Error(waiting, err)
	}
	if leaves, err := one.Remaining(); leaves != 24 || err != nil {
		t.Error(leaves, err)
	}
}

func TestWhatIsClosedStaysClosed(t *testing.T) {
	listed, first, _ := scene(t)
	store, _ := NewStore(listed, Tally)
	if one, err := store.Includes(store); !one || err != nil {
		t.Error(one, err)
	}
	for range [2]int{} {
		if err := store.Close(); err != nil {
			t.Error(err)
		}
	}
	_, err := store.Indication(1)
	if !errors.Is(err, RefusedClosed) || err.Error() != "refused 110 Closed: The handle is closed." {
		t.Error(err)
	}
	if _, err := store.Merge(store); err != RefusedClosed {
		t.Error(err)
	}
	node, _ := NewNode(listed, 1, first, Tally, 1)
	node.Close()
	if _, err := node.Answer(nil); err != RefusedClosed {
		t.Error(err)
	}
}

func TestANodeIsRebuiltOfItsJournal(t *testing.T) {
	listed, first, second := scene(t)
	entropy, err := NewEntropy()
	if err != nil {
		t.Fatal(err)
	}
	beginning, _ := NodeBeginning(listed, 1, first, Tally, 1)
	tick, _ := RecordTimer(5, entropy)
	var journal []byte
	for _, text := range [][]byte{beginning, tick} {
		block, err := JournalBlock(text)
		if err != nil {
			t.Fatal(err)
		}
		journal = append(journal, block...)
	}
	journal = append(journal, 0)
	if end, err := JournalEnd(journal); end != len(journal)-1 || err != nil {
		t.Error(end, err)
	}
	one, _ := NewNode(listed, 1, first, Tally, 1)
	if err := one.TimerWith(5, entropy); err != nil {
		t.Fatal(err)
	}
	back, err := RebuildNode(listed, []*Key{second, first}, journal, Tally)
	if err != nil {
		t.Fatal(err)
	}
	defer back.Close()
	wanted, _ := one.History()
	if found, err := back.History(); !bytes.Equal(found, wanted) || err != nil {
		t.Error(found, err)
	}
	waiting, _ := one.Waiting()
	message, _ := one.Message(waiting[0])
	statement, _ := StatementOf(message, 0)
	if knows, err := back.Knows(statement); !knows || err != nil {
		t.Error(knows, err)
	}
	if _, err := RebuildNode(listed, []*Key{second}, journal, Tally); err != RefusedOtherKey {
		t.Error(err)
	}
}

func TestWhatNobodyHasIsClosed(t *testing.T) {
	listed, _, _ := scene(t)
	before := letGo.Load()
	for range [100]int{} {
		if _, err := NewStore(listed, Tally); err != nil {
			t.Fatal(err)
		}
	}
	for tries := 0; letGo.Load() < before+50; tries++ {
		if tries == 100 {
			t.Fatal(letGo.Load() - before)
		}
		runtime.GC()
		time.Sleep(10 * time.Millisecond)
	}
}

func TestAKeyDoesNotShowItsSeed(t *testing.T) {
	_, first, _ := scene(t)
	for _, form := range []string{"%v", "%+v", "%#v", "%s"} {
		if shown := fmt.Sprintf(form, first); strings.TrimPrefix(shown, "a key") != "" {
			t.Error(form, shown)
		}
	}
}

func TestADirectoryHasNodesWithKeys(t *testing.T) {
	for _, keys := range [][]PublicKey{nil, make([]PublicKey, 9)} {
		if _, err := Directory(Listed{1, keys}); err == nil {
			t.Error(len(keys))
		}
	}
}
