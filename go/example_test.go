package bulwynef_test

import (
	"fmt"

	"bulwynef.example/bulwynef"
)

func must[T any](it T, err error) T {
	if err != nil {
		panic(err)
	}
	return it
}

// Two nodes and a witness: node 2 answers, then tells another history, and is exposed.
func Example() {
	first, second := must(bulwynef.NewKey()), must(bulwynef.NewKey())
	keys := func(key *bulwynef.Key) []bulwynef.PublicKey { return []bulwynef.PublicKey{must(key.Public())} }
	listed := must(bulwynef.Directory(bulwynef.Listed{Node: 1, Keys: keys(first)}, bulwynef.Listed{Node: 2, Keys: keys(second)}))
	one := must(bulwynef.NewNode(listed, 1, first, bulwynef.Tally, 1))
	two, liar := must(bulwynef.NewNode(listed, 2, second, bulwynef.Tally, 1)), must(bulwynef.NewNode(listed, 2, second, bulwynef.Tally, 1))
	witness := must(bulwynef.NewStore(listed, bulwynef.Tally))
	defer witness.Close()
	for place, node := range []*bulwynef.Node{two, liar} {
		must(0, one.Timer(uint64(5+place)))
		message := must(one.Message(must(one.Waiting())[place]))
		must(witness.Take(must(node.Answer(message))))
		fmt.Println("node 2 is", must(witness.Indication(2)))
	}
	fmt.Println("the proof exposes", must(bulwynef.CheckProof(listed, must(witness.Proof(2)), bulwynef.Tally)))
	// Output:
	// node 2 is trusted
	// node 2 is exposed
	// the proof exposes 2
}
