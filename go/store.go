package bulwynef

// #include <bulwynef.h>
import "C"

import "runtime"

type handle = C.struct_bulwynef_handle

// A Store is a set of items of evidence under a directory, of nodes that follow a program. Stores of the same items export the same bytes.
// Goroutines may share one: it has a lock, and one call at a time.
type Store struct{ *opened }

// NewStore gives a store without items.
func NewStore(directory []byte, program Program) (*Store, error) {
	it := &Store{newOpened()}
	if err := done(C.bulwynef_store_open(C.uint8_t(program), at(directory), size(directory), &it.handle)); err != nil {
		return nil, err
	}
	it.closeAtItsEnd()
	return it, nil
}

// Take adds an item; whether it is new.
func (it *Store) Take(item []byte) (bool, error) {
	var isNew C.uint8_t
	err := it.with(func(at_ *handle) C.uint8_t { return C.bulwynef_store_take(at_, at(item), size(item), &isNew) })
	return isNew == 1, err
}

// Import adds the items of an export, all or none; how many are new.
func (it *Store) Import(export []byte) (uint64, error) {
	var added C.uint64_t
	err := it.with(func(at_ *handle) C.uint8_t { return C.bulwynef_store_import(at_, at(export), size(export), &added) })
	return uint64(added), err
}

// both does a call on two stores, whose locks every goroutine takes in one order.
func (it *Store) both(other *Store, call func(one, two *handle) C.uint8_t) error {
	first, second := it.opened, other.opened
	if first.number > second.number {
		first, second = second, first
	}
	first.lock.Lock()
	defer first.lock.Unlock()
	second.lock.Lock()
	defer second.lock.Unlock()
	defer runtime.KeepAlive(first)
	defer runtime.KeepAlive(second)
	return done(call(&it.handle, &other.handle))
}

// isOne tells whether both are one store, and whether that is closed: the library refuses one handle that is given twice.
func (it *Store) isOne(other *Store) (bool, error) {
	if it.opened != other.opened {
		return false, nil
	}
	return true, it.with(func(at_ *handle) C.uint8_t {
		if at_.is_open {
			return C.BULWYNEF_OK
		}
		return C.BULWYNEF_REFUSED_CLOSED
	})
}

// Merge adds the items of another store, all or none; how many are new.
func (it *Store) Merge(other *Store) (uint64, error) {
	if one, err := it.isOne(other); one {
		return 0, err
	}
	var added C.uint64_t
	err := it.both(other, func(one, two *handle) C.uint8_t { return C.bulwynef_store_merge(one, two, &added) })
	return uint64(added), err
}

// Includes tells whether each item of the other store is here.
func (it *Store) Includes(other *Store) (bool, error) {
	if one, err := it.isOne(other); one {
		return err == nil, err
	}
	var includes C.uint8_t
	err := it.both(other, func(one, two *handle) C.uint8_t { return C.bulwynef_store_includes(one, two, &includes) })
	return includes == 1, err
}

// Indication gives what the items say of a node.
func (it *Store) Indication(node uint32) (Indication, error) {
	var said C.uint8_t
	err := it.with(func(at_ *handle) C.uint8_t { return C.bulwynef_store_indication(at_, C.uint32_t(node), &said) })
	return Indication(said), err
}

// Proof gives a proof that convicts the node; where the items do not expose it RefusedNotExposed.
func (it *Store) Proof(node uint32) ([]byte, error) {
	return it.text(func(at_, to *handle) C.uint8_t { return C.bulwynef_store_proof(at_, C.uint32_t(node), to) })
}

// Challenges gives the challenges against a node that no item answers, in the order of their bytes.
func (it *Store) Challenges(node uint32) ([][]byte, error) {
	return each(func(place C.size_t) ([]byte, error) {
		return it.text(func(at_, to *handle) C.uint8_t { return C.bulwynef_store_challenge(at_, C.uint32_t(node), place, to) })
	})
}

// Explain says what the items say of each node, under which program and directory, and why, for a person to read.
func (it *Store) Explain() (string, error) {
	told, err := it.text(func(at_, to *handle) C.uint8_t { return C.bulwynef_store_explain(at_, to) })
	return string(told), err
}

// Export gives the one text of the items.
func (it *Store) Export() ([]byte, error) {
	return it.text(func(at_, to *handle) C.uint8_t { return C.bulwynef_store_export(at_, to) })
}

// Outline gives the digest of each of the 256 buckets of items.
func (it *Store) Outline() ([]byte, error) {
	return it.text(func(at_, to *handle) C.uint8_t { return C.bulwynef_store_outline(at_, to) })
}

// Summary gives the digests of all items.
func (it *Store) Summary() ([]byte, error) {
	return it.text(func(at_, to *handle) C.uint8_t { return C.bulwynef_store_summary(at_, to) })
}

// ShortSummary gives the digests of the items in the buckets that differ from another store's outline.
func (it *Store) ShortSummary(outline []byte) ([]byte, error) {
	return it.text(func(at_, to *handle) C.uint8_t {
		return C.bulwynef_store_short_summary(at_, at(outline), size(outline), to)
	})
}

// Pack gives the items that another store's summary does not name.
func (it *Store) Pack(summary []byte) ([]byte, error) {
	return it.text(func(at_, to *handle) C.uint8_t { return C.bulwynef_store_pack(at_, at(summary), size(summary), to) })
}

// Apply adds the items of a pack, all or none; how many are new.
func (it *Store) Apply(pack []byte) (uint64, error) {
	var added C.uint64_t
	err := it.with(func(at_ *handle) C.uint8_t { return C.bulwynef_store_apply(at_, at(pack), size(pack), &added) })
	return uint64(added), err
}
