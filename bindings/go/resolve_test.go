package bpfcanon_test

import (
	"encoding/binary"
	"testing"

	"bpfcanon"
)

// What a type is without its qualifiers, typedefs and type tags, and chains that have no end.
func TestResolve(t *testing.T) {
	var file []uint32
	for _, it := range []struct {
		kind         bpfcanon.Kind
		name, target uint32
	}{
		{bpfcanon.KindInt, 1, 4}, // its size
		{bpfcanon.KindConst, 0, 1},
		{bpfcanon.KindVolatile, 0, 2},
		{bpfcanon.KindTypedef, 5, 3},
		{bpfcanon.KindRestrict, 0, 4},
		{bpfcanon.KindTypeTag, 1, 5},
		{bpfcanon.KindPtr, 0, 6},
		{bpfcanon.KindConst, 0, 0},
		{bpfcanon.KindConst, 0, 9},    // of itself
		{bpfcanon.KindTypedef, 5, 11}, // of 11, which is a volatile of 10
		{bpfcanon.KindVolatile, 0, 10},
		{bpfcanon.KindTypeTag, 1, 9},
		{bpfcanon.KindPtr, 0, 13}, // to itself, which Resolve doesn't follow
		{bpfcanon.KindTypedef, 5, 13},
	} {
		file = append(file, it.name, info(it.kind, 0, 0), it.target)
		if it.kind == bpfcanon.KindInt {
			file = append(file, 32)
		}
	}
	b := decode(t, btf(binary.BigEndian, file, ownStrings))
	for id, want := range []bpfcanon.ID{0, 1, 1, 1, 1, 1, 1, 7, 0} {
		if got, err := b.Resolve(bpfcanon.ID(id)); got != want || err != nil {
			t.Errorf("%d is %d, %v, want %d", id, got, err, want)
		}
	}
	for id, want := range map[bpfcanon.ID]bpfcanon.ID{13: 13, 14: 13} {
		if got, err := b.Resolve(id); got != want || err != nil {
			t.Errorf("%d is %d, %v, want %d", id, got, err, want)
		}
	}
	for id := bpfcanon.ID(9); id <= 12; id++ {
		if got, err := b.Resolve(id); got != 0 || err != bpfcanon.ErrCycle {
			t.Errorf("%d is %d, %v", id, got, err)
		}
	}
}

// Each type of a file may be in the chain: a const of the type before it, and the first one of void.
func TestAChainOfAllTypes(t *testing.T) {
	var file []uint32
	for length := uint32(1); length < 5; length++ {
		file = append(file, 0, info(bpfcanon.KindConst, 0, 0), length-1)
		if got, err := decode(t, btf(binary.LittleEndian, file, "\x00")).Resolve(bpfcanon.ID(length)); got != 0 || err != nil {
			t.Errorf("%d is %d, %v, want 0", length, got, err)
		}
	}
}
