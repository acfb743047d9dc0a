package bpfcanon

import (
	"fmt"

	"bpfcanon/internal/capi"
)

// An EncodeBTFError is returned for a Type that can't be encoded.
type EncodeBTFError struct {
	// Index is the index of the Type, counted from 0. Its ID is Index + 1.
	Index int
	// Type is that Type.
	Type Type
	// Cause is what is wrong, for example ErrBTFReference if an ID is over the number of types. It is 0
	// for a value that no BTF holds: nil, a pointer to one of the structs, a name with a NUL byte, a
	// number that its field can't hold, or more than 65,535 items.
	Cause BTFCause
}

// Error returns the index of the Type, and the name of the cause and its sentence.
func (e *EncodeBTFError) Error() string {
	if e.Cause == 0 {
		return fmt.Sprintf("bpfcanon: the type with index %d has no encoding: %#v", e.Index, e.Type)
	}
	return fmt.Sprintf("bpfcanon: the type with index %d: %s: %s", e.Index, e.Cause.String(), e.Cause.Error())
}

// Unwrap returns the cause, so that errors.Is compares it.
func (e *EncodeBTFError) Unwrap() error {
	if e.Cause == 0 {
		return nil
	}
	return e.Cause
}

// EncodeBTF returns the canonical form of the BTF that has these types, in the byte order `to`. With
// to == Little these are its canonical bytes. The first type has the ID 1, and types refer to each
// other by their IDs.
//
// The names, each counted once and with a NUL, are at most 16 MiB long, and the records of the types
// at most 32 MiB.
//
// Errors: an *EncodeBTFError for a Type that can't be encoded; ErrOutOfMemory, ErrOrder. A Type that has
// no record of bpfcanon.h comes before all others: nil, a pointer, more than 65,535 items, or a
// component that isn't WholeType or an index of 31 bits. The order of the other faults is that of
// bpfcanon_btf_encode in bpfcanon.h.
func EncodeBTF(to Order, types []Type) ([]byte, error) {
	b, err := recordsOf(types)
	if err != nil {
		return nil, err
	}
	// A type has at most 24 bytes without its items, and an item 12.
	out := make([]byte, least(BTFMax, 32+24*len(b.types)+12*len(b.items)+len(b.strings)))
	got := capi.BTFEncode(capi.Order(to), b.types, b.items, b.strings, out)
	if got.Status == capi.Fault && got.Offset < uint64(len(types)) {
		return nil, &EncodeBTFError{int(got.Offset), types[got.Offset], BTFCause(got.Cause)}
	}
	if err := errorOf(got, btfCause); err != nil {
		return nil, err
	}
	return out[:got.Written], nil
}
