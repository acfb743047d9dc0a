package bpfcanon

import "bpfcanon/internal/capi"

// CanonBTF returns the canonical form of BTF in the byte order `to`. With to == Little these are its
// canonical bytes. They are never longer than the input.
//
// Errors: a *FaultError with a BTFCause, ErrOutOfMemory, ErrOrder.
func CanonBTF(to Order, types []byte) ([]byte, error) {
	return AppendCanonBTF(nil, to, types)
}

// AppendCanonBTF is like CanonBTF, but appends the bytes to dst, as AppendCanonInsns does.
func AppendCanonBTF(dst []byte, to Order, types []byte) ([]byte, error) {
	return appendOutput(dst, types, len(types), btfCause, func(out []byte) capi.Answer {
		return capi.BTFCanon(capi.Order(to), types, out)
	})
}

// ShowBTF returns a listing of the types of BTF: one line for each type and each of its items, with a
// newline. docs/FORMATS.md describes the lines. Names can be any UTF-8.
//
// Errors: a *FaultError with a BTFCause, ErrOutOfMemory.
func ShowBTF(types []byte) ([]byte, error) {
	return AppendShowBTF(nil, types)
}

// AppendShowBTF is like ShowBTF, but appends the listing to dst, as AppendCanonInsns does.
func AppendShowBTF(dst []byte, types []byte) ([]byte, error) {
	// The listing of a kernel's types is about twice as long as they are.
	return appendOutput(dst, types, 3*len(types), btfCause, func(out []byte) capi.Answer {
		return capi.BTFShow(types, out)
	})
}

// CheckBTF returns the number of types of BTF, or its first fault. Type 0, void, is not counted.
//
// Errors: a *FaultError with a BTFCause, ErrOutOfMemory.
func CheckBTF(types []byte) (int, error) {
	got := capi.BTFCheck(types)
	return int(got.Types), errorOf(got, btfCause)
}

// SameBTF reports whether two BTF inputs, in any byte order, have the same types in the same order.
//
// Errors: a *FaultError with a BTFCause, whose Second is set if it is in the second input;
// ErrOutOfMemory.
func SameBTF(first, second []byte) (bool, error) {
	got := capi.BTFSame(first, second)
	return got.Status == capi.Done, errorOf(got, btfCause)
}
