package bpfcanon

import "bpfcanon/internal/capi"

// CanonInsns converts a program from the byte order `order` to the byte order `to`. With to == Little
// the result is its canonical bytes. It is as long as the program.
//
// Errors: a *FaultError with an InsnCause, ErrOutOfMemory, ErrOrder.
func CanonInsns(order, to Order, program []byte) ([]byte, error) {
	return AppendCanonInsns(nil, order, to, program)
}

// AppendCanonInsns is like CanonInsns, but appends the bytes to dst and returns the extended slice. It
// allocates only if the spare capacity of dst is too small or overlaps the program, which is never
// changed. On an error it returns dst unchanged.
func AppendCanonInsns(dst []byte, order, to Order, program []byte) ([]byte, error) {
	return appendOutput(dst, program, len(program), insnCause, func(out []byte) capi.Answer {
		return capi.InsnCanon(capi.Order(order), capi.Order(to), program, out)
	})
}

// ShowInsns returns the listing of a program: one line for each instruction, with a newline.
// docs/FORMATS.md describes the lines.
//
// Errors: a *FaultError with an InsnCause, ErrOutOfMemory, ErrOrder.
func ShowInsns(order Order, program []byte) ([]byte, error) {
	return AppendShowInsns(nil, order, program)
}

// AppendShowInsns is like ShowInsns, but appends the listing to dst, as AppendCanonInsns does.
func AppendShowInsns(dst []byte, order Order, program []byte) ([]byte, error) {
	// The longest line is 4 times as long as its instruction.
	return appendOutput(dst, program, 4*len(program), insnCause, func(out []byte) capi.Answer {
		return capi.InsnShow(capi.Order(order), program, out)
	})
}

// ReadInsns returns the instructions of a listing in the byte order `to`. Comments, blank lines and
// hexadecimal numbers are allowed.
//
// Errors: a *FaultError with a LineCause and the line, ErrOutOfMemory, ErrOrder.
func ReadInsns(to Order, listing []byte) ([]byte, error) {
	return AppendReadInsns(nil, to, listing)
}

// AppendReadInsns is like ReadInsns, but appends the instructions to dst, as AppendCanonInsns does.
func AppendReadInsns(dst []byte, to Order, listing []byte) ([]byte, error) {
	// Most lines are longer than their instruction. "exit" with its newline is not: 5 bytes for 8.
	return appendOutput(dst, listing, len(listing), lineCause, func(out []byte) capi.Answer {
		return capi.InsnRead(capi.Order(to), listing, out)
	})
}

// GroupsOf returns the conformance groups that a program needs, and the groups that these include.
//
// Errors: a *FaultError with an InsnCause, ErrOrder.
func GroupsOf(order Order, program []byte) (Groups, error) {
	got := capi.InsnGroups(capi.Order(order), program)
	return Groups(got.Groups), errorOf(got, insnCause)
}

// SameInsns reports whether two programs, each in its own byte order, have the same instructions.
//
// Errors: a *FaultError with an InsnCause, whose Second is set if it is in the second program;
// ErrOrder.
func SameInsns(firstOrder Order, first []byte, secondOrder Order, second []byte) (bool, error) {
	got := capi.InsnSame(capi.Order(firstOrder), first, capi.Order(secondOrder), second)
	return got.Status == capi.Done, errorOf(got, insnCause)
}
