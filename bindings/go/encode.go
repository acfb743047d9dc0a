package bpfcanon

import (
	"fmt"

	"bpfcanon/internal/capi"
)

// An EncodeInsnError is returned for an Insn that has no encoding, for example because a register is
// over 10, an Operand is nil, or a Size isn't one that its struct allows.
type EncodeInsnError struct {
	// Index is the index of the first such Insn.
	Index int
	// Insn is that Insn.
	Insn Insn
}

// Error returns the index and the value of the Insn.
func (e *EncodeInsnError) Error() string {
	return fmt.Sprintf("bpfcanon: instruction %d has no encoding: %#v", e.Index, e.Insn)
}

// EncodeInsns returns the encoding of instructions in the byte order `to`. With to == Little these
// are their canonical bytes.
//
// Errors: an *EncodeInsnError, ErrOrder.
func EncodeInsns(to Order, insns []Insn) ([]byte, error) {
	records, length := make([]capi.Insn, len(insns)), 0
	for i, insn := range insns {
		records[i] = recordOf(insn)
		length += lengthOf(&records[i])
	}
	out := make([]byte, length)
	got := capi.InsnEncode(capi.Order(to), records, out)
	if got.Status == capi.Fault {
		return nil, &EncodeInsnError{int(got.Offset), insns[got.Offset]}
	}
	if err := errorOf(got, insnCause); err != nil {
		return nil, err
	}
	return out[:got.Written], nil
}

// lengthOf returns the length in bytes of the encoding that a record says.
func lengthOf(r *capi.Insn) int {
	if Form(r.Form) == FormWide {
		return 2 * slotSize
	}
	return slotSize
}
