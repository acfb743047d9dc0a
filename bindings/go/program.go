package bpfcanon

import "bpfcanon/internal/capi"

// The number of bytes of a slot. A wide load has two, and every other instruction has one.
const slotSize = 8

// A Program is a decoded program. It doesn't change, so any number of goroutines may read it. It
// keeps no reference to the bytes that it was decoded from.
type Program struct {
	records []capi.Insn
}

// DecodeInsns decodes the instructions of a program in the byte order `order`. It stores records of
// 32 bytes; no Insn is made before At is called.
//
// Errors: a *FaultError with an InsnCause, ErrOrder, an *UnknownRecordError.
func DecodeInsns(order Order, program []byte) (*Program, error) {
	records := make([]capi.Insn, len(program)/slotSize)
	got := capi.InsnDecode(capi.Order(order), program, records)
	if err := errorOf(got, insnCause); err != nil {
		return nil, err
	}
	if err := checkForms(records[:got.Written]); err != nil {
		return nil, err
	}
	return &Program{records[:got.Written]}, nil
}

// Len returns the number of instructions. A wide load counts once.
func (p *Program) Len() int {
	return len(p.records)
}

// At returns instruction i, counted from 0. It panics if i isn't less than Len.
func (p *Program) At(i int) Insn {
	return insnOf[p.records[i].Form](&p.records[i])
}

// Form returns the form of instruction i. It panics if i isn't less than Len.
func (p *Program) Form(i int) Form {
	return Form(p.records[i].Form)
}

// Offset returns the offset of instruction i in bytes. It panics if i isn't less than Len.
func (p *Program) Offset(i int) uint64 {
	return p.records[i].Offset
}

// Group returns the conformance group of instruction i, without the groups that it includes (RFC
// 9669 section 2.4). It panics if i isn't less than Len.
func (p *Program) Group(i int) Groups {
	return Groups(p.records[i].Group)
}

// Insns returns all instructions.
func (p *Program) Insns() []Insn {
	insns := make([]Insn, len(p.records))
	for i := range insns {
		insns[i] = p.At(i)
	}
	return insns
}
