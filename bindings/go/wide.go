package bpfcanon

// #include <bpfcanon.h>
import "C"

import "bpfcanon/internal/capi"

// A WideOf is what a wide load loads (RFC 9669 section 5.4): a Number, or an address that is
// identified by a MapFD, MapValueFD, VarAddr, CodeAddr, MapIdx or MapValueIdx.
type WideOf interface {
	// immediates returns the number of the variant, which is the src field of a wide load, and the
	// immediates of its two slots.
	immediates() (src uint8, imm, nextImm int32)
}

// A Number is a 64-bit number: its low half is the immediate of the first slot.
type Number uint64

// A MapFD is a map, by its file descriptor.
type MapFD struct{ FD int32 }

// A MapValueFD is an address in a map's value, by the map's file descriptor and the offset in bytes.
type MapValueFD struct{ FD, Offset int32 }

// A VarAddr is a platform variable, by its ID. On Linux, loaders store the file descriptor of a
// module's BTF in Next, the immediate of the second slot.
type VarAddr struct{ ID, Next int32 }

// A CodeAddr is the address of an instruction, by its offset in slots, relative to the next
// instruction.
type CodeAddr struct{ Offset int32 }

// A MapIdx is a map, by its index.
type MapIdx struct{ Index int32 }

// A MapValueIdx is an address in a map's value, by the map's index and the offset in bytes.
type MapValueIdx struct{ Index, Offset int32 }

func (n Number) immediates() (uint8, int32, int32) {
	return C.BPFCANON_WIDE_NUMBER, int32(uint32(n)), int32(uint32(n >> 32))
}
func (m MapFD) immediates() (uint8, int32, int32) { return C.BPFCANON_WIDE_MAP_FD, m.FD, 0 }
func (m MapValueFD) immediates() (uint8, int32, int32) {
	return C.BPFCANON_WIDE_MAP_VALUE_FD, m.FD, m.Offset
}
func (v VarAddr) immediates() (uint8, int32, int32)  { return C.BPFCANON_WIDE_VAR_ADDR, v.ID, v.Next }
func (c CodeAddr) immediates() (uint8, int32, int32) { return C.BPFCANON_WIDE_CODE_ADDR, c.Offset, 0 }
func (m MapIdx) immediates() (uint8, int32, int32)   { return C.BPFCANON_WIDE_MAP_IDX, m.Index, 0 }
func (m MapValueIdx) immediates() (uint8, int32, int32) {
	return C.BPFCANON_WIDE_MAP_VALUE_IDX, m.Index, m.Offset
}

// wideOf returns what the record of a wide load says.
func wideOf(r *capi.Insn) WideOf {
	switch r.Op {
	case C.BPFCANON_WIDE_MAP_FD:
		return MapFD{r.Imm}
	case C.BPFCANON_WIDE_MAP_VALUE_FD:
		return MapValueFD{r.Imm, r.NextImm}
	case C.BPFCANON_WIDE_VAR_ADDR:
		return VarAddr{r.Imm, r.NextImm}
	case C.BPFCANON_WIDE_CODE_ADDR:
		return CodeAddr{r.Imm}
	case C.BPFCANON_WIDE_MAP_IDX:
		return MapIdx{r.Imm}
	case C.BPFCANON_WIDE_MAP_VALUE_IDX:
		return MapValueIdx{r.Imm, r.NextImm}
	}
	return Number(uint64(uint32(r.NextImm))<<32 | uint64(uint32(r.Imm)))
}
