package capi

// #include <bpfcanon.h>
import "C"

import (
	"reflect"
	"unsafe"
)

// The records of bpfcanon.h, with the same fields in the same places. They have no pointers, so that
// C may write into slices of them.

// An Insn is a bpfcanon_insn.
type Insn struct {
	Form, Op, Bits, FromBits, Dst, Src, ByReg, Len uint8
	Off                                            int16
	Group                                          uint16
	Imm, NextImm                                   int32
	Zero                                           uint32
	Offset                                         uint64
}

// A BTFType is a bpfcanon_btf_type.
type BTFType struct {
	Kind, Flag, Encoding, Linkage, BitOffset, Bits   uint8
	Items                                            uint16
	Name, NameLen, Size, Target, IndexType, Elements uint32
	Component                                        int32
	First                                            uint32
}

// A BTFItem is a bpfcanon_btf_item.
type BTFItem struct {
	Name, NameLen, Target, BitOffset, Width, Offset, Size, Kind uint32
	Value                                                       uint64
}

// Layouts returns the type of each record and that of its struct in the header, so that a test can
// compare them.
func Layouts() [][2]reflect.Type {
	return [][2]reflect.Type{
		{reflect.TypeOf(Insn{}), reflect.TypeOf(C.bpfcanon_insn{})},
		{reflect.TypeOf(BTFType{}), reflect.TypeOf(C.bpfcanon_btf_type{})},
		{reflect.TypeOf(BTFItem{}), reflect.TypeOf(C.bpfcanon_btf_item{})},
	}
}

func insnStart(insns []Insn) *C.bpfcanon_insn {
	if len(insns) == 0 {
		return nil
	}
	return (*C.bpfcanon_insn)(unsafe.Pointer(&insns[0]))
}

func typeStart(types []BTFType) *C.bpfcanon_btf_type {
	if len(types) == 0 {
		return nil
	}
	return (*C.bpfcanon_btf_type)(unsafe.Pointer(&types[0]))
}

func itemStart(items []BTFItem) *C.bpfcanon_btf_item {
	if len(items) == 0 {
		return nil
	}
	return (*C.bpfcanon_btf_item)(unsafe.Pointer(&items[0]))
}

func InsnDecode(order Order, program []byte, out []Insn) Answer {
	return answer(C.bpfcanon_insn_decode(C.uint32_t(order), start(program), size(program), insnStart(out), C.size_t(len(out))))
}

func InsnEncode(to Order, insns []Insn, out []byte) Answer {
	return answer(C.bpfcanon_insn_encode(C.uint32_t(to), insnStart(insns), C.size_t(len(insns)), start(out), size(out)))
}

func BTFDecode(file []byte, types []BTFType, items []BTFItem) Answer {
	return answer(C.bpfcanon_btf_decode(start(file), size(file),
		typeStart(types), C.size_t(len(types)), itemStart(items), C.size_t(len(items))))
}

func BTFEncode(to Order, types []BTFType, items []BTFItem, strings, out []byte) Answer {
	return answer(C.bpfcanon_btf_encode(C.uint32_t(to), typeStart(types), C.size_t(len(types)),
		itemStart(items), C.size_t(len(items)), textStart(strings), size(strings), start(out), size(out)))
}
