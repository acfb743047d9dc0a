// Package capi makes the calls of bpfcanon.h. Inputs and output buffers are slices of the caller,
// which no call copies. The comments of the header describe each call.
package capi

// #cgo pkg-config: bpfcanon
// #include <bpfcanon.h>
// #if BPFCANON_VERSION_NUMBER < 1000 || BPFCANON_VERSION_MAJOR > 0
// #error "this package needs version 0.1 or a later 0.x of the C library bpfcanon"
// #endif
import "C"

import "unsafe"

// An Order is the number of a byte order.
type Order uint32

// A Status is how a call ended.
type Status uint32

const (
	Done        Status = C.BPFCANON_STATUS_DONE
	Different   Status = C.BPFCANON_STATUS_DIFFERENT
	Fault       Status = C.BPFCANON_STATUS_FAULT
	FaultSecond Status = C.BPFCANON_STATUS_FAULT_SECOND
	OutOfMemory Status = C.BPFCANON_STATUS_OUT_OF_MEMORY
	Room        Status = C.BPFCANON_STATUS_ROOM
	BadOrder    Status = C.BPFCANON_STATUS_ORDER
	Alignment   Status = C.BPFCANON_STATUS_ALIGNMENT
)

// ObjectMax is the length of the longest object file that is accepted, and KeySize that of a key.
const (
	ObjectMax = C.BPFCANON_OBJECT_MAX
	KeySize   = C.BPFCANON_KEY_SIZE
)

// The last number of the causes of each kind that the header declares. They start at 1, and those of
// object files at 101.
const (
	InsnCauses   = C.BPFCANON_INSN_CAUSE_MAX
	LineCauses   = C.BPFCANON_LINE_CAUSE_MAX
	BTFCauses    = C.BPFCANON_BTF_CAUSE_MAX
	ObjectCauses = C.BPFCANON_OBJECT_CAUSE_MAX
)

// HeaderVersion is the version of the header that this package was compiled with.
const HeaderVersion = C.BPFCANON_VERSION

// An Answer is what a call returns. A field that the status doesn't set is 0.
type Answer struct {
	Status  Status
	Cause   uint32
	Offset  uint64
	Line    uint64
	Read    int
	Written int
	Needed  int
	Types   uint32
	Groups  uint32
}

// start returns the address of the first byte of a slice, or nil, which every call accepts, if the
// slice is empty.
func start(b []byte) *C.uint8_t {
	if len(b) == 0 {
		return nil
	}
	return (*C.uint8_t)(unsafe.Pointer(&b[0]))
}

func textStart(b []byte) *C.char {
	return (*C.char)(unsafe.Pointer(start(b)))
}

func size(b []byte) C.size_t {
	return C.size_t(len(b))
}

func answer(a C.bpfcanon_answer) Answer {
	return Answer{
		Status(a.status), uint32(a.cause), uint64(a.offset), uint64(a.line),
		int(a.read), int(a.written), int(a.needed), uint32(a.types), uint32(a.groups),
	}
}

func BTFCanon(to Order, types, out []byte) Answer {
	return answer(C.bpfcanon_btf_canon(C.uint32_t(to), start(types), size(types), start(out), size(out)))
}

func BTFCheck(types []byte) Answer {
	return answer(C.bpfcanon_btf_check(start(types), size(types)))
}

func BTFSame(first, second []byte) Answer {
	return answer(C.bpfcanon_btf_same(start(first), size(first), start(second), size(second)))
}

func BTFShow(types, out []byte) Answer {
	return answer(C.bpfcanon_btf_show(start(types), size(types), textStart(out), size(out)))
}

func InsnCanon(order, to Order, program, out []byte) Answer {
	return answer(C.bpfcanon_insn_canon(C.uint32_t(order), C.uint32_t(to),
		start(program), size(program), start(out), size(out)))
}

func InsnGroups(order Order, program []byte) Answer {
	return answer(C.bpfcanon_insn_groups(C.uint32_t(order), start(program), size(program)))
}

func InsnSame(firstOrder Order, first []byte, secondOrder Order, second []byte) Answer {
	return answer(C.bpfcanon_insn_same(C.uint32_t(firstOrder), start(first), size(first),
		C.uint32_t(secondOrder), start(second), size(second)))
}

func InsnShow(order Order, program, out []byte) Answer {
	return answer(C.bpfcanon_insn_show(C.uint32_t(order), start(program), size(program), textStart(out), size(out)))
}

func InsnRead(to Order, listing, out []byte) Answer {
	return answer(C.bpfcanon_insn_read(C.uint32_t(to), textStart(listing), size(listing), start(out), size(out)))
}

func InsnFront(order, to Order, piece, out []byte) Answer {
	return answer(C.bpfcanon_insn_front(C.uint32_t(order), C.uint32_t(to),
		start(piece), size(piece), start(out), size(out)))
}

func ObjectCanon(object, out []byte) Answer {
	return answer(C.bpfcanon_object_canon(start(object), size(object), start(out), size(out)))
}

func ObjectSame(first, second []byte) Answer {
	return answer(C.bpfcanon_object_same(start(first), size(first), start(second), size(second)))
}

func ObjectKey(object, out []byte) Answer {
	return answer(C.bpfcanon_object_key(start(object), size(object), start(out), size(out)))
}

func ObjectCheck(object []byte) Answer {
	return answer(C.bpfcanon_object_check(start(object), size(object)))
}
