// Package bpfcanon returns canonical bytes of BPF instructions (RFC 9669) and of BTF, the types of
// BPF programs (Linux Documentation/bpf/btf.rst). It also compares them, disassembles and assembles
// instructions, validates BTF, dumps its types, and finds the conformance groups that a program needs.
//
// Instructions and BTF can be encoded in either byte order, and BTF can lay out its strings in any
// way. Two inputs that are accepted hold the same instructions, or the same types in the same order,
// if and only if their canonical bytes are equal. Every other input is refused with a *FaultError,
// which holds the offset and the cause of its first fault.
//
// DecodeInsns and DecodeBTF return the instructions and types themselves, as values of Go, and refuse
// the same inputs; EncodeInsns and EncodeBTF are the way back. A type is made when it is asked for,
// and its names are substrings of one copy of the input. Types can form a cycle: a program that
// follows the targets of types by itself, and not by Resolve, needs a limit.
//
// The work is done by the C library libbpfcanon, whose core is proved to meet its contracts. The few
// lines of C around that core and this package are tested. cgo finds the library with pkg-config.
// Inputs are not copied, except by DecodeBTF, and no call keeps a reference to its input. Calls may
// run at the same time, but no goroutine may write to an input during a call.
package bpfcanon

// #cgo pkg-config: bpfcanon
// #include <bpfcanon.h>
import "C"

import (
	"fmt"

	"bpfcanon/internal/capi"
)

// An Order is a byte order. Instructions don't record theirs, so the caller passes it; BTF does.
type Order uint32

const (
	Little Order = C.BPFCANON_ORDER_LITTLE // little-endian, the order of canonical bytes
	Big    Order = C.BPFCANON_ORDER_BIG    // big-endian
)

// String returns "little" or "big".
func (o Order) String() string {
	switch o {
	case Little:
		return "little"
	case Big:
		return "big"
	}
	return fmt.Sprintf("Order(%d)", uint32(o))
}

// BTFMax is the length in bytes of the longest BTF that can be valid: 4,096 bytes of header, 32 MiB
// of types and 16 MiB of strings. Instructions and listings have no limit.
const BTFMax = C.BPFCANON_BTF_MAX

// LibraryVersion returns the version of the C library, for example "0.1.0".
func LibraryVersion() string {
	return capi.Version()
}
