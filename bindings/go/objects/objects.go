// Package objects writes canonical BPF object files, makes keys of object files, and compares them.
//
// A canonical file is an object file that loaders read like the original, except for source lines.
// Two accepted files hold the same parts if and only if their canonical files are equal.
// docs/OBJECTS.md defines the file and the causes for which an object file is refused, and says what
// is proved and which loaders were compared.
//
// No call holds a file, a path or a state. A loader passes the bytes that it then loads, so that
// nobody can exchange a file between the check and the load.
//
// Errors are a *bpfcanon.FaultError, whose Cause is a bpfcanon.ObjectCause or, for a fault of .BTF by
// itself, a bpfcanon.BTFCause, and whose Offset counts from the first byte of the file; and
// bpfcanon.ErrOutOfMemory.
package objects

import (
	"fmt"

	"bpfcanon"
	"bpfcanon/internal/capi"
)

// MaxSize is the length in bytes of the longest object file that is accepted, and of the longest
// canonical one: 64 MiB.
const MaxSize = capi.ObjectMax

// KeySize is the length of a key in bytes.
const KeySize = capi.KeySize

// Canon returns the canonical file of an object file. It may be longer than that.
//
// Errors: a *bpfcanon.FaultError with the first fault, bpfcanon.ErrOutOfMemory.
func Canon(data []byte) ([]byte, error) {
	out := make([]byte, len(data))
	got := capi.ObjectCanon(data, out)
	if got.Status == capi.Room {
		out = make([]byte, got.Needed)
		got = capi.ObjectCanon(data, out)
	}
	if err := errorOf(got); err != nil {
		return nil, err
	}
	return out[:got.Written], nil
}

// Key returns the SHA-256 of the canonical file of an object file.
//
// Errors: a *bpfcanon.FaultError with the first fault, bpfcanon.ErrOutOfMemory.
func Key(data []byte) ([KeySize]byte, error) {
	var key [KeySize]byte
	got := capi.ObjectKey(data, key[:])
	return key, errorOf(got)
}

// Same reports whether two object files hold the same parts, that is, whether their canonical files
// are equal.
//
// Errors: a *bpfcanon.FaultError with the first fault, whose Second is set if it is in the second
// file; bpfcanon.ErrOutOfMemory.
func Same(first, second []byte) (bool, error) {
	got := capi.ObjectSame(first, second)
	return got.Status == capi.Done, errorOf(got)
}

// Check returns nil if an object file has a canonical file. Its instructions aren't checked.
//
// Errors: a *bpfcanon.FaultError with the first fault, bpfcanon.ErrOutOfMemory.
func Check(data []byte) error {
	return errorOf(capi.ObjectCheck(data))
}

// errorOf returns the error that an answer stands for, or nil.
func errorOf(a capi.Answer) error {
	switch a.Status {
	case capi.Done, capi.Different:
		return nil
	case capi.Fault, capi.FaultSecond:
		return &bpfcanon.FaultError{Cause: causeOf(a.Cause), Offset: a.Offset, Second: a.Status == capi.FaultSecond}
	case capi.OutOfMemory:
		return bpfcanon.ErrOutOfMemory
	}
	return fmt.Errorf("bpfcanon: unexpected status %d", a.Status)
}

// causeOf returns the cause with a number. A fault of .BTF by itself has its number of BTF.
func causeOf(number uint32) bpfcanon.Cause {
	if cause := bpfcanon.ObjectCause(number); cause >= bpfcanon.ErrObjectFileTooLarge {
		return cause
	}
	return bpfcanon.BTFCause(number)
}
