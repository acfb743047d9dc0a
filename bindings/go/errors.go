package bpfcanon

import (
	"errors"
	"fmt"

	"bpfcanon/internal/capi"
)

// ErrOutOfMemory is returned if the library runs out of memory.
var ErrOutOfMemory = errors.New("bpfcanon: out of memory")

// ErrOrder is returned if an Order is neither Little nor Big.
var ErrOrder = errors.New("bpfcanon: no such byte order")

// ErrClosed is returned by a write to an InsnWriter that was closed.
var ErrClosed = errors.New("bpfcanon: the writer is closed")

// An UnknownRecordError is returned if the library is newer than this package, and decodes an
// instruction of a form, or a type of a kind, that the package doesn't know.
type UnknownRecordError struct {
	// Index is the index of the instruction or of the type, counted from 0.
	Index int
}

// Error returns the index of the record.
func (e *UnknownRecordError) Error() string {
	return fmt.Sprintf("bpfcanon: unknown record %d of a newer library", e.Index)
}

// A FaultError is the first fault of an input. errors.Is compares it with a cause, and errors.As
// finds its offset or line.
type FaultError struct {
	// Cause is an InsnCause, a LineCause, a BTFCause or an ObjectCause.
	Cause Cause
	// Offset is the offset of the fault in bytes. It is 0 for a fault in a listing, which has a line.
	Offset uint64
	// Line is the line of a fault in a listing, counted from 1, and 0 for other faults.
	Line uint64
	// Second is set if the fault is in the second of two inputs and the first is valid.
	Second bool
}

// Error returns the offset or line of the fault, the name of the cause and its sentence.
func (e *FaultError) Error() string {
	input, position := "", fmt.Sprintf("byte %d", e.Offset)
	if e.Second {
		input = "second input: "
	}
	if e.Line > 0 {
		position = fmt.Sprintf("line %d", e.Line)
	}
	return fmt.Sprintf("bpfcanon: %s%s: %s: %s", input, position, e.Cause.String(), e.Cause.Error())
}

// Unwrap returns the cause.
func (e *FaultError) Unwrap() error {
	return e.Cause
}

// The causes of each kind of input, by their numbers.
func insnCause(number uint32) Cause { return InsnCause(number) }
func lineCause(number uint32) Cause { return LineCause(number) }
func btfCause(number uint32) Cause  { return BTFCause(number) }

// errorOf returns the error that an answer stands for, or nil.
func errorOf(a capi.Answer, cause func(uint32) Cause) error {
	switch a.Status {
	case capi.Done, capi.Different:
		return nil
	case capi.Fault, capi.FaultSecond:
		return &FaultError{Cause: cause(a.Cause), Offset: a.Offset, Line: a.Line, Second: a.Status == capi.FaultSecond}
	case capi.OutOfMemory:
		return ErrOutOfMemory
	case capi.BadOrder:
		return ErrOrder
	}
	return fmt.Errorf("bpfcanon: unexpected status %d", a.Status)
}
