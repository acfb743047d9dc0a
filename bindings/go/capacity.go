package bpfcanon

import (
	"unsafe"

	"bpfcanon/internal/capi"
)

// appendOutput appends what a call writes to dst. The call gets the spare capacity of dst, which is
// first made at least as large as the guess. If the output is longer, the call is made once more
// with enough capacity for all of it. On an error dst is returned unchanged.
func appendOutput(dst, input []byte, guess int, cause func(uint32) Cause, call func(out []byte) capi.Answer) ([]byte, error) {
	grown := withCapacity(dst, input, guess)
	got := call(grown[len(grown):cap(grown)])
	if got.Status == capi.Room {
		grown = withCapacity(dst, input, got.Needed)
		got = call(grown[len(grown):cap(grown)])
	}
	if err := errorOf(got, cause); err != nil {
		return dst, err
	}
	return grown[:len(grown)+got.Written], nil
}

// withCapacity returns dst with a spare capacity of at least size bytes that share no memory with the
// input: the library may not write where it reads.
func withCapacity(dst, input []byte, size int) []byte {
	if cap(dst)-len(dst) >= size && !overlap(dst[len(dst):cap(dst)], input) {
		return dst
	}
	grown := make([]byte, len(dst), len(dst)+size)
	copy(grown, dst)
	return grown
}

// overlap reports whether two slices have a byte in common.
func overlap(a, b []byte) bool {
	if len(a) == 0 || len(b) == 0 {
		return false
	}
	return uintptr(unsafe.Pointer(&a[0])) <= uintptr(unsafe.Pointer(&b[len(b)-1])) &&
		uintptr(unsafe.Pointer(&b[0])) <= uintptr(unsafe.Pointer(&a[len(a)-1]))
}
