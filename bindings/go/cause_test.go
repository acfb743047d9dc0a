package bpfcanon_test

import (
	"errors"
	"fmt"
	"strings"
	"testing"

	"bpfcanon"
	"bpfcanon/internal/capi"
)

// The package has the causes of the header from the first on, and the library has a name and a sentence for each. A number after the last
// is one of a newer library.
func TestCausesAreThoseOfTheHeader(t *testing.T) {
	for _, kind := range []struct {
		first      bpfcanon.Cause
		start, end int
		cause      func(number int) bpfcanon.Cause
		name       string
	}{
		{bpfcanon.ErrInsnTruncated, 1, capi.InsnCauses, func(n int) bpfcanon.Cause { return bpfcanon.InsnCause(n) }, "Truncated"},
		{bpfcanon.ErrLineChar, 1, capi.LineCauses, func(n int) bpfcanon.Cause { return bpfcanon.LineCause(n) }, "Char"},
		{bpfcanon.ErrBTFShortHeader, 1, capi.BTFCauses, func(n int) bpfcanon.Cause { return bpfcanon.BTFCause(n) }, "ShortHeader"},
		{bpfcanon.ErrObjectFileTooLarge, 101, capi.ObjectCauses, func(n int) bpfcanon.Cause { return bpfcanon.ObjectCause(n) }, "FileTooLarge"},
	} {
		if kind.first != kind.cause(kind.start) || kind.first.String() != kind.name {
			t.Errorf("the first is %v, want %v, %s", kind.first, kind.cause(kind.start), kind.name)
		}
		for n := kind.start; n <= kind.end; n++ {
			if cause := kind.cause(n); strings.Contains(cause.String(), "(") || len(cause.Error()) < 10 {
				t.Errorf("%d has the name %q and the sentence %q", n, cause.String(), cause.Error())
			}
		}
		if got := kind.cause(kind.end + 1).String(); !strings.HasSuffix(got, fmt.Sprintf("Cause(%d)", kind.end+1)) {
			t.Errorf("%q for the number after the last", got)
		}
	}
}

func TestErrorsNameThePlaceAndTheCause(t *testing.T) {
	for want, fault := range map[string]bpfcanon.FaultError{
		"bpfcanon: byte 9: Opcode: no instruction has this opcode":      {Cause: bpfcanon.ErrInsnOpcode, Offset: 9},
		"bpfcanon: line 2: Word: no instruction has this mnemonic":      {Cause: bpfcanon.ErrLineWord, Line: 2},
		"bpfcanon: second input: byte 2: Version: the version is not 1": {Cause: bpfcanon.ErrBTFVersion, Offset: 2, Second: true},
	} {
		err := error(&fault)
		if err.Error() != want {
			t.Errorf("%q, want %q", err, want)
		}
	}
	// Causes of different kinds are different, also with the same number.
	if err := error(&bpfcanon.FaultError{Cause: bpfcanon.ErrInsnOpcode}); errors.Is(err, bpfcanon.ErrBTFMagic) || errors.Is(err, bpfcanon.ErrLineWord) {
		t.Error("a cause of instructions is one of BTF or of listings")
	}
}
