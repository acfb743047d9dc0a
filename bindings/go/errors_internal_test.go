package bpfcanon

import (
	"errors"
	"testing"

	"bpfcanon/internal/capi"
)

// The statuses that a test can't bring about, and those without an error.
func TestErrorsOfStatuses(t *testing.T) {
	for status, want := range map[capi.Status]error{
		capi.Done: nil, capi.Different: nil, capi.OutOfMemory: ErrOutOfMemory, capi.BadOrder: ErrOrder,
	} {
		if got := errorOf(capi.Answer{Status: status}, insnCause); !errors.Is(got, want) {
			t.Errorf("status %d: %v, want %v", status, got, want)
		}
	}
	if err := errorOf(capi.Answer{Status: 99}, insnCause); err == nil {
		t.Error("an unknown status is no error")
	}
}

// A newer library may have other forms and kinds than those from 1 on.
func TestRecordsOfANewerLibrary(t *testing.T) {
	for _, number := range []uint8{1, 19, 0, 200, 255} {
		insns := checkForms([]capi.Insn{{Form: 11}, {Form: number}})
		types := checkKinds([]capi.BTFType{{Kind: 2}, {Kind: number}})
		for _, err := range []error{insns, types} {
			var unknown *UnknownRecordError
			switch isKnown := number == 1 || number == 19; {
			case isKnown && err != nil:
				t.Errorf("%d: %v", number, err)
			case !isKnown && (!errors.As(err, &unknown) || unknown.Index != 1):
				t.Errorf("%d: %v, want record 1", number, err)
			}
		}
	}
}

func TestTheLibraryHasTheVersionOfItsHeader(t *testing.T) {
	if capi.Version() != capi.HeaderVersion {
		t.Errorf("version %q, and the header has %q", capi.Version(), capi.HeaderVersion)
	}
}
