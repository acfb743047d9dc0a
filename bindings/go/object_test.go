package bpfcanon_test

import (
	"bytes"
	"crypto/sha256"
	"testing"

	"bpfcanon"
	"bpfcanon/objects"
)

// The tests of the package for Python read all files of testdata/objects, over the same calls.

// A file that is shorter than its canonical file, compared with that and with another one.
func TestObjects(t *testing.T) {
	short := load(t, "objects/changed.shared_bytes.little.o")
	canonical, err := objects.Canon(short)
	if err != nil || len(canonical) <= len(short) {
		t.Fatalf("%d bytes, %v, of %d", len(canonical), err, len(short))
	}
	again, err := objects.Canon(canonical)
	wantBytes(t, "the canonical file of a canonical file", again, err, canonical)
	if key, err := objects.Key(short); err != nil || key != sha256.Sum256(canonical) {
		t.Errorf("key %x, %v", key, err)
	}
	if err := objects.Check(short); err != nil {
		t.Error(err)
	}
	for want, other := range map[bool][]byte{true: canonical, false: load(t, "objects/pass.little.debug.o")} {
		if got, err := objects.Same(short, other); err != nil || got != want {
			t.Errorf("same: %v, %v, want %v", got, err, want)
		}
	}
}

// A fault of the object file, and one of .BTF by itself, whose version is 2.
func TestFaultyObjects(t *testing.T) {
	good := load(t, "objects/pass.little.debug.o")
	version := bytes.Index(good, []byte{0x9f, 0xeb, 1, 0, 24, 0, 0, 0}) + 2
	types := append(append(append([]byte{}, good[:version]...), 2), good[version+1:]...)
	for name, it := range map[string]struct {
		data []byte
		want bpfcanon.FaultError
	}{
		"cut":   {good[:63], bpfcanon.FaultError{Cause: bpfcanon.ErrObjectFileCut, Offset: 63}},
		"types": {types, bpfcanon.FaultError{Cause: bpfcanon.ErrBTFVersion, Offset: uint64(version)}},
	} {
		_, canonErr := objects.Canon(it.data)
		_, keyErr := objects.Key(it.data)
		same, sameErr := objects.Same(it.data, good)
		for _, err := range []error{canonErr, keyErr, sameErr, objects.Check(it.data)} {
			wantFault(t, name, err, it.want)
		}
		sameSecond, err := objects.Same(good, it.data)
		it.want.Second = true
		wantFault(t, name, err, it.want)
		if same || sameSecond {
			t.Errorf("%s, beside the error: same %v, %v as the second", name, same, sameSecond)
		}
	}
}
