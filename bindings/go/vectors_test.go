package bpfcanon_test

import (
	"encoding/binary"
	"encoding/hex"
	"fmt"
	"os"
	"path/filepath"
	"reflect"
	"strings"
	"testing"

	"bpfcanon"
)

// The tests from C have each row of testdata/vectors.tsv by each call on bytes. Here are the values that are decoded from the rows, and a
// sample of each call.

// The fields of each row of a kind of testdata/vectors.tsv, without the kind. testdata/README.md describes the columns.
func vectors(t testing.TB, kind string) (rows [][]string) {
	t.Helper()
	file, err := os.ReadFile(filepath.Join("..", "..", "testdata", "vectors.tsv"))
	if err != nil {
		t.Fatal(err)
	}
	for _, line := range strings.Split(string(file), "\n") {
		if fields := strings.Split(line, "\t"); fields[0] == kind {
			rows = append(rows, fields[1:])
		}
	}
	if len(rows) == 0 {
		t.Fatalf("no row of %s", kind)
	}
	return rows
}

// The bytes of a field of hexadecimal digits.
func data(t testing.TB, field string) []byte {
	t.Helper()
	b, err := hex.DecodeString(strings.TrimSuffix(field, "-"))
	if err != nil {
		t.Fatal(err)
	}
	return b
}

// Each instruction is decoded from each byte order and encoded in each.
func TestInstructionsOfVectors(t *testing.T) {
	for _, row := range vectors(t, "insn") {
		line, programs, group := row[0], [][]byte{data(t, row[1]), data(t, row[2])}, row[3]
		for _, order := range orders {
			decoded, err := bpfcanon.DecodeInsns(order, programs[order])
			if err != nil || decoded.Len() != 1 {
				t.Fatalf("%s: %v, %v", line, decoded, err)
			}
			insn := decoded.At(0)
			if decoded.Offset(0) != 0 || decoded.Group(0).String() != group || decoded.Form(0) != bpfcanon.FormOf(insn) {
				t.Errorf("%s: at %d, %v, %v", line, decoded.Offset(0), decoded.Group(0), decoded.Form(0))
			}
			// The name of its operation is in the mnemonic.
			if op := reflect.ValueOf(insn).FieldByName("Op"); op.IsValid() && !strings.Contains(line, fmt.Sprint(op)) {
				t.Errorf("%s is %v", line, insn)
			}
			for _, to := range orders {
				got, err := bpfcanon.EncodeInsns(to, []bpfcanon.Insn{insn})
				wantBytes(t, line, got, err, programs[to])
			}
		}
	}
}

func TestCallsOnInstructions(t *testing.T) {
	var lines string
	for _, row := range insns {
		lines += row.line + "\n"
	}
	for _, order := range orders {
		program := together(t, order)
		for _, to := range orders {
			got, err := bpfcanon.CanonInsns(order, to, program)
			wantBytes(t, "converted", got, err, together(t, to))
			for want, other := range map[bool][]byte{true: together(t, to), false: nil} {
				if same, err := bpfcanon.SameInsns(order, program, to, other); same != want || err != nil {
					t.Errorf("same: %v, %v, want %v", same, err, want)
				}
			}
		}
		got, err := bpfcanon.ShowInsns(order, program)
		wantBytes(t, "shown", got, err, []byte(lines))
		got, err = bpfcanon.ReadInsns(order, []byte(lines))
		wantBytes(t, "read", got, err, program)
		if groups, err := bpfcanon.GroupsOf(order, program); groups.String() != "base32 base64 atomic32 atomic64" || err != nil {
			t.Errorf("groups %v, %v", groups, err)
		}
	}
}

// Checks that calls on an input ended with this fault, and a comparison with it as the second input likewise.
func wantFaults(t *testing.T, what string, want bpfcanon.FaultError, second error, errs ...error) {
	t.Helper()
	for _, err := range errs {
		wantFault(t, what, err, want)
	}
	want.Second = true
	wantFault(t, what+" as the second", second, want)
}

// A register beside an immediate, after an instruction. The tests of the package for Python have all faults of the vectors.
func TestFaultyInstructions(t *testing.T) {
	for order, program := range [][]byte{unhex(t, "95 00 0000 00000000 04 10 0000 05000000"), unhex(t, "95 00 0000 00000000 04 01 0000 00000005")} {
		order := bpfcanon.Order(order)
		_, canon := bpfcanon.CanonInsns(order, bpfcanon.Little, program)
		_, show := bpfcanon.ShowInsns(order, program)
		_, groups := bpfcanon.GroupsOf(order, program)
		_, decode := bpfcanon.DecodeInsns(order, program)
		same, first := bpfcanon.SameInsns(order, program, order, nil)
		sameSecond, second := bpfcanon.SameInsns(order, nil, order, program)
		wantFaults(t, "instructions", bpfcanon.FaultError{Cause: bpfcanon.ErrInsnSrc, Offset: 9}, second, canon, show, groups, decode, first)
		if same || sameSecond {
			t.Errorf("beside the error: same %v, %v as the second", same, sameSecond)
		}
	}
	_, err := bpfcanon.ReadInsns(bpfcanon.Little, []byte("exit\nleave\n"))
	wantFault(t, "a listing", err, bpfcanon.FaultError{Cause: bpfcanon.ErrLineWord, Line: 2})
}

// The types are decoded from each file and encoded in each byte order.
func TestTypesOfVectors(t *testing.T) {
	for _, row := range vectors(t, "btf") {
		canonical := [][]byte{data(t, row[2]), data(t, row[3])}
		for _, given := range [][]byte{data(t, row[1]), canonical[0], canonical[1]} {
			decoded := decode(t, given)
			if fmt.Sprint(decoded.Len()) != row[4] {
				t.Errorf("%s: %d types, want %s", row[0], decoded.Len(), row[4])
			}
			for _, to := range orders {
				got, err := bpfcanon.EncodeBTF(to, decoded.Types())
				wantBytes(t, row[0], got, err, canonical[to])
			}
		}
	}
}

func TestCallsOnTypes(t *testing.T) {
	files := [][]byte{btf(binary.LittleEndian, words, ownStrings), btf(binary.BigEndian, words, ownStrings)}
	for _, file := range files {
		for to, want := range files {
			got, err := bpfcanon.CanonBTF(bpfcanon.Order(to), file)
			wantBytes(t, "canonical", got, err, want)
			for want, other := range map[bool][]byte{true: want, false: btf(binary.LittleEndian, nil, "\x00")} {
				if same, err := bpfcanon.SameBTF(file, other); same != want || err != nil {
					t.Errorf("same: %v, %v, want %v", same, err, want)
				}
			}
		}
		if count, err := bpfcanon.CheckBTF(file); count != 3 || err != nil {
			t.Errorf("%d types, %v", count, err)
		}
	}
}

// A PTR to a type that isn't there.
func TestFaultyTypes(t *testing.T) {
	for _, order := range []binary.ByteOrder{binary.LittleEndian, binary.BigEndian} {
		good, given := btf(order, nil, "\x00"), btf(order, []uint32{0, info(bpfcanon.KindPtr, 0, 0), 2}, "\x00")
		_, canon := bpfcanon.CanonBTF(bpfcanon.Little, given)
		_, show := bpfcanon.ShowBTF(given)
		_, check := bpfcanon.CheckBTF(given)
		_, decode := bpfcanon.DecodeBTF(given)
		same, first := bpfcanon.SameBTF(given, good)
		sameSecond, second := bpfcanon.SameBTF(good, given)
		wantFaults(t, "types", bpfcanon.FaultError{Cause: bpfcanon.ErrBTFReference, Offset: 32}, second, canon, show, check, decode, first)
		if same || sameSecond {
			t.Errorf("beside the error: same %v, %v as the second", same, sameSecond)
		}
	}
}
