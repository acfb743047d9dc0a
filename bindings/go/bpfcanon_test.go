package bpfcanon_test

import (
	"bytes"
	"encoding/binary"
	"encoding/hex"
	"errors"
	"os"
	"path/filepath"
	"strings"
	"testing"

	"bpfcanon"
)

var orders = []bpfcanon.Order{bpfcanon.Little, bpfcanon.Big}

// The bytes that are written in hexadecimal, with blanks between them.
func unhex(t testing.TB, text string) []byte {
	t.Helper()
	b, err := hex.DecodeString(strings.ReplaceAll(text, " ", ""))
	if err != nil {
		t.Fatal(err)
	}
	return b
}

func load(t testing.TB, name string) []byte {
	t.Helper()
	b, err := os.ReadFile(filepath.Join("..", "..", "testdata", name))
	if err != nil {
		t.Fatal(err)
	}
	return b
}

// BTF with a 24-byte header, these 32-bit fields as its records and this string section.
func btf(order binary.ByteOrder, words []uint32, names string) []byte {
	file := new(bytes.Buffer)
	for _, part := range []interface{}{
		uint16(0xeb9f), uint8(1), uint8(0), uint32(24),
		uint32(0), uint32(4 * len(words)), uint32(4 * len(words)), uint32(len(names)),
		words, []byte(names),
	} {
		if err := binary.Write(file, order, part); err != nil {
			panic(err)
		}
	}
	return file.Bytes()
}

// Checks that a call returned these bytes and no error.
func wantBytes(t *testing.T, what string, got []byte, err error, want []byte) {
	t.Helper()
	if err != nil || !bytes.Equal(got, want) {
		t.Errorf("%s: %x, %v; want %x", what, got, err, want)
	}
}

// Checks that a call returned this fault, which errors.As finds and errors.Is compares by its cause.
func wantFault(t *testing.T, what string, err error, want bpfcanon.FaultError) {
	t.Helper()
	var fault *bpfcanon.FaultError
	if !errors.As(err, &fault) || *fault != want || !errors.Is(err, want.Cause) {
		t.Errorf("%s: %+v, want %+v", what, err, want)
	}
}

func TestAnOrderThatIsNoneIsRefused(t *testing.T) {
	const none = bpfcanon.Order(2)
	exit := unhex(t, "95 00 0000 00000000")
	for name, call := range map[string]func() error{
		"CanonBTF":         func() error { _, err := bpfcanon.CanonBTF(none, btf(binary.LittleEndian, nil, "\x00")); return err },
		"EncodeBTF":        func() error { _, err := bpfcanon.EncodeBTF(none, nil); return err },
		"CanonInsns":       func() error { _, err := bpfcanon.CanonInsns(none, bpfcanon.Little, exit); return err },
		"CanonInsns to":    func() error { _, err := bpfcanon.CanonInsns(bpfcanon.Little, none, exit); return err },
		"ShowInsns":        func() error { _, err := bpfcanon.ShowInsns(none, exit); return err },
		"ReadInsns":        func() error { _, err := bpfcanon.ReadInsns(none, []byte("exit")); return err },
		"GroupsOf":         func() error { _, err := bpfcanon.GroupsOf(none, exit); return err },
		"SameInsns":        func() error { _, err := bpfcanon.SameInsns(none, exit, bpfcanon.Little, exit); return err },
		"SameInsns second": func() error { _, err := bpfcanon.SameInsns(bpfcanon.Little, exit, none, exit); return err },
		"InsnWriter": func() error {
			_, err := bpfcanon.NewInsnWriter(new(bytes.Buffer), bpfcanon.Little, none).Write(exit)
			return err
		},
	} {
		if err := call(); !errors.Is(err, bpfcanon.ErrOrder) {
			t.Errorf("%s: %v", name, err)
		}
	}
	for order, want := range map[bpfcanon.Order]string{bpfcanon.Little: "little", bpfcanon.Big: "big", none: "Order(2)"} {
		if got := order.String(); got != want {
			t.Errorf("%q, want %q", got, want)
		}
	}
}
