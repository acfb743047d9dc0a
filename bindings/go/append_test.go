package bpfcanon_test

import (
	"bytes"
	"encoding/binary"
	"fmt"
	"strings"
	"testing"

	"bpfcanon"
)

// What dst holds before a call.
const before = "before: "

// A call that appends, with an input and its output.
type appending struct {
	name        string
	input, want []byte
	call        func(dst, input []byte) ([]byte, error)
}

// FLOATs that share a name, and their listing.
func floats(order binary.ByteOrder, count int, name string) (file, text []byte) {
	var words []uint32
	for k := 1; k <= count; k++ {
		words = append(words, 1, 0x10000000, 8)
		text = append(text, fmt.Sprintf("[%d] float \"%s\" size=8\n", k, name)...)
	}
	return btf(order, words, "\x00"+name+"\x00"), text
}

// Each call that appends. The listing of types is shorter than the first guess, or longer.
func appendingCalls(t *testing.T) []appending {
	program, exits := load(t, "packet_filter.big.bin"), bytes.Repeat(unhex(t, insns[5].little), 40)
	types, shortText := floats(binary.BigEndian, 8, "f")
	canonical, _ := floats(binary.LittleEndian, 8, "f")
	named, longText := floats(binary.LittleEndian, 10, strings.Repeat("x", 2000))
	show := bpfcanon.AppendShowBTF
	return []appending{
		{"CanonBTF", types, canonical, func(dst, input []byte) ([]byte, error) {
			return bpfcanon.AppendCanonBTF(dst, bpfcanon.Little, input)
		}},
		{"ShowBTF", types, shortText, show},
		{"ShowBTF of shared names", named, longText, show},
		{"CanonInsns", program, load(t, "packet_filter.little.bin"), func(dst, input []byte) ([]byte, error) {
			return bpfcanon.AppendCanonInsns(dst, bpfcanon.Big, bpfcanon.Little, input)
		}},
		{"ShowInsns", exits, bytes.Repeat([]byte("exit\n"), 40), func(dst, input []byte) ([]byte, error) {
			return bpfcanon.AppendShowInsns(dst, bpfcanon.Little, input)
		}},
		{"ReadInsns", bytes.Repeat([]byte("exit\n"), 40), exits, func(dst, input []byte) ([]byte, error) {
			return bpfcanon.AppendReadInsns(dst, bpfcanon.Little, input)
		}},
	}
}

// Checks that the result is dst and the output, and that dst and the input are as before.
func wantAppended(t *testing.T, what string, it appending, dst, input, got []byte, err error) {
	t.Helper()
	wantBytes(t, what, got, err, append([]byte(before), it.want...))
	if string(dst) != before || !bytes.Equal(input, it.input) {
		t.Errorf("%s: dst is %q now, and the input is changed: %v", what, dst, !bytes.Equal(input, it.input))
	}
}

func TestResultsAreAppended(t *testing.T) {
	for _, it := range appendingCalls(t) {
		input := append([]byte(nil), it.input...)
		dst := append(make([]byte, 0, len(before)+4*len(input)+len(it.want)), before...)
		got, err := it.call(dst, input)
		wantAppended(t, it.name, it, dst, input, got, err)
		if &got[0] != &dst[0] {
			t.Errorf("%s: there was enough capacity, and the result is in another array", it.name)
		}
		small := append(make([]byte, 0, len(before)), before...)
		got, err = it.call(small, input)
		wantAppended(t, it.name+" without spare capacity", it, small, input, got, err)
		if kept, err := it.call(dst, []byte{0xff}); err == nil || string(kept) != before {
			t.Errorf("%s: after a fault %q, %v", it.name, kept, err)
		}
	}
}

// The input may be anywhere in the array of dst, which may end anywhere in the input: the library never writes where it reads.
func TestTheInputMayBeBehindDst(t *testing.T) {
	for _, it := range appendingCalls(t) {
		size := len(before) + 5*len(it.input) + len(it.want)
		last := len(before) + len(it.want) - 1 // where the last byte of the output would be
		for _, row := range []struct{ start, end int }{
			{len(before), size}, {len(before) + 7, size}, {last, size}, {last, last + 1}, {last + 1, size}, {size - len(it.input), size},
		} {
			array := make([]byte, size)
			copy(array, before)
			dst, input := array[:len(before):row.end], array[row.start:row.start+len(it.input)]
			copy(input, it.input)
			got, err := it.call(dst, input)
			wantAppended(t, fmt.Sprintf("%s of byte %d, up to %d", it.name, row.start, row.end), it, dst, input, got, err)
		}
	}
}

// An input that overlaps dst itself is as before, and so is dst. Its last byte may be the first one of the spare capacity.
func TestOutputMayReplaceTheInput(t *testing.T) {
	for _, it := range appendingCalls(t) {
		for _, kept := range []int{0, 4, len(it.input) - 1, len(it.input)} {
			input := append(make([]byte, 0, 5*len(it.input)+len(it.want)), it.input...)
			got, err := it.call(input[:kept], input)
			wantBytes(t, it.name, got, err, append(append([]byte(nil), it.input[:kept]...), it.want...))
			if !bytes.Equal(input, it.input) {
				t.Errorf("%s: the input was written to: %x", it.name, input)
			}
		}
	}
}
