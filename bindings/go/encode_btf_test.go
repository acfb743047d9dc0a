package bpfcanon_test

import (
	"encoding/binary"
	"errors"
	"fmt"
	"reflect"
	"testing"

	"bpfcanon"
)

// The strings of the words below: "a" at 1, "bc" at 3.
const writtenStrings = "\x00a\x00bc\x00"

// A type of each kind with its words by btf.rst section 2.2. The types 1 to 3 are referred to.
var writtenTypes = []struct {
	value bpfcanon.Type
	words []uint32
}{
	{bpfcanon.Int{Name: "a", Size: 4, Encoding: bpfcanon.EncodingBool, BitOffset: 2, Bits: 7}, []uint32{1, info(1, 0, 0), 4, 0x04020007}},
	{bpfcanon.Struct{
		Name: "bc", Size: 8, Members: []bpfcanon.Member{
			{Name: "a", Target: 4, BitOffset: 5, Width: 3}, {Target: 5, BitOffset: 32}},
	}, []uint32{3, info(4, 2, 1), 8, 1, 4, 0x03000005, 0, 5, 32}},
	{bpfcanon.FuncProto{Target: 1, Params: []bpfcanon.Param{{Name: "bc", Target: 1}, {}}},
		[]uint32{0, info(13, 2, 0), 1, 3, 1, 0, 0}},
	{bpfcanon.Enum{Name: "", Signed: true, Size: 4, Values: []bpfcanon.EnumValue{{Name: "a", Value: 1<<64 - 2}}},
		[]uint32{0, info(6, 1, 1), 4, 1, 0xfffffffe}},
	{bpfcanon.Enum{Name: "a", Size: 4, Values: []bpfcanon.EnumValue{{Name: "bc", Value: 0xfffffffe}}},
		[]uint32{1, info(6, 1, 0), 4, 3, 0xfffffffe}},
	{bpfcanon.Ptr{Target: 24}, []uint32{0, info(2, 0, 0), 24}},
	{bpfcanon.Array{Target: 1, Index: 4, Count: 9}, []uint32{0, info(3, 0, 0), 0, 1, 4, 9}},
	{bpfcanon.Union{Size: 0x20000000, Members: []bpfcanon.Member{{Name: "a", Target: 1, BitOffset: 0xff000000}}},
		[]uint32{0, info(5, 1, 0), 0x20000000, 1, 1, 0xff000000}},
	{bpfcanon.Fwd{Name: "bc", IsUnion: true}, []uint32{3, info(7, 0, 1), 0}},
	{bpfcanon.Fwd{Name: "bc"}, []uint32{3, info(7, 0, 0), 0}},
	{bpfcanon.Typedef{Name: "a", Target: 1}, []uint32{1, info(8, 0, 0), 1}},
	{bpfcanon.Volatile{Target: 2}, []uint32{0, info(9, 0, 0), 2}},
	{bpfcanon.Const{}, []uint32{0, info(10, 0, 0), 0}},
	{bpfcanon.Restrict{Target: 6}, []uint32{0, info(11, 0, 0), 6}},
	{bpfcanon.Func{Name: "a", Linkage: bpfcanon.LinkageExtern, Target: 3}, []uint32{1, info(12, 2, 0), 3}},
	{bpfcanon.Var{Name: "bc", Target: 1, Linkage: bpfcanon.LinkageGlobal}, []uint32{3, info(14, 0, 0), 1, 1}},
	{bpfcanon.Datasec{Name: "a", Size: 9, Entries: []bpfcanon.Entry{{Target: 16, Offset: 4, Size: 5}}},
		[]uint32{1, info(15, 1, 0), 9, 16, 4, 5}},
	{bpfcanon.Float{Name: "a", Size: 8}, []uint32{1, info(16, 0, 0), 8}},
	{bpfcanon.DeclTag{Name: "bc", Target: 2, Component: 1}, []uint32{3, info(17, 0, 0), 2, 1}},
	{bpfcanon.DeclTag{Name: "a", Flag: true, Target: 15, Component: bpfcanon.WholeType}, []uint32{1, info(17, 0, 1), 15, 0xffffffff}},
	{bpfcanon.TypeTag{Name: "a", Target: 1}, []uint32{1, info(18, 0, 0), 1}},
	{bpfcanon.TypeTag{Name: "a", Flag: true, Target: 1}, []uint32{1, info(18, 0, 1), 1}},
	{bpfcanon.Enum64{Name: "a", Signed: true, Size: 8, Values: []bpfcanon.EnumValue{{Name: "bc", Value: 1<<63 + 2}}},
		[]uint32{1, info(19, 1, 1), 8, 3, 2, 0x80000000}},
	{bpfcanon.Enum64{Name: "a", Size: 8, Values: []bpfcanon.EnumValue{{Name: "bc", Value: 1<<63 + 2}}},
		[]uint32{1, info(19, 1, 0), 8, 3, 2, 0x80000000}},
	{bpfcanon.Struct{}, []uint32{0, info(4, 0, 0), 0}},
	{bpfcanon.Int{Name: "bc", Size: 1, Encoding: bpfcanon.EncodingPlain, Bits: 8}, []uint32{3, info(1, 0, 0), 1, 8}},
	{bpfcanon.Int{Name: "bc", Size: 1, Encoding: bpfcanon.EncodingSigned, Bits: 8}, []uint32{3, info(1, 0, 0), 1, 0x01000008}},
	{bpfcanon.Int{Name: "bc", Size: 1, Encoding: bpfcanon.EncodingChar, Bits: 8}, []uint32{3, info(1, 0, 0), 1, 0x02000008}},
	{bpfcanon.Func{Name: "a", Linkage: bpfcanon.LinkageStatic, Target: 3}, []uint32{1, info(12, 0, 0), 3}},
}

func TestTypesAreEncodedAndDecoded(t *testing.T) {
	var types []bpfcanon.Type
	var words []uint32
	for _, row := range writtenTypes {
		types, words = append(types, row.value), append(words, row.words...)
	}
	for _, to := range orders {
		want, err := bpfcanon.CanonBTF(to, btf(binary.LittleEndian, words, writtenStrings))
		if err != nil {
			t.Fatal(err)
		}
		got, err := bpfcanon.EncodeBTF(to, types)
		wantBytes(t, "encoded", got, err, want)
		if decoded := decode(t, want).Types(); !reflect.DeepEqual(decoded, types) {
			t.Errorf("%#v, want %#v", decoded, types)
		}
	}
}

func structOf(members ...bpfcanon.Member) bpfcanon.Type {
	return bpfcanon.Struct{Size: 1 << 30, Members: members}
}

func enumOf(signed bool, value uint64) bpfcanon.Type {
	return bpfcanon.Enum{Size: 4, Signed: signed, Values: []bpfcanon.EnumValue{{Name: "a", Value: value}}}
}

// Values that can't be encoded, with the cause. The other types are structs without members.
var refusedTypes = []struct {
	value bpfcanon.Type
	cause bpfcanon.BTFCause
}{
	{nil, 0},
	{&bpfcanon.Ptr{}, 0},
	{(*bpfcanon.Struct)(nil), 0},
	{bpfcanon.Fwd{Name: "a\x00"}, 0},
	{structOf(bpfcanon.Member{Name: "\x00"}), 0},
	{structOf(bpfcanon.Member{Width: 1}, bpfcanon.Member{Target: 1, BitOffset: 1 << 24}), 0},
	{bpfcanon.Struct{Members: make([]bpfcanon.Member, 1<<16)}, 0},
	{enumOf(false, 1<<64-1), 0},
	{enumOf(false, 1<<32), 0},
	{enumOf(true, 1<<31), 0},
	{enumOf(true, 1<<64-1<<31-1), 0},
	{bpfcanon.DeclTag{Name: "a", Target: 1, Component: -2}, 0},
	{bpfcanon.DeclTag{Name: "a", Target: 1, Component: 1<<32 - 1}, 0},
	{bpfcanon.Void{}, bpfcanon.ErrBTFKindNumber},
	{structOf(bpfcanon.Member{}, bpfcanon.Member{Target: 9}), bpfcanon.ErrBTFReference},
	{bpfcanon.Typedef{Name: "\xff"}, bpfcanon.ErrBTFNameUTF8},
	{structOf(bpfcanon.Member{}, bpfcanon.Member{Name: "\xed\xa0\x80"}), bpfcanon.ErrBTFNameUTF8},
	{bpfcanon.Typedef{}, bpfcanon.ErrBTFNameMissing},
	{bpfcanon.Int{Name: "a", Size: 4, Bits: 8, Encoding: 3}, bpfcanon.ErrBTFIntWord},
	{bpfcanon.Var{Name: "a", Target: 1, Linkage: 3}, bpfcanon.ErrBTFLinkage},
}

// Checks that these types are refused at an index, with a cause.
func wantRefused(t *testing.T, types []bpfcanon.Type, index int, cause bpfcanon.BTFCause) {
	t.Helper()
	got, err := bpfcanon.EncodeBTF(bpfcanon.Little, types)
	var refused *bpfcanon.EncodeBTFError
	if !errors.As(err, &refused) || refused.Index != index || !reflect.DeepEqual(refused.Type, types[index]) || refused.Cause != cause || got != nil {
		t.Errorf("%v, want %d and %v", err, index, cause)
	}
	if (cause != 0) != errors.Is(err, cause) {
		t.Errorf("%v is %v: %v", err, cause, errors.Is(err, cause))
	}
}

func TestTheTypeThatIsRefusedIsNamed(t *testing.T) {
	good := bpfcanon.Struct{Name: "a"}
	for _, row := range refusedTypes {
		for before := 1; before < 4; before++ {
			types := make([]bpfcanon.Type, before+2)
			for i := range types {
				types[i] = good
			}
			types[before] = row.value
			wantRefused(t, types, before, row.cause)
		}
	}
}

// A Type that has no record comes before all others.
func TestTheFirstTypeThatIsRefused(t *testing.T) {
	noRecord := bpfcanon.FuncProto{Params: make([]bpfcanon.Param, 1<<16)}
	wantRefused(t, []bpfcanon.Type{bpfcanon.Void{}, bpfcanon.Ptr{Target: 9}, noRecord}, 2, 0)
	wantRefused(t, []bpfcanon.Type{bpfcanon.Func{Name: "f", Target: 2}, noRecord}, 1, 0)
	wantRefused(t, []bpfcanon.Type{enumOf(false, 1<<32), bpfcanon.Ptr{Target: 9}}, 1, bpfcanon.ErrBTFReference)
}

func TestErrorsOfEncodingNameTheType(t *testing.T) {
	for want, it := range map[string]bpfcanon.Type{
		"bpfcanon: the type with index 0 has no encoding: &bpfcanon.Ptr{Target:0x0}":          &bpfcanon.Ptr{},
		"bpfcanon: the type with index 0: Reference: the type ID is over the number of types": bpfcanon.Ptr{Target: 2},
		"bpfcanon: the type with index 0: NameMissing: a type of this kind needs a name":      bpfcanon.Typedef{},
	} {
		if _, err := bpfcanon.EncodeBTF(bpfcanon.Little, []bpfcanon.Type{it}); fmt.Sprint(err) != want {
			t.Errorf("%v, want %s", err, want)
		}
	}
}
