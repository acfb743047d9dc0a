package bpfcanon_test

import (
	"encoding/binary"
	"math"
	"reflect"
	"sync"
	"testing"

	"bpfcanon"
)

// The third word of a record of a kind: its kind, its number of items and its kind_flag (btf.rst section 2.2).
func info(kind bpfcanon.Kind, items int, flag uint32) uint32 {
	return flag<<31 | uint32(kind)<<24 | uint32(items)
}

// Decodes BTF, or fails.
func decode(t testing.TB, file []byte) *bpfcanon.BTF {
	t.Helper()
	b, err := bpfcanon.DecodeBTF(file)
	if err != nil {
		t.Fatal(err)
	}
	return b
}

const ownStrings = "\x00int\x00s\x00"

// An INT "int", a STRUCT "s" with a bit-field "int", and a FUNC_PROTO with a parameter "s" and variable arguments.
var words = []uint32{
	1, info(bpfcanon.KindInt, 0, 0), 4, 0x01000020,
	5, info(bpfcanon.KindStruct, 1, 1), 4, 1, 1, 0x03000005,
	0, info(bpfcanon.KindFuncProto, 2, 0), 1, 5, 2, 0, 0,
}

func must[T any](value T, err error) T {
	if err != nil {
		panic(err)
	}
	return value
}

func TestVoidHasTheIDZero(t *testing.T) {
	b := decode(t, btf(binary.BigEndian, words, ownStrings))
	if b.Len() != 3 || must(b.Type(0)) != (bpfcanon.Void{}) || must(b.Kind(0)) != bpfcanon.KindVoid || must(b.Name(0)) != "" {
		t.Errorf("%d types, void %v", b.Len(), must(b.Type(0)))
	}
}

func TestIDsThatNoTypeHas(t *testing.T) {
	for _, b := range []*bpfcanon.BTF{decode(t, btf(binary.LittleEndian, words, ownStrings)), decode(t, btf(binary.LittleEndian, nil, "\x00"))} {
		for _, id := range []bpfcanon.ID{bpfcanon.ID(b.Len() + 1), math.MaxInt32, math.MaxInt32 + 1, math.MaxUint32} {
			_, ofType := b.Type(id)
			_, ofName := b.Name(id)
			_, ofKind := b.Kind(id)
			_, ofResolve := b.Resolve(id)
			for _, err := range []error{ofType, ofName, ofKind, ofResolve} {
				if err != bpfcanon.ErrNoSuchType {
					t.Errorf("type %d: %v", id, err)
				}
			}
		}
	}
}

// The types by name: a struct and its typedef have one.
func TestTypesByName(t *testing.T) {
	b := decode(t, btf(binary.LittleEndian, append(words[:len(words):len(words)], 5, info(bpfcanon.KindTypedef, 0, 0), 2), ownStrings))
	for name, want := range map[string][]bpfcanon.ID{"int": {1}, "s": {2, 4}, "": nil, "in": nil, "nt": nil} {
		if got := b.ByName(name); !reflect.DeepEqual(got, want) {
			t.Errorf("%q: %v, want %v", name, got, want)
		}
	}
}

// Names are of a copy: a later change of the input doesn't change them.
func TestTypesDoNotKeepTheirInput(t *testing.T) {
	file := btf(binary.LittleEndian, words, ownStrings)
	b := decode(t, file)
	for i := range file {
		file[i] = 0xff
	}
	if must(b.Name(1)) != "int" || must(b.Type(2)).(bpfcanon.Struct).Members[0].Name != "int" {
		t.Errorf("%q", must(b.Name(1)))
	}
}

// Only the value that Type returns is allocated, and its members.
func TestAllocationsOfTypes(t *testing.T) {
	b := decode(t, load(t, "flow_table.little.btf"))
	length := 0
	if count := testing.AllocsPerRun(100, func() {
		for id := bpfcanon.ID(0); int(id) <= b.Len(); id++ {
			target, _ := b.Resolve(id)
			length += len(must(b.Name(id))) + int(must(b.Kind(id))) + int(target)
		}
	}); count != 0 {
		t.Errorf("%v allocations for names", count)
	}
	flow := b.ByName("flow")[0]
	if count := testing.AllocsPerRun(100, func() { length += int(must(b.Type(flow)).Kind()) }); count != 2 {
		t.Errorf("%v allocations for a type with members", count)
	}
	if count := testing.AllocsPerRun(100, func() { length += int(must(b.Type(1)).Kind()) }); count > 1 {
		t.Errorf("%v allocations for a type", count)
	}
}

// The types are read, and their file is, at the same time.
func TestGoroutinesShareTypesAndInputs(t *testing.T) {
	file, program, instructions := load(t, "flow_table.big.btf"), load(t, "hash_words.big.bin"), load(t, "hash_words.little.bin")
	b, want, canonical := decode(t, load(t, "flow_table.little.btf")), decode(t, file), must(bpfcanon.CanonBTF(bpfcanon.Little, file))
	var running sync.WaitGroup
	for thread := 0; thread < 8; thread++ {
		running.Add(1)
		go func() {
			defer running.Done()
			if !reflect.DeepEqual(b.Types(), want.Types()) {
				t.Error("the types differ")
			}
			for k := 0; k < 200; k++ {
				got, err := bpfcanon.CanonBTF(bpfcanon.Little, file)
				wantBytes(t, "types", got, err, canonical)
				got, err = bpfcanon.CanonInsns(bpfcanon.Big, bpfcanon.Little, program)
				wantBytes(t, "instructions", got, err, instructions)
			}
			for id := bpfcanon.ID(1); int(id) <= b.Len(); id++ {
				if name := must(want.Name(id)); !reflect.DeepEqual(b.ByName(name), want.ByName(name)) {
					t.Errorf("%q: %v", name, b.ByName(name))
				}
			}
		}()
	}
	running.Wait()
}
