package bpfcanon_test

import (
	"encoding/binary"
	"flag"
	"math/rand"
	"reflect"
	"testing"
	"unicode/utf8"

	"bpfcanon"
)

// `go test -run Changed -args -changes=1000000` tries more.
var changes = flag.Int("changes", 20_000, "how many changed inputs a test tries")

// Checks the types that any bytes are decoded to: the answer is that of CheckBTF, everything that they refer to is there, and encoded
// they are the bytes of CanonBTF. Returns whether they are decoded.
func checkTypes(t *testing.T, file []byte) bool {
	t.Helper()
	count, want := bpfcanon.CheckBTF(file)
	b, err := bpfcanon.DecodeBTF(file)
	if !reflect.DeepEqual(err, want) {
		t.Errorf("%v, want %v", err, want)
	}
	if err != nil {
		return false
	}
	if b.Len() != count {
		t.Errorf("%d types, want %d", b.Len(), count)
	}
	for id := bpfcanon.ID(1); int(id) <= b.Len(); id++ {
		checkReferences(t, b, id)
	}
	canonical, err := bpfcanon.CanonBTF(bpfcanon.Little, file)
	if err != nil {
		t.Error(err)
	}
	encoded, err := bpfcanon.EncodeBTF(bpfcanon.Little, b.Types())
	wantBytes(t, "encoded types", encoded, err, canonical)
	return true
}

// Checks the name of a type, and what it is without its qualifiers.
func checkReferences(t *testing.T, b *bpfcanon.BTF, id bpfcanon.ID) {
	t.Helper()
	name := must(b.Name(id))
	if !utf8.ValidString(name) {
		t.Errorf("the name of %d is %q", id, name)
	}
	found := name == ""
	for _, other := range b.ByName(name) {
		found = found || other == id
	}
	if !found {
		t.Errorf("%q has the types %v, without %d", name, b.ByName(name), id)
	}
	target, err := b.Resolve(id)
	if err == nil {
		again, err := b.Resolve(target)
		if again != target || err != nil || must(b.Type(target)) == nil {
			t.Errorf("%d is %d, which is %d, %v", id, target, again, err)
		}
	} else if err != bpfcanon.ErrCycle {
		t.Errorf("%d: %v", id, err)
	}
}

// Checks the instructions that any bytes are decoded to: the answer is that of CanonInsns, and encoded they are its bytes. Returns whether
// they are decoded.
func checkInsns(t *testing.T, order bpfcanon.Order, program []byte) bool {
	t.Helper()
	_, want := bpfcanon.CanonInsns(order, bpfcanon.Little, program)
	decoded, err := bpfcanon.DecodeInsns(order, program)
	if !reflect.DeepEqual(err, want) {
		t.Errorf("%v, want %v", err, want)
	}
	if err != nil {
		return false
	}
	for _, to := range orders {
		want, err := bpfcanon.CanonInsns(order, to, program)
		if err != nil {
			t.Error(err)
		}
		got, err := bpfcanon.EncodeInsns(to, decoded.Insns())
		wantBytes(t, "encoded instructions", got, err, want)
	}
	return true
}

// Files with each kind of type.
func typeSeeds(t *testing.T) (seeds [][]byte) {
	seeds = [][]byte{load(t, "flow_table.little.btf"), load(t, "flow_table.big.btf")}
	for _, row := range vectors(t, "btf") {
		seeds = append(seeds, data(t, row[1]))
	}
	return seeds
}

// A program with each instruction, in each byte order.
func insnSeeds(t *testing.T) (seeds [2][]byte) {
	for _, row := range vectors(t, "insn") {
		for order := range seeds {
			seeds[order] = append(seeds[order], data(t, row[1+order])...)
		}
	}
	return seeds
}

// A copy of a file in which a few bytes or words have other values.
func changed(random *rand.Rand, file []byte) []byte {
	bounds := []uint32{0, 1, 2, 3, 7, 8, 16, 24, 64, 0xff, 0xffff, 0x7fffffff, 0x80000000, 0xffffffff}
	file = append([]byte{}, file...)
	for left := 1 + random.Intn(3); left > 0; left-- {
		place := random.Intn(len(file))
		if word := place &^ 3; random.Intn(2) == 0 && word+4 <= len(file) {
			binary.LittleEndian.PutUint32(file[word:], bounds[random.Intn(len(bounds))])
		} else {
			file[place] ^= byte(1 << random.Intn(8))
		}
	}
	return file
}

// Checks that enough of the changed inputs were accepted.
func wantSome(t *testing.T, count int) {
	t.Helper()
	t.Logf("%d of %d are accepted", count, *changes)
	if count < *changes/20 {
		t.Error("they are too few")
	}
}

func TestChangedTypes(t *testing.T) {
	random, seeds, decoded := rand.New(rand.NewSource(1)), typeSeeds(t), 0
	for i := 0; i < *changes; i++ {
		if checkTypes(t, changed(random, seeds[i%len(seeds)])) {
			decoded++
		}
	}
	wantSome(t, decoded)
}

func TestChangedInstructions(t *testing.T) {
	random, seeds, decoded := rand.New(rand.NewSource(1)), insnSeeds(t), 0
	for i := 0; i < *changes; i++ {
		seed := seeds[i%2]
		start := 8 * random.Intn(len(seed)/8-4)
		if checkInsns(t, bpfcanon.Order(i%2), changed(random, seed[start:start+32])) {
			decoded++
		}
	}
	wantSome(t, decoded)
}
