package bpfcanon_test

import (
	"bytes"
	"reflect"
	"testing"

	"bpfcanon"
)

// A line of a listing and its instruction in each order, by RFC 9669.
var insns = []struct{ line, little, big string }{
	{"mov r1, r2", "bf 21 0000 00000000", "bf 12 0000 00000000"},
	{"lddw r1, 1234605616436508552", "18 01 0000 88776655 00000000 44332211", "18 10 0000 55667788 00000000 11223344"},
	{"jeq32 r3, -2, +5", "16 03 0500 feffffff", "16 30 0005 fffffffe"},
	{"stxdw [r10-8], r1", "7b 1a f8ff 00000000", "7b a1 fff8 00000000"},
	{"cmpxchg [r1-8], r2", "db 21 f8ff f1000000", "db 12 fff8 000000f1"},
	{"exit", "95 00 0000 00000000", "95 00 0000 00000000"},
}

// The instructions of `insns`.
var values = []bpfcanon.Insn{
	bpfcanon.ALU{Width: bpfcanon.W64, Op: bpfcanon.ALUMov, Dst: 1, Arg: bpfcanon.Reg(2)},
	bpfcanon.Wide{Dst: 1, What: bpfcanon.Number(0x1122334455667788)},
	bpfcanon.Branch{Width: bpfcanon.W32, Op: bpfcanon.BranchEq, Dst: 3, Arg: bpfcanon.Imm(-2), Off: 5},
	bpfcanon.StoreReg{Size: bpfcanon.SizeD, Dst: 10, Src: 1, Off: -8},
	bpfcanon.Atomic{Width: bpfcanon.W64, Op: bpfcanon.AtomicCmpxchg, Dst: 1, Src: 2, Off: -8},
	bpfcanon.Exit{},
}

// A line of a listing with its instruction: the other forms, and the kinds of a wide load.
var shown = map[string]bpfcanon.Insn{
	"sub32 r3, -4":            bpfcanon.ALU{Width: bpfcanon.W32, Op: bpfcanon.ALUSub, Dst: 3, Arg: bpfcanon.Imm(-4)},
	"movsx8_32 r1, r2":        bpfcanon.Movsx{Form: bpfcanon.W32From8, Dst: 1, Src: 2},
	"movsx16_32 r1, r2":       bpfcanon.Movsx{Form: bpfcanon.W32From16, Dst: 1, Src: 2},
	"movsx8 r1, r2":           bpfcanon.Movsx{Form: bpfcanon.W64From8, Dst: 1, Src: 2},
	"movsx16 r1, r2":          bpfcanon.Movsx{Form: bpfcanon.W64From16, Dst: 1, Src: 2},
	"movsx32 r1, r2":          bpfcanon.Movsx{Form: bpfcanon.W64From32, Dst: 1, Src: 2},
	"neg32 r3":                bpfcanon.Neg{Width: bpfcanon.W32, Dst: 3},
	"le16 r4":                 bpfcanon.Swap{Kind: bpfcanon.SwapLe, Bits: bpfcanon.B16, Dst: 4},
	"be32 r4":                 bpfcanon.Swap{Kind: bpfcanon.SwapBe, Bits: bpfcanon.B32, Dst: 4},
	"swap64 r4":               bpfcanon.Swap{Kind: bpfcanon.SwapBytes, Bits: bpfcanon.B64, Dst: 4},
	"ja +5":                   bpfcanon.Jump{Off: 5},
	"ja32 -6":                 bpfcanon.JumpLong{Imm: -6},
	"jsgt r3, r4, -7":         bpfcanon.Branch{Width: bpfcanon.W64, Op: bpfcanon.BranchSgt, Dst: 3, Arg: bpfcanon.Reg(4), Off: -7},
	"call 8":                  bpfcanon.CallHelper{ID: 8},
	"call_local -9":           bpfcanon.CallLocal{Imm: -9},
	"call_btf 10, 11":         bpfcanon.CallBTF{ID: 10, Off: 11},
	"ldxb r5, [r6+7]":         bpfcanon.Load{Size: bpfcanon.SizeB, Dst: 5, Src: 6, Off: 7},
	"ldxsh r5, [r6-7]":        bpfcanon.LoadSigned{Size: bpfcanon.SizeH, Dst: 5, Src: 6, Off: -7},
	"stw [r7+8], -9":          bpfcanon.StoreImm{Size: bpfcanon.SizeW, Dst: 7, Off: 8, Imm: -9},
	"lddw_map r1, 2":          bpfcanon.Wide{Dst: 1, What: bpfcanon.MapFD{FD: 2}},
	"lddw_map_value r1, 2, 3": bpfcanon.Wide{Dst: 1, What: bpfcanon.MapValueFD{FD: 2, Offset: 3}},
	"lddw_var r1, 4, 5":       bpfcanon.Wide{Dst: 1, What: bpfcanon.VarAddr{ID: 4, Next: 5}},
	"lddw_code r1, 6":         bpfcanon.Wide{Dst: 1, What: bpfcanon.CodeAddr{Offset: 6}},
	"lddw_idx r1, 7":          bpfcanon.Wide{Dst: 1, What: bpfcanon.MapIdx{Index: 7}},
	"lddw_idx_value r1, 8, 9": bpfcanon.Wide{Dst: 1, What: bpfcanon.MapValueIdx{Index: 8, Offset: 9}},
	"ldabsw 10":               bpfcanon.PacketAbs{Size: bpfcanon.SizeW, Imm: 10},
	"ldindb r1, 11":           bpfcanon.PacketInd{Size: bpfcanon.SizeB, Src: 1, Imm: 11},
}

func TestInstructionsAreThoseOfTheListing(t *testing.T) {
	for line, want := range shown {
		program := must(bpfcanon.ReadInsns(bpfcanon.Big, []byte(line)))
		got, err := bpfcanon.EncodeInsns(bpfcanon.Big, []bpfcanon.Insn{want})
		wantBytes(t, line, got, err, program)
		if got := must(bpfcanon.DecodeInsns(bpfcanon.Big, program)).Insns(); len(got) != 1 || got[0] != want {
			t.Errorf("%s is %#v, want %#v", line, got, want)
		}
	}
}

// All of `insns` as one program in a byte order.
func together(t *testing.T, order bpfcanon.Order) (program []byte) {
	t.Helper()
	for _, row := range insns {
		program = append(program, unhex(t, []string{row.little, row.big}[order])...)
	}
	return program
}

func TestInstructionsAreDecodedAndEncoded(t *testing.T) {
	offsets := []uint64{0, 8, 24, 32, 40, 48}
	for _, order := range orders {
		program, err := bpfcanon.DecodeInsns(order, together(t, order))
		if err != nil || !reflect.DeepEqual(program.Insns(), values) || program.Len() != len(values) {
			t.Fatalf("%v: %v, %v", order, program, err)
		}
		for i, want := range offsets {
			if program.Offset(i) != want || program.At(i) != values[i] {
				t.Errorf("%v: %v at %d, want %v at %d", order, program.At(i), program.Offset(i), values[i], want)
			}
		}
		for _, to := range orders {
			got, err := bpfcanon.EncodeInsns(to, values)
			wantBytes(t, "encoded", got, err, together(t, to))
		}
	}
}

func TestNoInstructions(t *testing.T) {
	program, err := bpfcanon.DecodeInsns(bpfcanon.Big, nil)
	if err != nil || program.Len() != 0 || len(program.Insns()) != 0 {
		t.Errorf("%v, %v", program, err)
	}
	got, err := bpfcanon.EncodeInsns(bpfcanon.Big, nil)
	wantBytes(t, "none encoded", got, err, nil)
}

// The records are the program's own: a later change of the input doesn't change it.
func TestAProgramDoesNotKeepItsInput(t *testing.T) {
	file := together(t, bpfcanon.Little)
	program, err := bpfcanon.DecodeInsns(bpfcanon.Little, file)
	if err != nil {
		t.Fatal(err)
	}
	copy(file, bytes.Repeat([]byte{0xff}, len(file)))
	if !reflect.DeepEqual(program.Insns(), values) {
		t.Errorf("%v", program.Insns())
	}
}

func TestFormsAndPlacesAllocateNothing(t *testing.T) {
	program, err := bpfcanon.DecodeInsns(bpfcanon.Little, together(t, bpfcanon.Little))
	if err != nil {
		t.Fatal(err)
	}
	var sum uint64
	if count := testing.AllocsPerRun(100, func() {
		for i := 0; i < program.Len(); i++ {
			sum += uint64(program.Form(i)) + program.Offset(i) + uint64(program.Group(i))
		}
	}); count != 0 {
		t.Errorf("%v allocations", count)
	}
}
