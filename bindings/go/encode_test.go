package bpfcanon_test

import (
	"errors"
	"fmt"
	"testing"

	"bpfcanon"
)

// Values that aren't instructions: a field has a value that no encoding has, or no value.
var unencodable = []bpfcanon.Insn{
	nil,
	&bpfcanon.Exit{},
	(*bpfcanon.Exit)(nil),
	bpfcanon.ALU{},
	bpfcanon.ALU{Width: bpfcanon.W64, Op: bpfcanon.ALUAdd, Dst: 1},
	bpfcanon.ALU{Width: bpfcanon.W64, Op: bpfcanon.ALUAdd, Dst: 11, Arg: bpfcanon.Imm(0)},
	bpfcanon.ALU{Width: bpfcanon.W64, Op: bpfcanon.ALUAdd, Dst: 1, Arg: bpfcanon.Reg(11)},
	bpfcanon.ALU{Width: bpfcanon.W64, Op: bpfcanon.ALUAdd, Dst: 1, Arg: new(bpfcanon.Reg)},
	bpfcanon.ALU{Width: bpfcanon.W64, Op: bpfcanon.ALUAdd, Dst: 1, Arg: (*bpfcanon.Imm)(nil)},
	bpfcanon.ALU{Width: bpfcanon.W64, Op: 8, Dst: 1, Arg: bpfcanon.Imm(0)}, // NEG, a form of its own
	bpfcanon.ALU{Width: 16, Op: bpfcanon.ALUAdd, Dst: 1, Arg: bpfcanon.Imm(0)},
	bpfcanon.Movsx{},
	bpfcanon.Movsx{Form: 6, Dst: 1, Src: 2},
	bpfcanon.Movsx{Form: bpfcanon.W64From32, Dst: 1, Src: 255},
	bpfcanon.Neg{Width: bpfcanon.W64, Dst: 16},
	bpfcanon.Swap{Kind: bpfcanon.SwapLe, Bits: 8, Dst: 1},
	bpfcanon.Swap{Kind: 0xd5, Bits: bpfcanon.B16, Dst: 1},
	bpfcanon.Branch{Width: bpfcanon.W64, Op: 0, Dst: 1, Arg: bpfcanon.Imm(0)}, // JA, a form of its own
	bpfcanon.Branch{Width: bpfcanon.W64, Op: bpfcanon.BranchEq, Dst: 1},
	bpfcanon.Load{Size: 0, Dst: 1, Src: 2},
	bpfcanon.Load{Size: 24, Dst: 1, Src: 2},
	bpfcanon.LoadSigned{Size: bpfcanon.SizeD, Dst: 1, Src: 2},
	bpfcanon.StoreImm{Size: bpfcanon.SizeW, Dst: 11},
	bpfcanon.StoreReg{Size: bpfcanon.SizeW, Dst: 1, Src: 11},
	bpfcanon.Atomic{Width: bpfcanon.W64, Op: 2, Dst: 1, Src: 2},
	bpfcanon.Atomic{Width: 8, Op: bpfcanon.AtomicXchg, Dst: 1, Src: 2},
	bpfcanon.Wide{Dst: 1},
	bpfcanon.Wide{Dst: 11, What: bpfcanon.Number(1)},
	bpfcanon.Wide{Dst: 1, What: (*bpfcanon.MapFD)(nil)},
	bpfcanon.PacketAbs{Size: bpfcanon.SizeD},
	bpfcanon.PacketInd{Size: bpfcanon.SizeB, Src: 11},
}

func TestTheFirstThatHasNoEncodingIsReported(t *testing.T) {
	for _, bad := range unencodable {
		for before := 0; before < 3; before++ {
			given := append(append([]bpfcanon.Insn{}, values[:before]...), bad, bpfcanon.Exit{}, nil)
			got, err := bpfcanon.EncodeInsns(bpfcanon.Little, given)
			var fault *bpfcanon.EncodeInsnError
			if !errors.As(err, &fault) || fault.Index != before || fault.Insn != bad || got != nil {
				t.Errorf("%#v after %d: %x, %v", bad, before, got, err)
			}
		}
	}
}

func TestErrorsOfEncodingNameTheInstruction(t *testing.T) {
	_, err := bpfcanon.EncodeInsns(bpfcanon.Little, []bpfcanon.Insn{bpfcanon.Exit{}, bpfcanon.Neg{Width: bpfcanon.W64, Dst: 11}})
	if want := "bpfcanon: instruction 1 has no encoding: bpfcanon.Neg{Width:0x40, Dst:0xb}"; fmt.Sprint(err) != want {
		t.Errorf("%v, want %s", err, want)
	}
}
