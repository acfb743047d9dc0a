package bpfcanon_test

import (
	"fmt"
	"testing"

	"bpfcanon"
)

// A value without a name has its type and number.
func TestNamesOfValues(t *testing.T) {
	for _, row := range []struct {
		got  fmt.Stringer
		want string
	}{
		{bpfcanon.Reg(10), "r10"}, {bpfcanon.Imm(-7), "-7"}, {bpfcanon.W32, "w32"}, {bpfcanon.Width(1), "Width(1)"},
		{bpfcanon.SizeD, "d"}, {bpfcanon.Size(1), "Size(1)"}, {bpfcanon.ALUSmod, "smod"}, {bpfcanon.ALUOp(8), "ALUOp(8)"},
		{bpfcanon.BranchSle, "sle"}, {bpfcanon.BranchOp(0), "BranchOp(0)"}, {bpfcanon.AtomicFetchXor, "fetch_xor"},
		{bpfcanon.AtomicOp(2), "AtomicOp(2)"}, {bpfcanon.W32From16, "w32_from16"}, {bpfcanon.MovsxForm(0), "MovsxForm(0)"},
		{bpfcanon.SwapBytes, "bytes"}, {bpfcanon.SwapKind(1), "SwapKind(1)"}, {bpfcanon.B64, "b64"}, {bpfcanon.SwapBits(8), "SwapBits(8)"},
		{bpfcanon.FormCallBTF, "call_btf"}, {bpfcanon.Form(200), "Form(200)"}, {bpfcanon.KindTypeTag, "type_tag"},
		{bpfcanon.Kind(200), "Kind(200)"}, {bpfcanon.EncodingBool, "bool"}, {bpfcanon.Encoding(3), "Encoding(3)"},
		{bpfcanon.LinkageExtern, "extern"}, {bpfcanon.Linkage(3), "Linkage(3)"},
	} {
		if row.got.String() != row.want {
			t.Errorf("%q, want %q", row.got, row.want)
		}
	}
}
