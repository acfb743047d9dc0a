package bpfcanon

import "strconv"

// A Reg is a register, 0 to 10 (RFC 9669 section 3.1).
type Reg uint8

// String returns the register as a listing has it, for example "r10".
func (r Reg) String() string {
	return "r" + strconv.Itoa(int(r))
}

// An Imm is a signed immediate.
type Imm int32

// String returns the immediate in decimal.
func (i Imm) String() string {
	return strconv.Itoa(int(i))
}

// An Operand is the second operand of an operation, a Reg or an Imm, which the source bit of the
// opcode selects (RFC 9669 section 4).
type Operand interface {
	String() string
	isOperand()
}

func (Reg) isOperand() {}
func (Imm) isOperand() {}

// A Width is the number of bits of an arithmetic, jump or atomic operation (RFC 9669 sections 4.1,
// 4.3 and 5.3).
type Width uint8

const (
	W32 Width = 32 // the classes ALU and JMP32, and atomic operations of size W
	W64 Width = 64 // the classes ALU64 and JMP, and atomic operations of size DW
)

var widthNames = map[Width]string{W32: "w32", W64: "w64"}

// String returns the name of the width, "w32" or "w64".
func (w Width) String() string { return nameOr(widthNames[w], "Width", uint32(w)) }

// A Size is the number of bits that a load or store transfers (RFC 9669 section 5).
type Size uint8

const (
	SizeB Size = 8  // 1 byte
	SizeH Size = 16 // a half word (2 bytes)
	SizeW Size = 32 // a word (4 bytes)
	SizeD Size = 64 // a double word (8 bytes), DW in the standard
)

var sizeNames = map[Size]string{SizeB: "b", SizeH: "h", SizeW: "w", SizeD: "d"}

// String returns the name of the size, for example "h".
func (s Size) String() string { return nameOr(sizeNames[s], "Size", uint32(s)) }
