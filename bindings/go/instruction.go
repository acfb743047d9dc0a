package bpfcanon

// An Insn is an instruction (RFC 9669; section numbers are those of this document): one of the
// structs ALU to PacketInd, and never a pointer to one. Each has one encoding in each byte order. A
// slot has 8 bytes; in the formulas, Off is in bytes. Instructions can be compared with ==.
type Insn interface {
	// record returns the record that says the instruction, without its length, group and offset.
	record() record
}

// An ALU is an arithmetic operation on Dst and Arg (section 4.1).
type ALU struct {
	Width Width
	Op    ALUOp
	Dst   Reg
	Arg   Operand
}

// A Movsx is a sign-extending move, MOVSX, from Src to Dst (section 4.1).
type Movsx struct {
	Form     MovsxForm
	Dst, Src Reg
}

// A Neg is Dst = -Dst (section 4.1).
type Neg struct {
	Width Width
	Dst   Reg
}

// A Swap is a byte swap of the low bits of Dst (section 4.2).
type Swap struct {
	Kind SwapKind
	Bits SwapBits
	Dst  Reg
}

// A Jump is a jump by Off slots, relative to the next instruction (section 4.3).
type Jump struct{ Off int16 }

// A JumpLong is a jump by Imm slots, relative to the next instruction (section 4.3).
type JumpLong struct{ Imm int32 }

// A Branch is a jump by Off slots, relative to the next instruction, if the comparison of Dst and
// Arg holds (section 4.3).
type Branch struct {
	Width Width
	Op    BranchOp
	Dst   Reg
	Arg   Operand
	Off   int16
}

// A CallHelper is a call of a helper function by its static ID (section 4.3.1).
type CallHelper struct{ ID int32 }

// A CallLocal is a call of a function of the same program, Imm slots relative to the next
// instruction (section 4.3.2).
type CallLocal struct{ Imm int32 }

// A CallBTF is a call of a helper function by its BTF ID (section 4.3.1). On Linux, loaders store in
// Off which module's BTF has the ID.
type CallBTF struct {
	ID  int32
	Off int16
}

// An Exit is a return from the function (section 4.3).
type Exit struct{}

// A Load is Dst = *(Src + Off) (section 5.1).
type Load struct {
	Size     Size
	Dst, Src Reg
	Off      int16
}

// A LoadSigned is Dst = *(Src + Off), sign-extended, of size SizeB, SizeH or SizeW (section 5.2).
type LoadSigned struct {
	Size     Size
	Dst, Src Reg
	Off      int16
}

// A StoreImm is *(Dst + Off) = Imm (section 5.1).
type StoreImm struct {
	Size Size
	Dst  Reg
	Off  int16
	Imm  int32
}

// A StoreReg is *(Dst + Off) = Src (section 5.1).
type StoreReg struct {
	Size     Size
	Dst, Src Reg
	Off      int16
}

// An Atomic is an atomic operation on *(Dst + Off) with Src (section 5.3).
type Atomic struct {
	Width    Width
	Op       AtomicOp
	Dst, Src Reg
	Off      int16
}

// A Wide is a load of a 64-bit value, the only instruction that has two slots (section 5.4).
type Wide struct {
	Dst  Reg
	What WideOf
}

// A PacketAbs is a load of size SizeB, SizeH or SizeW from packet data at the byte offset Imm
// (section 5.5).
type PacketAbs struct {
	Size Size
	Imm  int32
}

// A PacketInd is a load of size SizeB, SizeH or SizeW from packet data at the byte offset Src + Imm
// (section 5.5).
type PacketInd struct {
	Size Size
	Src  Reg
	Imm  int32
}
