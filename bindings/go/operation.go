package bpfcanon

// #include <bpfcanon.h>
import "C"

// An ALUOp is an arithmetic operation (RFC 9669 section 4.1).
type ALUOp uint8

const (
	ALUAdd  ALUOp = C.BPFCANON_ALU_ADD  // dst += arg
	ALUSub  ALUOp = C.BPFCANON_ALU_SUB  // dst -= arg
	ALUMul  ALUOp = C.BPFCANON_ALU_MUL  // dst *= arg
	ALUDiv  ALUOp = C.BPFCANON_ALU_DIV  // dst /= arg, unsigned
	ALUSdiv ALUOp = C.BPFCANON_ALU_SDIV // dst /= arg, signed
	ALUOr   ALUOp = C.BPFCANON_ALU_OR   // dst |= arg
	ALUAnd  ALUOp = C.BPFCANON_ALU_AND  // dst &= arg
	ALULsh  ALUOp = C.BPFCANON_ALU_LSH  // dst <<= arg
	ALURsh  ALUOp = C.BPFCANON_ALU_RSH  // dst >>= arg, filled with zeros
	ALUMod  ALUOp = C.BPFCANON_ALU_MOD  // dst %= arg, unsigned
	ALUSmod ALUOp = C.BPFCANON_ALU_SMOD // dst %= arg, signed
	ALUXor  ALUOp = C.BPFCANON_ALU_XOR  // dst ^= arg
	ALUMov  ALUOp = C.BPFCANON_ALU_MOV  // dst = arg
	ALUArsh ALUOp = C.BPFCANON_ALU_ARSH // dst >>= arg, filled with the sign
)

var aluNames = map[ALUOp]string{
	ALUAdd: "add", ALUSub: "sub", ALUMul: "mul", ALUDiv: "div", ALUSdiv: "sdiv", ALUOr: "or", ALUAnd: "and",
	ALULsh: "lsh", ALURsh: "rsh", ALUMod: "mod", ALUSmod: "smod", ALUXor: "xor", ALUMov: "mov", ALUArsh: "arsh",
}

// String returns the name of the operation, for example "arsh".
func (o ALUOp) String() string { return nameOr(aluNames[o], "ALUOp", uint32(o)) }

// A BranchOp is the comparison of a branch (RFC 9669 section 4.3).
type BranchOp uint8

const (
	BranchEq  BranchOp = C.BPFCANON_BRANCH_EQ  // dst == arg
	BranchGt  BranchOp = C.BPFCANON_BRANCH_GT  // dst > arg, unsigned
	BranchGe  BranchOp = C.BPFCANON_BRANCH_GE  // dst >= arg, unsigned
	BranchSet BranchOp = C.BPFCANON_BRANCH_SET // dst & arg isn't 0
	BranchNe  BranchOp = C.BPFCANON_BRANCH_NE  // dst != arg
	BranchSgt BranchOp = C.BPFCANON_BRANCH_SGT // dst > arg, signed
	BranchSge BranchOp = C.BPFCANON_BRANCH_SGE // dst >= arg, signed
	BranchLt  BranchOp = C.BPFCANON_BRANCH_LT  // dst < arg, unsigned
	BranchLe  BranchOp = C.BPFCANON_BRANCH_LE  // dst <= arg, unsigned
	BranchSlt BranchOp = C.BPFCANON_BRANCH_SLT // dst < arg, signed
	BranchSle BranchOp = C.BPFCANON_BRANCH_SLE // dst <= arg, signed
)

var branchNames = map[BranchOp]string{
	BranchEq: "eq", BranchGt: "gt", BranchGe: "ge", BranchSet: "set", BranchNe: "ne", BranchSgt: "sgt",
	BranchSge: "sge", BranchLt: "lt", BranchLe: "le", BranchSlt: "slt", BranchSle: "sle",
}

// String returns the name of the comparison, for example "sgt".
func (o BranchOp) String() string { return nameOr(branchNames[o], "BranchOp", uint32(o)) }

// An AtomicOp is an atomic operation on memory (RFC 9669 section 5.3).
type AtomicOp uint8

const (
	AtomicAdd      AtomicOp = C.BPFCANON_ATOMIC_ADD       // addition
	AtomicOr       AtomicOp = C.BPFCANON_ATOMIC_OR        // bitwise or
	AtomicAnd      AtomicOp = C.BPFCANON_ATOMIC_AND       // bitwise and
	AtomicXor      AtomicOp = C.BPFCANON_ATOMIC_XOR       // bitwise exclusive or
	AtomicFetchAdd AtomicOp = C.BPFCANON_ATOMIC_FETCH_ADD // addition; src receives the old value
	AtomicFetchOr  AtomicOp = C.BPFCANON_ATOMIC_FETCH_OR  // bitwise or; src receives the old value
	AtomicFetchAnd AtomicOp = C.BPFCANON_ATOMIC_FETCH_AND // bitwise and; src receives the old value
	AtomicFetchXor AtomicOp = C.BPFCANON_ATOMIC_FETCH_XOR // bitwise exclusive or; src receives the old value
	AtomicXchg     AtomicOp = C.BPFCANON_ATOMIC_XCHG      // stores src; src receives the old value
	AtomicCmpxchg  AtomicOp = C.BPFCANON_ATOMIC_CMPXCHG   // stores src if the old value equals r0; r0 receives the old value
)

var atomicNames = map[AtomicOp]string{
	AtomicAdd: "add", AtomicOr: "or", AtomicAnd: "and", AtomicXor: "xor", AtomicFetchAdd: "fetch_add", AtomicFetchOr: "fetch_or",
	AtomicFetchAnd: "fetch_and", AtomicFetchXor: "fetch_xor", AtomicXchg: "xchg", AtomicCmpxchg: "cmpxchg",
}

// String returns the name of the operation, for example "fetch_add".
func (o AtomicOp) String() string { return nameOr(atomicNames[o], "AtomicOp", uint32(o)) }
