package bpfcanon

// #include <bpfcanon.h>
import "C"

// A Form is the form of an instruction: which of the structs it is.
type Form uint8

// The forms, each that of the struct with its name.
const (
	FormALU        Form = C.BPFCANON_FORM_ALU
	FormMovsx      Form = C.BPFCANON_FORM_MOVSX
	FormNeg        Form = C.BPFCANON_FORM_NEG
	FormSwap       Form = C.BPFCANON_FORM_SWAP
	FormJump       Form = C.BPFCANON_FORM_JUMP
	FormJumpLong   Form = C.BPFCANON_FORM_JUMP_LONG
	FormBranch     Form = C.BPFCANON_FORM_BRANCH
	FormCallHelper Form = C.BPFCANON_FORM_CALL_HELPER
	FormCallLocal  Form = C.BPFCANON_FORM_CALL_LOCAL
	FormCallBTF    Form = C.BPFCANON_FORM_CALL_BTF
	FormExit       Form = C.BPFCANON_FORM_EXIT
	FormLoad       Form = C.BPFCANON_FORM_LOAD
	FormLoadSigned Form = C.BPFCANON_FORM_LOAD_SIGNED
	FormStoreImm   Form = C.BPFCANON_FORM_STORE_IMM
	FormStoreReg   Form = C.BPFCANON_FORM_STORE_REG
	FormAtomic     Form = C.BPFCANON_FORM_ATOMIC
	FormWide       Form = C.BPFCANON_FORM_WIDE
	FormPacketAbs  Form = C.BPFCANON_FORM_PACKET_ABS
	FormPacketInd  Form = C.BPFCANON_FORM_PACKET_IND
)

var formNames = map[Form]string{
	FormALU: "alu", FormMovsx: "movsx", FormNeg: "neg", FormSwap: "swap", FormJump: "jump",
	FormJumpLong: "jump_long", FormBranch: "branch", FormCallHelper: "call_helper",
	FormCallLocal: "call_local", FormCallBTF: "call_btf", FormExit: "exit", FormLoad: "load",
	FormLoadSigned: "load_signed", FormStoreImm: "store_imm", FormStoreReg: "store_reg",
	FormAtomic: "atomic", FormWide: "wide", FormPacketAbs: "packet_abs", FormPacketInd: "packet_ind",
}

// String returns the name of the form, for example "call_helper".
func (f Form) String() string { return nameOr(formNames[f], "Form", uint32(f)) }

// FormOf returns the form of an instruction, and 0 for nil or a pointer to one.
func FormOf(insn Insn) Form {
	return Form(recordOf(insn).Form)
}
