package bpfcanon

import "bpfcanon/internal/capi"

// none is a number that neither an operation nor the flag of an operand has, so that the library
// refuses the record with it.
const none = 0xff

// recordOf returns the record that says an instruction. That of nil, or of a pointer to one of the
// structs, has no form, so that the library refuses it.
func recordOf(insn Insn) capi.Insn {
	switch insn.(type) {
	case ALU, Movsx, Neg, Swap, Jump, JumpLong, Branch, CallHelper, CallLocal, CallBTF, Exit, Load, LoadSigned,
		StoreImm, StoreReg, Atomic, Wide, PacketAbs, PacketInd:
		return capi.Insn(insn.record())
	}
	return capi.Insn{}
}

// A record is the record of an instruction. Its methods return it with a field, or with those of an operand.
type record capi.Insn

func form(f Form) record                { return record{Form: uint8(f)} }
func (r record) width(w Width) record   { r.Bits = uint8(w); return r }
func (r record) size(s Size) record     { r.Bits = uint8(s); return r }
func (r record) dst(reg Reg) record     { r.Dst = uint8(reg); return r }
func (r record) src(reg Reg) record     { r.Src = uint8(reg); return r }
func (r record) off(off int16) record   { r.Off = off; return r }
func (r record) imm(imm int32) record   { r.Imm = imm; return r }
func (r record) op(number uint8) record { r.Op = number; return r }
func (r record) arg(arg Operand) record {
	switch arg := arg.(type) {
	case Reg:
		r.ByReg, r.Src = 1, uint8(arg)
	case Imm:
		r.Imm = int32(arg)
	default:
		r.ByReg = none
	}
	return r
}

func (i ALU) record() record {
	return form(FormALU).width(i.Width).op(uint8(i.Op)).dst(i.Dst).arg(i.Arg)
}
func (i Movsx) record() record {
	r, widths := form(FormMovsx).dst(i.Dst).src(i.Src), i.Form.widths()
	r.Bits, r.FromBits = widths.bits, widths.from
	return r
}
func (i Neg) record() record { return form(FormNeg).width(i.Width).dst(i.Dst) }
func (i Swap) record() record {
	return form(FormSwap).op(uint8(i.Kind)).width(Width(i.Bits)).dst(i.Dst)
}
func (i Jump) record() record     { return form(FormJump).off(i.Off) }
func (i JumpLong) record() record { return form(FormJumpLong).imm(i.Imm) }
func (i Branch) record() record {
	return form(FormBranch).width(i.Width).op(uint8(i.Op)).dst(i.Dst).arg(i.Arg).off(i.Off)
}
func (i CallHelper) record() record { return form(FormCallHelper).imm(i.ID) }
func (i CallLocal) record() record  { return form(FormCallLocal).imm(i.Imm) }
func (i CallBTF) record() record    { return form(FormCallBTF).imm(i.ID).off(i.Off) }
func (i Exit) record() record       { return form(FormExit) }
func (i Load) record() record       { return form(FormLoad).size(i.Size).dst(i.Dst).src(i.Src).off(i.Off) }
func (i LoadSigned) record() record {
	return form(FormLoadSigned).size(i.Size).dst(i.Dst).src(i.Src).off(i.Off)
}
func (i StoreImm) record() record {
	return form(FormStoreImm).size(i.Size).dst(i.Dst).off(i.Off).imm(i.Imm)
}
func (i StoreReg) record() record {
	return form(FormStoreReg).size(i.Size).dst(i.Dst).src(i.Src).off(i.Off)
}
func (i Atomic) record() record {
	return form(FormAtomic).width(i.Width).op(uint8(i.Op)).dst(i.Dst).src(i.Src).off(i.Off)
}
func (i Wide) record() record {
	r := form(FormWide).op(none).width(W64).dst(i.Dst)
	switch i.What.(type) {
	case Number, MapFD, MapValueFD, VarAddr, CodeAddr, MapIdx, MapValueIdx:
		r.Op, r.Imm, r.NextImm = i.What.immediates()
	}
	return r
}
func (i PacketAbs) record() record { return form(FormPacketAbs).size(i.Size).imm(i.Imm) }
func (i PacketInd) record() record { return form(FormPacketInd).size(i.Size).src(i.Src).imm(i.Imm) }

// operandOf returns the second operand of a record.
func operandOf(r *capi.Insn) Operand {
	if r.ByReg == 1 {
		return Reg(r.Src)
	}
	return Imm(r.Imm)
}

// The instruction that a decoded record of each form says.
var insnOf = [...]func(r *capi.Insn) Insn{
	FormALU:      func(r *capi.Insn) Insn { return ALU{Width(r.Bits), ALUOp(r.Op), Reg(r.Dst), operandOf(r)} },
	FormMovsx:    func(r *capi.Insn) Insn { return Movsx{movsxForm(r.Bits, r.FromBits), Reg(r.Dst), Reg(r.Src)} },
	FormNeg:      func(r *capi.Insn) Insn { return Neg{Width(r.Bits), Reg(r.Dst)} },
	FormSwap:     func(r *capi.Insn) Insn { return Swap{SwapKind(r.Op), SwapBits(r.Bits), Reg(r.Dst)} },
	FormJump:     func(r *capi.Insn) Insn { return Jump{r.Off} },
	FormJumpLong: func(r *capi.Insn) Insn { return JumpLong{r.Imm} },
	FormBranch: func(r *capi.Insn) Insn {
		return Branch{Width(r.Bits), BranchOp(r.Op), Reg(r.Dst), operandOf(r), r.Off}
	},
	FormCallHelper: func(r *capi.Insn) Insn { return CallHelper{r.Imm} },
	FormCallLocal:  func(r *capi.Insn) Insn { return CallLocal{r.Imm} },
	FormCallBTF:    func(r *capi.Insn) Insn { return CallBTF{r.Imm, r.Off} },
	FormExit:       func(r *capi.Insn) Insn { return Exit{} },
	FormLoad:       func(r *capi.Insn) Insn { return Load{Size(r.Bits), Reg(r.Dst), Reg(r.Src), r.Off} },
	FormLoadSigned: func(r *capi.Insn) Insn { return LoadSigned{Size(r.Bits), Reg(r.Dst), Reg(r.Src), r.Off} },
	FormStoreImm:   func(r *capi.Insn) Insn { return StoreImm{Size(r.Bits), Reg(r.Dst), r.Off, r.Imm} },
	FormStoreReg:   func(r *capi.Insn) Insn { return StoreReg{Size(r.Bits), Reg(r.Dst), Reg(r.Src), r.Off} },
	FormAtomic: func(r *capi.Insn) Insn {
		return Atomic{Width(r.Bits), AtomicOp(r.Op), Reg(r.Dst), Reg(r.Src), r.Off}
	},
	FormWide:      func(r *capi.Insn) Insn { return Wide{Reg(r.Dst), wideOf(r)} },
	FormPacketAbs: func(r *capi.Insn) Insn { return PacketAbs{Size(r.Bits), r.Imm} },
	FormPacketInd: func(r *capi.Insn) Insn { return PacketInd{Size(r.Bits), Reg(r.Src), r.Imm} },
}

// checkForms returns an error for the first record of a form that this package doesn't know.
func checkForms(records []capi.Insn) error {
	for i := range records {
		if form := int(records[i].Form); form >= len(insnOf) || insnOf[form] == nil {
			return &UnknownRecordError{i}
		}
	}
	return nil
}
