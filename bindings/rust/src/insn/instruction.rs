//! Instructions as values, and their records.

use super::operations::{
    AluOp, AtomicOp, BranchOp, MovsxForm, Operand, Reg, Size, SmallSize, SwapBits, SwapKind,
    WideOf, Width,
};
use crate::records::Field;
use crate::sys::*;

/// Declares the instructions: each form with its fields, and what fields of a record these are.
macro_rules! insns {
    ($($(#[$doc:meta])* $form:ident $({ $($field:ident: $kind:ty = $($place:ident)+),+ })? = $number:ident,)+) => {
        /// An instruction (RFC 9669; section numbers are those of this document). Each value has exactly
        /// one encoding in each byte order. A slot has 8 bytes; in the formulas, `off` is in bytes.
        #[derive(Clone, Copy, Debug, PartialEq, Eq, Hash)]
        // The sentence of a variant describes its fields.
        #[allow(missing_docs)]
        pub enum Insn {
            $($(#[$doc])* $form $({ $($field: $kind),+ })?,)+
        }

        impl bpfcanon_insn {
            /// The instruction of a record; none if its form or operation is unknown.
            pub(crate) fn insn(&self) -> Option<Insn> {
                Some(match u32::from(self.form) {
                    $($number => Insn::$form $({ $($field: Field::of(($(self.$place),+))?),+ })?,)+
                    _ => return None,
                })
            }
        }

        /// The record of an instruction, without the fields that `bpfcanon_insn_encode` doesn't read.
        impl From<Insn> for bpfcanon_insn {
            fn from(insn: Insn) -> bpfcanon_insn {
                let mut record = bpfcanon_insn::default();
                match insn {
                    $(Insn::$form $({ $($field),+ })? => {
                        record.form = $number as u8;
                        $($(($(record.$place),+) = $field.numbers();)+)?
                    })+
                }
                record
            }
        }
    };
}

insns! {
    /// An arithmetic operation on `dst` and `arg` (section 4.1).
    Alu { width: Width = bits, op: AluOp = op, dst: Reg = dst, arg: Operand = by_reg src imm } = BPFCANON_FORM_ALU,
    /// A sign-extending move, MOVSX, from `src` to `dst` (section 4.1).
    Movsx { form: MovsxForm = bits from_bits, dst: Reg = dst, src: Reg = src } = BPFCANON_FORM_MOVSX,
    /// `dst = -dst` (section 4.1).
    Neg { width: Width = bits, dst: Reg = dst } = BPFCANON_FORM_NEG,
    /// A byte swap of the low bits of `dst` (section 4.2).
    Swap { kind: SwapKind = op, bits: SwapBits = bits, dst: Reg = dst } = BPFCANON_FORM_SWAP,
    /// A jump by `off` slots, relative to the next instruction (section 4.3).
    Jump { off: i16 = off } = BPFCANON_FORM_JUMP,
    /// A jump by `imm` slots, relative to the next instruction (section 4.3).
    JumpLong { imm: i32 = imm } = BPFCANON_FORM_JUMP_LONG,
    /// A jump by `off` slots, relative to the next instruction, if the comparison of `dst` and
    /// `arg` holds (section 4.3).
    Branch { width: Width = bits, op: BranchOp = op, dst: Reg = dst, arg: Operand = by_reg src imm, off: i16 = off } = BPFCANON_FORM_BRANCH,
    /// A call of a helper function by its static ID (section 4.3.1).
    CallHelper { id: i32 = imm } = BPFCANON_FORM_CALL_HELPER,
    /// A call of a function of the same program, `imm` slots relative to the next instruction
    /// (section 4.3.2).
    CallLocal { imm: i32 = imm } = BPFCANON_FORM_CALL_LOCAL,
    /// A call of a helper function by its BTF ID (section 4.3.1). On Linux, loaders store in `off`
    /// which module's BTF has the ID.
    CallBtf { id: i32 = imm, off: i16 = off } = BPFCANON_FORM_CALL_BTF,
    /// A return from the function (section 4.3).
    Exit = BPFCANON_FORM_EXIT,
    /// `dst = *(src + off)` (section 5.1).
    Load { size: Size = bits, dst: Reg = dst, src: Reg = src, off: i16 = off } = BPFCANON_FORM_LOAD,
    /// `dst = *(src + off)`, sign-extended (section 5.2).
    LoadSigned { size: SmallSize = bits, dst: Reg = dst, src: Reg = src, off: i16 = off } = BPFCANON_FORM_LOAD_SIGNED,
    /// `*(dst + off) = imm` (section 5.1).
    StoreImm { size: Size = bits, dst: Reg = dst, off: i16 = off, imm: i32 = imm } = BPFCANON_FORM_STORE_IMM,
    /// `*(dst + off) = src` (section 5.1).
    StoreReg { size: Size = bits, dst: Reg = dst, src: Reg = src, off: i16 = off } = BPFCANON_FORM_STORE_REG,
    /// An atomic operation on `*(dst + off)` with `src` (section 5.3).
    Atomic { width: Width = bits, op: AtomicOp = op, dst: Reg = dst, src: Reg = src, off: i16 = off } = BPFCANON_FORM_ATOMIC,
    /// A load of a 64-bit value, the only instruction that has two slots (section 5.4).
    Wide { dst: Reg = dst, what: WideOf = bits op imm next_imm } = BPFCANON_FORM_WIDE,
    /// A load from packet data at the byte offset `imm` (section 5.5).
    PacketAbs { size: SmallSize = bits, imm: i32 = imm } = BPFCANON_FORM_PACKET_ABS,
    /// A load from packet data at the byte offset `src + imm` (section 5.5).
    PacketInd { size: SmallSize = bits, src: Reg = src, imm: i32 = imm } = BPFCANON_FORM_PACKET_IND,
}

impl Field<u8> for Reg {
    fn of(number: u8) -> Option<Reg> {
        Reg::new(number)
    }

    fn numbers(self) -> u8 {
        self.number()
    }
}

impl Field<(u8, u8, i32)> for Operand {
    fn of((by_reg, src, imm): (u8, u8, i32)) -> Option<Operand> {
        Some(if by_reg == 1 { Operand::Reg(Reg::new(src)?) } else { Operand::Imm(imm) })
    }

    fn numbers(self) -> (u8, u8, i32) {
        match self {
            Operand::Reg(src) => (1, src.number(), 0),
            Operand::Imm(imm) => (0, 0, imm),
        }
    }
}

impl MovsxForm {
    /// Each form with the widths of the destination and of the source in bits.
    const BITS: [(MovsxForm, (u8, u8)); 5] = [
        (MovsxForm::W32From8, (32, 8)),
        (MovsxForm::W32From16, (32, 16)),
        (MovsxForm::W64From8, (64, 8)),
        (MovsxForm::W64From16, (64, 16)),
        (MovsxForm::W64From32, (64, 32)),
    ];
}

impl Field<(u8, u8)> for MovsxForm {
    fn of(bits: (u8, u8)) -> Option<MovsxForm> {
        MovsxForm::BITS.iter().find(|it| it.1 == bits).map(|it| it.0)
    }

    fn numbers(self) -> (u8, u8) {
        MovsxForm::BITS[self as usize].1
    }
}

/// The bits of the operation, a number of `enum bpfcanon_wide`, and both immediates.
impl Field<(u8, u8, i32, i32)> for WideOf {
    fn of((_, op, imm, next_imm): (u8, u8, i32, i32)) -> Option<WideOf> {
        Some(match u32::from(op) {
            BPFCANON_WIDE_NUMBER => {
                WideOf::Number(u64::from(next_imm as u32) << 32 | u64::from(imm as u32))
            }
            BPFCANON_WIDE_MAP_FD => WideOf::MapFd(imm),
            BPFCANON_WIDE_MAP_VALUE_FD => WideOf::MapValueFd(imm, next_imm),
            BPFCANON_WIDE_VAR_ADDR => WideOf::VarAddr(imm, next_imm),
            BPFCANON_WIDE_CODE_ADDR => WideOf::CodeAddr(imm),
            BPFCANON_WIDE_MAP_IDX => WideOf::MapIdx(imm),
            BPFCANON_WIDE_MAP_VALUE_IDX => WideOf::MapValueIdx(imm, next_imm),
            _ => return None,
        })
    }

    fn numbers(self) -> (u8, u8, i32, i32) {
        let (op, imm, next_imm) = match self {
            WideOf::Number(number) => (BPFCANON_WIDE_NUMBER, number as i32, (number >> 32) as i32),
            WideOf::MapFd(imm) => (BPFCANON_WIDE_MAP_FD, imm, 0),
            WideOf::MapValueFd(imm, next_imm) => (BPFCANON_WIDE_MAP_VALUE_FD, imm, next_imm),
            WideOf::VarAddr(imm, next_imm) => (BPFCANON_WIDE_VAR_ADDR, imm, next_imm),
            WideOf::CodeAddr(imm) => (BPFCANON_WIDE_CODE_ADDR, imm, 0),
            WideOf::MapIdx(imm) => (BPFCANON_WIDE_MAP_IDX, imm, 0),
            WideOf::MapValueIdx(imm, next_imm) => (BPFCANON_WIDE_MAP_VALUE_IDX, imm, next_imm),
        };
        (64, op as u8, imm, next_imm)
    }
}
