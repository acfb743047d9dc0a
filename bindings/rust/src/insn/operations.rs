//! What instructions are made of: registers, widths, sizes and operations.

use crate::records::numbered;
use crate::sys::*;
use std::fmt;

/// A register, r0 to r10 (RFC 9669 section 3.1).
///
/// ```
/// use bpfcanon::insn::{NoSuchReg, Reg};
///
/// assert_eq!(Reg::try_from(10)?.to_string(), "r10");
/// assert_eq!(Reg::try_from(11), Err(NoSuchReg(11)));
/// # Ok::<(), NoSuchReg>(())
/// ```
#[derive(Clone, Copy, Debug, PartialEq, Eq, PartialOrd, Ord, Hash)]
pub struct Reg(u8);

impl Reg {
    /// Returns the register with this number, or `None` if the number is over 10.
    pub const fn new(number: u8) -> Option<Reg> {
        if number <= 10 {
            Some(Reg(number))
        } else {
            None
        }
    }

    /// Returns the number of the register, 0 to 10.
    pub const fn number(self) -> u8 {
        self.0
    }
}

/// The number of a register that doesn't exist, since it is over 10.
#[derive(Clone, Copy, Debug, PartialEq, Eq, Hash)]
pub struct NoSuchReg(pub u8);

impl fmt::Display for NoSuchReg {
    fn fmt(&self, f: &mut fmt::Formatter<'_>) -> fmt::Result {
        write!(f, "there is no register r{}", self.0)
    }
}

impl std::error::Error for NoSuchReg {}

impl TryFrom<u8> for Reg {
    type Error = NoSuchReg;

    fn try_from(number: u8) -> Result<Reg, NoSuchReg> {
        Reg::new(number).ok_or(NoSuchReg(number))
    }
}

/// `r0` to `r10`, as in listings.
impl fmt::Display for Reg {
    fn fmt(&self, f: &mut fmt::Formatter<'_>) -> fmt::Result {
        write!(f, "r{}", self.0)
    }
}

numbered! {
    /// The width of an arithmetic, jump or atomic operation (RFC 9669 sections 4.1, 4.3 and 5.3).
    Width {
        /// 32 bits: the classes ALU and JMP32, and atomic operations of size W.
        W32 = 32,
        /// 64 bits: the classes ALU64 and JMP, and atomic operations of size DW.
        W64 = 64,
    }
}

numbered! {
    /// The size of the data that a load or store transfers, in bits (RFC 9669 section 5).
    Size {
        /// 1 byte.
        B = 8,
        /// A half word (2 bytes).
        H = 16,
        /// A word (4 bytes).
        W = 32,
        /// A double word (8 bytes), DW in the standard.
        D = 64,
    }
}

numbered! {
    /// The size of a sign-extending load or of a load from packet data, in bits (RFC 9669 sections
    /// 5.2 and 5.5).
    SmallSize {
        /// 1 byte.
        B = 8,
        /// 2 bytes.
        H = 16,
        /// 4 bytes.
        W = 32,
    }
}

/// The second operand of an operation. The source bit of the opcode selects it (RFC 9669 section
/// 4).
#[derive(Clone, Copy, Debug, PartialEq, Eq, PartialOrd, Ord, Hash)]
pub enum Operand {
    /// Source bit K: the signed immediate.
    Imm(i32),
    /// Source bit X: a register.
    Reg(Reg),
}

numbered! {
    /// An arithmetic operation (RFC 9669 section 4.1). The signed division and remainder share the
    /// opcodes of the unsigned ones and have offset 1.
    AluOp {
        /// `dst += operand`.
        Add = BPFCANON_ALU_ADD,
        /// `dst -= operand`.
        Sub = BPFCANON_ALU_SUB,
        /// `dst *= operand`.
        Mul = BPFCANON_ALU_MUL,
        /// `dst /= operand`, unsigned.
        Div = BPFCANON_ALU_DIV,
        /// `dst /= operand`, signed.
        Sdiv = BPFCANON_ALU_SDIV,
        /// `dst |= operand`.
        Or = BPFCANON_ALU_OR,
        /// `dst &= operand`.
        And = BPFCANON_ALU_AND,
        /// `dst <<= operand`.
        Lsh = BPFCANON_ALU_LSH,
        /// `dst >>= operand`, filled with zeros.
        Rsh = BPFCANON_ALU_RSH,
        /// `dst %= operand`, unsigned.
        Mod = BPFCANON_ALU_MOD,
        /// `dst %= operand`, signed.
        Smod = BPFCANON_ALU_SMOD,
        /// `dst ^= operand`.
        Xor = BPFCANON_ALU_XOR,
        /// `dst = operand`.
        Mov = BPFCANON_ALU_MOV,
        /// `dst >>= operand`, filled with the sign.
        Arsh = BPFCANON_ALU_ARSH,
    }
}

numbered! {
    /// The comparison of a branch (RFC 9669 section 4.3).
    BranchOp {
        /// `dst == operand`.
        Eq = BPFCANON_BRANCH_EQ,
        /// `dst > operand`, unsigned.
        Gt = BPFCANON_BRANCH_GT,
        /// `dst >= operand`, unsigned.
        Ge = BPFCANON_BRANCH_GE,
        /// `dst & operand` isn't 0.
        Set = BPFCANON_BRANCH_SET,
        /// `dst != operand`.
        Ne = BPFCANON_BRANCH_NE,
        /// `dst > operand`, signed.
        Sgt = BPFCANON_BRANCH_SGT,
        /// `dst >= operand`, signed.
        Sge = BPFCANON_BRANCH_SGE,
        /// `dst < operand`, unsigned.
        Lt = BPFCANON_BRANCH_LT,
        /// `dst <= operand`, unsigned.
        Le = BPFCANON_BRANCH_LE,
        /// `dst < operand`, signed.
        Slt = BPFCANON_BRANCH_SLT,
        /// `dst <= operand`, signed.
        Sle = BPFCANON_BRANCH_SLE,
    }
}

/// The widths of a sign-extending move: that of the destination, and the number of low bits of the
/// source, which is in the offset field (RFC 9669 section 4.1).
#[derive(Clone, Copy, Debug, PartialEq, Eq, PartialOrd, Ord, Hash)]
pub enum MovsxForm {
    /// From 8 to 32 bits.
    W32From8,
    /// From 16 to 32 bits.
    W32From16,
    /// From 8 to 64 bits.
    W64From8,
    /// From 16 to 64 bits.
    W64From16,
    /// From 32 to 64 bits.
    W64From32,
}

numbered! {
    /// How a byte swap instruction converts its operand (RFC 9669 section 4.2).
    SwapKind {
        /// Between the host's byte order and little-endian.
        Le = BPFCANON_SWAP_LE,
        /// Between the host's byte order and big-endian.
        Be = BPFCANON_SWAP_BE,
        /// Unconditionally: reverses the bytes.
        Bytes = BPFCANON_SWAP_BYTES,
    }
}

numbered! {
    /// The width of a byte swap in bits, which is its immediate (RFC 9669 section 4.2).
    SwapBits {
        /// 16 bits.
        B16 = 16,
        /// 32 bits.
        B32 = 32,
        /// 64 bits.
        B64 = 64,
    }
}

numbered! {
    /// An atomic operation on memory, which the immediate encodes (RFC 9669 section 5.3).
    AtomicOp {
        /// Addition.
        Add = BPFCANON_ATOMIC_ADD,
        /// Bitwise or.
        Or = BPFCANON_ATOMIC_OR,
        /// Bitwise and.
        And = BPFCANON_ATOMIC_AND,
        /// Bitwise exclusive or.
        Xor = BPFCANON_ATOMIC_XOR,
        /// Addition; src receives the old value.
        FetchAdd = BPFCANON_ATOMIC_FETCH_ADD,
        /// Bitwise or; src receives the old value.
        FetchOr = BPFCANON_ATOMIC_FETCH_OR,
        /// Bitwise and; src receives the old value.
        FetchAnd = BPFCANON_ATOMIC_FETCH_AND,
        /// Bitwise exclusive or; src receives the old value.
        FetchXor = BPFCANON_ATOMIC_FETCH_XOR,
        /// Stores src; src receives the old value.
        Xchg = BPFCANON_ATOMIC_XCHG,
        /// Stores src if the old value equals r0; r0 receives the old value.
        Cmpxchg = BPFCANON_ATOMIC_CMPXCHG,
    }
}

/// The value that a wide load loads: a 64-bit number, or an address that the src field and the
/// immediates identify (RFC 9669 section 5.4). Except in `Number`, the first value is imm, in the
/// first slot, and the second one next_imm, in the second slot.
#[derive(Clone, Copy, Debug, PartialEq, Eq, PartialOrd, Ord, Hash)]
pub enum WideOf {
    /// src 0: imm is the low half, next_imm the high half.
    Number(u64),
    /// src 1: a map, by its file descriptor.
    MapFd(i32),
    /// src 2: an address in a map's value, by the map's file descriptor and the offset in bytes.
    MapValueFd(i32, i32),
    /// src 3: a platform variable, by its ID; on Linux, loaders store the file descriptor of a
    /// module's BTF in next_imm.
    VarAddr(i32, i32),
    /// src 4: the address of an instruction, by its relative offset in slots.
    CodeAddr(i32),
    /// src 5: a map, by its index.
    MapIdx(i32),
    /// src 6: an address in a map's value, by the map's index and the offset in bytes.
    MapValueIdx(i32, i32),
}
