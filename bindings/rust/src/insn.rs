//! BPF instructions ([RFC 9669](https://www.rfc-editor.org/rfc/rfc9669)) and their listings.

mod groups;
mod instruction;
mod operations;
mod program;
mod writer;

pub use groups::Groups;
pub use instruction::Insn;
pub use operations::{
    AluOp, AtomicOp, BranchOp, MovsxForm, NoSuchReg, Operand, Reg, Size, SmallSize, SwapBits,
    SwapKind, WideOf, Width,
};
pub use program::{encode, Insns, Program};
pub use writer::InsnWriter;

use crate::{call, sys, Order};

/// The error of a call on instructions.
pub type Error = crate::Error<Cause>;

/// The error of [`read`]. Its fault has a line in place of an offset.
pub type ListingError = crate::Error<ListingCause>;

call::causes! {
    /// Why instructions are refused: the first field such that no instruction matches the bytes in
    /// every field up to and including it. `docs/FAULTS.md` says what to do about each cause.
    Cause, "byte", offset, sys::bpfcanon_insn_cause_name, sys::bpfcanon_insn_cause_text;
    /// The input ends inside an instruction.
    Truncated = 1,
    /// No instruction has this opcode.
    Opcode = 2,
    /// No instruction with this opcode has this destination register.
    Dst = 3,
    /// No instruction with this opcode has this source register.
    Src = 4,
    /// No instruction with this opcode and these registers has this offset.
    Offset = 5,
    /// No instruction with this opcode, these registers and this offset has this immediate.
    Imm = 6,
    /// The second slot of a wide load has an opcode, a register or an offset that is not zero.
    Reserved = 7,
    /// The immediate of the second slot is not zero, and this kind of wide load has one number
    /// only.
    NextImm = 8,
}

call::causes! {
    /// Why a listing is refused.
    ListingCause, "line", line, sys::bpfcanon_line_cause_name, sys::bpfcanon_line_cause_text;
    /// A character that is neither blank nor part of a token.
    Char = 1,
    /// No instruction has this mnemonic.
    Word = 2,
    /// The operands are not those of the mnemonic.
    Shape = 3,
    /// A number is out of the range of its field.
    Range = 4,
}

/// Returns the instructions of a program in the byte order `order`, written in the order `to`.
///
/// If `to` is [`Order::Little`] these are its canonical bytes. The output is as long as the
/// program.
///
/// # Errors
///
/// The first fault of the program, or out of memory.
///
/// ```
/// use bpfcanon::{insn, Order};
///
/// let error = insn::canon(Order::Little, Order::Little, &[0x95, 0, 0]).unwrap_err();
/// assert_eq!(error.fault().unwrap().cause(), insn::Cause::Truncated);
/// assert_eq!(error.to_string(), "byte 0: the input ends inside an instruction");
/// ```
pub fn canon(order: Order, to: Order, program: &[u8]) -> Result<Vec<u8>, Error> {
    let (order, to, bytes, len) = (order as u32, to as u32, program.as_ptr(), program.len());
    call::output(len, |out, capacity| {
        // SAFETY: the slice and the buffer are valid for the call, and don't overlap.
        unsafe { sys::bpfcanon_insn_canon(order, to, bytes, len, out, capacity) }
    })
}

/// Returns the listing of a program: a line for each instruction, with a newline.
///
/// # Errors
///
/// The first fault of the program, or out of memory.
pub fn show(order: Order, program: &[u8]) -> Result<String, Error> {
    let (order, bytes, len) = (order as u32, program.as_ptr(), program.len());
    // No line is longer than four times its instruction.
    call::text_output(len.saturating_mul(4), |out, capacity| {
        // SAFETY: the slice and the buffer are valid for the call, and don't overlap.
        unsafe { sys::bpfcanon_insn_show(order, bytes, len, out, capacity) }
    })
}

/// Returns the instructions of a listing, written in the byte order `to`. Comments, blank lines and
/// hexadecimal numbers are allowed.
///
/// # Errors
///
/// The first line with a fault, or out of memory.
///
/// ```
/// use bpfcanon::{insn, Order};
///
/// assert_eq!(insn::read(Order::Little, "exit ; done")?, [0x95, 0, 0, 0, 0, 0, 0, 0]);
/// let error = insn::read(Order::Little, "exit\nleave\n").unwrap_err();
/// let fault = error.fault().unwrap();
/// assert_eq!((fault.line(), fault.cause()), (2, insn::ListingCause::Word));
/// # Ok::<(), insn::ListingError>(())
/// ```
pub fn read(to: Order, listing: impl AsRef<[u8]>) -> Result<Vec<u8>, ListingError> {
    let listing = listing.as_ref();
    let (to, text, len) = (to as u32, listing.as_ptr().cast(), listing.len());
    // Most lines are longer than their instruction; if they aren't, the call is made once more.
    call::output(len, |out, capacity| {
        // SAFETY: the slice and the buffer are valid for the call, and don't overlap.
        unsafe { sys::bpfcanon_insn_read(to, text, len, out, capacity) }
    })
}

/// Returns the conformance groups that a program needs, with the groups that these include.
///
/// # Errors
///
/// The first fault of the program.
pub fn groups(order: Order, program: &[u8]) -> Result<Groups, Error> {
    let (bytes, len) = (program.as_ptr(), program.len());
    // SAFETY: the slice is valid for the call.
    let answer = unsafe { sys::bpfcanon_insn_groups(order as u32, bytes, len) };
    Ok(Groups::from_bits_retain(call::done(answer)?.groups))
}

/// Returns whether two programs, each in its own byte order, have the same instructions.
///
/// # Errors
///
/// The first fault of the first program; if it has none, that of the second.
///
/// ```
/// use bpfcanon::{insn, Order};
///
/// let (little, big) = ([0xbf, 0x21, 0, 0, 0, 0, 0, 0], [0xbf, 0x12, 0, 0, 0, 0, 0, 0]);
/// assert!(insn::same(Order::Little, &little, Order::Big, &big)?);
/// let error = insn::same(Order::Little, &little, Order::Big, &[1]).unwrap_err();
/// assert!(error.fault().unwrap().is_in_second());
/// # Ok::<(), insn::Error>(())
/// ```
pub fn same(
    first_order: Order,
    first: &[u8],
    second_order: Order,
    second: &[u8],
) -> Result<bool, Error> {
    // SAFETY: the slices are valid for the call.
    let answer = unsafe {
        sys::bpfcanon_insn_same(
            first_order as u32,
            first.as_ptr(),
            first.len(),
            second_order as u32,
            second.as_ptr(),
            second.len(),
        )
    };
    call::comparison(&answer)
}
