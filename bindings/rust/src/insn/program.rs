//! Programs as sequences of instructions.

use super::{Error, Groups, Insn};
use crate::{call, sys, Order};
use std::borrow::Borrow;
use std::{fmt, iter, slice};

/// The instructions of a program, decoded.
///
/// Iteration gives each instruction with its offset in bytes, as [`str::char_indices`] does for
/// characters. A wide load has 16 bytes and every other instruction 8, so offsets and indices
/// aren't proportional; [`Program::index_at`] finds the instruction that a jump leads to.
///
/// ```
/// use bpfcanon::insn::{Insn, Program};
/// use bpfcanon::{insn, Order};
///
/// let bytes = insn::read(Order::Little, "lddw r1, 5\ncall 6\nexit\n")?;
/// let program = Program::decode(Order::Little, &bytes)?;
/// assert_eq!(program.len(), 3);
/// let calls = program.iter().filter_map(|(offset, it)| match it {
///     Insn::CallHelper { id } => Some((offset, id)),
///     _ => None,
/// });
/// assert_eq!(calls.collect::<Vec<_>>(), [(16, 6)]);
/// assert_eq!(program.index_at(24), Some(2));
/// # Ok::<(), Box<dyn std::error::Error>>(())
/// ```
#[derive(Clone)]
pub struct Program<'a> {
    bytes: &'a [u8],
    // `decode` has checked that each is known.
    records: Vec<sys::bpfcanon_insn>,
}

impl<'a> Program<'a> {
    /// Decodes a program in the byte order `order`. Takes 32 bytes of memory for each instruction.
    ///
    /// # Errors
    ///
    /// The first fault of the program, or out of memory, or [`Error::UnknownRecord`] if the library
    /// is newer and decodes an instruction that this crate doesn't know.
    pub fn decode(order: Order, bytes: &'a [u8]) -> Result<Program<'a>, Error> {
        let mut records: Vec<sys::bpfcanon_insn> = call::output(bytes.len() / 8, |out, room| {
            // SAFETY: the slice and the buffer, which is aligned to 8 bytes, are valid for the
            // call, and don't overlap.
            unsafe {
                sys::bpfcanon_insn_decode(order as u32, bytes.as_ptr(), bytes.len(), out, room)
            }
        })?;
        if let Some(index) = records.iter().position(|it| it.insn().is_none()) {
            return Err(Error::UnknownRecord(index));
        }
        records.shrink_to_fit();
        Ok(Program { bytes, records })
    }

    /// Returns the number of instructions.
    pub fn len(&self) -> usize {
        self.records.len()
    }

    /// Returns whether there is no instruction.
    pub fn is_empty(&self) -> bool {
        self.records.is_empty()
    }

    /// Returns the instruction with this index, counted from 0; none if there are fewer.
    pub fn get(&self, index: usize) -> Option<Insn> {
        self.records.get(index)?.insn()
    }

    /// Returns the offset in bytes of the instruction with this index; none if there are fewer.
    pub fn offset(&self, index: usize) -> Option<usize> {
        Some(self.records.get(index)?.offset as usize)
    }

    /// Returns the index of the instruction that begins at this offset in bytes; none if no
    /// instruction begins there. Takes logarithmic time.
    pub fn index_at(&self, offset: usize) -> Option<usize> {
        self.records.binary_search_by_key(&(offset as u64), |it| it.offset).ok()
    }

    /// Returns the encoding of the instruction with this index, 8 or 16 bytes of the program; none
    /// if there are fewer.
    pub fn bytes(&self, index: usize) -> Option<&'a [u8]> {
        let record = self.records.get(index)?;
        let start = record.offset as usize;
        self.bytes.get(start..start + usize::from(record.len))
    }

    /// Returns the conformance group of the instruction with this index, without the groups that it
    /// includes (RFC 9669 section 2.4); none if there are fewer.
    pub fn group(&self, index: usize) -> Option<Groups> {
        Some(Groups::from_bits_retain(self.records.get(index)?.group.into()))
    }

    /// Returns an iterator over the instructions, each with its offset in bytes.
    pub fn iter(&self) -> Insns<'_> {
        Insns { records: self.records.iter() }
    }
}

/// The instructions with their offsets in bytes.
impl fmt::Debug for Program<'_> {
    fn fmt(&self, f: &mut fmt::Formatter<'_>) -> fmt::Result {
        f.debug_map().entries(self).finish()
    }
}

impl<'b> IntoIterator for &'b Program<'_> {
    type Item = (usize, Insn);
    type IntoIter = Insns<'b>;

    fn into_iter(self) -> Insns<'b> {
        self.iter()
    }
}

/// An iterator over the instructions of a [`Program`], each with its offset in bytes.
#[derive(Clone)]
pub struct Insns<'b> {
    records: slice::Iter<'b, sys::bpfcanon_insn>,
}

fn located(record: &sys::bpfcanon_insn) -> Option<(usize, Insn)> {
    Some((record.offset as usize, record.insn()?))
}

impl Iterator for Insns<'_> {
    type Item = (usize, Insn);

    fn next(&mut self) -> Option<(usize, Insn)> {
        self.records.next().and_then(located)
    }

    fn size_hint(&self) -> (usize, Option<usize>) {
        self.records.size_hint()
    }

    fn nth(&mut self, count: usize) -> Option<(usize, Insn)> {
        self.records.nth(count).and_then(located)
    }
}

impl DoubleEndedIterator for Insns<'_> {
    fn next_back(&mut self) -> Option<(usize, Insn)> {
        self.records.next_back().and_then(located)
    }
}

impl ExactSizeIterator for Insns<'_> {}
impl iter::FusedIterator for Insns<'_> {}

impl fmt::Debug for Insns<'_> {
    fn fmt(&self, f: &mut fmt::Formatter<'_>) -> fmt::Result {
        f.debug_map().entries(self.clone()).finish()
    }
}

/// Returns the encoding of instructions in the byte order `to`.
///
/// If `to` is [`Order::Little`] these are their canonical bytes. Each [`Insn`] has an encoding, so
/// there is no fault: numbers that have none, such as a register over 10, make no [`Reg`].
///
/// # Errors
///
/// Out of memory, or [`Error::UnknownRecord`] with the index of the first instruction that an older
/// library doesn't know.
///
/// ```
/// use bpfcanon::insn::{self, AluOp, Insn, Operand, Reg, Width};
/// use bpfcanon::Order;
///
/// let r0 = Reg::try_from(0)?;
/// let mov = Insn::Alu { width: Width::W64, op: AluOp::Mov, dst: r0, arg: Operand::Imm(2) };
/// let program = insn::encode(Order::Little, [mov, Insn::Exit])?;
/// assert_eq!(insn::show(Order::Little, &program)?, "mov r0, 2\nexit\n");
/// # Ok::<(), Box<dyn std::error::Error>>(())
/// ```
///
/// [`Reg`]: crate::insn::Reg
pub fn encode<I>(to: Order, insns: I) -> Result<Vec<u8>, Error>
where
    I: IntoIterator,
    I::Item: Borrow<Insn>,
{
    let insns = insns.into_iter();
    let mut records: Vec<sys::bpfcanon_insn> = Vec::new();
    records.try_reserve(insns.size_hint().0).map_err(|_| Error::OutOfMemory)?;
    for insn in insns {
        records.try_reserve(1).map_err(|_| Error::OutOfMemory)?;
        records.push((*insn.borrow()).into());
    }
    let is_wide = |it: &&sys::bpfcanon_insn| u32::from(it.form) == sys::BPFCANON_FORM_WIDE;
    let wide = records.iter().filter(is_wide).count();
    let encoded = call::output(8 * (records.len() + wide), |out, room| {
        // SAFETY: the records, which are aligned to 8 bytes, and the buffer are valid for the
        // call, and don't overlap.
        unsafe { sys::bpfcanon_insn_encode(to as u32, records.as_ptr(), records.len(), out, room) }
    });
    encoded.map_err(|error| match error {
        Error::Fault(fault) => Error::UnknownRecord(fault.place as usize),
        other => other,
    })
}
