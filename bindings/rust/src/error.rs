//! The errors of calls.

use crate::call::CauseNumber;
use crate::{btf, insn, object, sys};
use std::{fmt, io};

/// The first fault of an input.
#[derive(Clone, Copy, Debug, PartialEq, Eq, Hash)]
pub struct Fault<C> {
    pub(crate) place: u64,
    pub(crate) cause: C,
    pub(crate) is_in_second: bool,
}

/// The causes of inputs in which a fault has an offset. The trait can't be named outside the crate.
pub trait OffsetCause {}
impl OffsetCause for insn::Cause {}
impl OffsetCause for btf::Cause {}
impl OffsetCause for object::Cause {}

impl<C: OffsetCause> Fault<C> {
    /// Returns the offset of the fault in bytes.
    pub fn offset(&self) -> u64 {
        self.place
    }
}

impl Fault<insn::ListingCause> {
    /// Returns the line of the fault, counted from 1.
    pub fn line(&self) -> u64 {
        self.place
    }
}

impl<C: Copy> Fault<C> {
    /// Returns why the input was refused.
    pub fn cause(&self) -> C {
        self.cause
    }

    /// Returns whether the fault is in the second of two inputs. Then the first has none.
    pub fn is_in_second(&self) -> bool {
        self.is_in_second
    }
}

impl<C: CauseNumber> fmt::Display for Fault<C> {
    fn fmt(&self, f: &mut fmt::Formatter<'_>) -> fmt::Result {
        let input = if self.is_in_second { "second input: " } else { "" };
        write!(f, "{input}{} {}: {}", C::UNIT, self.place, self.cause)
    }
}

impl<C: CauseNumber> std::error::Error for Fault<C> {}

/// The error of a call, with the causes `C` of faults: [`insn::Error`](crate::insn::Error),
/// [`insn::ListingError`](crate::insn::ListingError), [`btf::Error`](crate::btf::Error) or
/// [`object::Error`](crate::object::Error).
#[derive(Clone, Copy, Debug, PartialEq, Eq, Hash)]
#[non_exhaustive]
pub enum Error<C> {
    /// The input is refused.
    Fault(Fault<C>),
    /// Out of memory.
    OutOfMemory,
    /// The library returned a status that this crate doesn't know.
    Status(u32),
    /// The library and this crate are of different versions, and only one of them knows a form of
    /// instruction or a kind of type or item: that with this index, counted from 0.
    UnknownRecord(usize),
}

impl<C> Error<C> {
    /// Returns the fault, if the input was refused.
    pub fn fault(&self) -> Option<&Fault<C>> {
        match self {
            Error::Fault(fault) => Some(fault),
            _ => None,
        }
    }
}

impl<C: CauseNumber> Error<C> {
    /// The error of an answer whose status is not one of success.
    pub(crate) fn of(answer: &sys::bpfcanon_answer) -> Error<C> {
        match answer.status {
            sys::BPFCANON_STATUS_FAULT | sys::BPFCANON_STATUS_FAULT_SECOND => {
                let is_in_second = answer.status == sys::BPFCANON_STATUS_FAULT_SECOND;
                let (place, cause) = (C::place(answer), C::of_number(answer.cause));
                Error::Fault(Fault { place, cause, is_in_second })
            }
            sys::BPFCANON_STATUS_OUT_OF_MEMORY => Error::OutOfMemory,
            other => Error::Status(other),
        }
    }
}

impl<C: CauseNumber> fmt::Display for Error<C> {
    fn fmt(&self, f: &mut fmt::Formatter<'_>) -> fmt::Result {
        match self {
            Error::Fault(fault) => fault.fmt(f),
            Error::OutOfMemory => f.write_str("out of memory"),
            Error::Status(status) => write!(f, "unknown status {status} of libbpfcanon"),
            Error::UnknownRecord(index) => write!(f, "unknown record {index} of libbpfcanon"),
        }
    }
}

impl<C: CauseNumber> std::error::Error for Error<C> {}

/// A fault is [`io::ErrorKind::InvalidData`]. To get it back, downcast [`io::Error::get_ref`].
impl<C: CauseNumber> From<Error<C>> for io::Error {
    fn from(error: Error<C>) -> io::Error {
        let kind = match error {
            Error::Fault(_) => io::ErrorKind::InvalidData,
            Error::OutOfMemory => io::ErrorKind::OutOfMemory,
            Error::Status(_) | Error::UnknownRecord(_) => io::ErrorKind::Other,
        };
        io::Error::new(kind, error)
    }
}

#[cfg(test)]
mod tests {
    use super::*;
    use crate::insn;
    use crate::sys::*;

    /// Each status of `bpfcanon.h` that isn't one of success, and one of a newer library.
    #[test]
    fn each_status_has_its_error() {
        let cause = insn::Cause::Dst;
        let fault = |is_in_second| Error::Fault(Fault { place: 9, cause, is_in_second });
        let unknown =
            [BPFCANON_STATUS_ROOM, BPFCANON_STATUS_ORDER, BPFCANON_STATUS_ALIGNMENT, 8, 99];
        let unknown = unknown.map(|status| (status, Error::Status(status)));
        let faults =
            [(BPFCANON_STATUS_FAULT, fault(false)), (BPFCANON_STATUS_FAULT_SECOND, fault(true))];
        let known = faults.into_iter().chain([(BPFCANON_STATUS_OUT_OF_MEMORY, Error::OutOfMemory)]);
        for (status, error) in known.chain(unknown) {
            let cause = cause.number();
            let answer = bpfcanon_answer { status, cause, offset: 9, ..Default::default() };
            assert_eq!(Error::of(&answer), error, "{status}");
        }
    }
}
