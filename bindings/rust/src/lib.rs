//! Canonical bytes and typed values of BPF instructions ([RFC 9669]) and of [BTF], the types of BPF
//! programs, and canonical BPF object files.
//!
//! The same instructions can be encoded in either byte order, and the same types can also lay out
//! their strings in many ways. [`insn::canon`] and [`btf::canon`] return canonical bytes: two
//! inputs without a fault have the same instructions or types if and only if their canonical bytes
//! are equal. For every other input the error is an [`Error::Fault`] with the offset and the
//! cause of its first fault.
//!
//! Object files have canonical files, which are object files themselves: [`object::canon`].
//!
//! [`insn::Program`] and [`btf::Btf`] decode an input into values, for programs that inspect or
//! compare it: [`insn::Insn`] and [`btf::Type`]. [`insn::encode`] and [`btf::encode`] are the way
//! back.
//!
//! The crate calls the C library `libbpfcanon`, whose core is proved to meet its contracts. The few
//! lines of C around that core and this crate are tested. The build script finds the library by
//! `pkg-config`, or in the folder `BPFCANON_LIB_DIR`. With `BPFCANON_STATIC=1`, or if the folder
//! has no shared library, the static one is linked into the program.
//!
//! ```
//! use bpfcanon::{insn, Order};
//!
//! // mov r1, r2 of a big-endian target
//! let program = [0xbf, 0x12, 0, 0, 0, 0, 0, 0];
//! let canonical = insn::canon(Order::Big, Order::Little, &program)?;
//! assert_eq!(canonical, [0xbf, 0x21, 0, 0, 0, 0, 0, 0]);
//! assert_eq!(insn::show(Order::Big, &program)?, "mov r1, r2\n");
//!
//! // add32 r1, 5 of a big-endian target, read in the wrong order
//! let program = [0x04, 0x10, 0, 0, 0, 0, 0, 5];
//! let error = insn::canon(Order::Little, Order::Little, &program).unwrap_err();
//! let fault = error.fault().unwrap();
//! assert_eq!((fault.offset(), fault.cause()), (1, insn::Cause::Src));
//! # Ok::<(), insn::Error>(())
//! ```
//!
//! Inputs are not copied, and nothing is kept of them after a call, except that decoded values
//! borrow theirs. Calls may run in any number of threads.
//!
//! [RFC 9669]: https://www.rfc-editor.org/rfc/rfc9669
//! [BTF]: https://docs.kernel.org/bpf/btf.html

#![warn(missing_docs, missing_debug_implementations, clippy::undocumented_unsafe_blocks)]
#![deny(unsafe_op_in_unsafe_fn)]

pub mod btf;
mod call;
mod error;
pub mod insn;
pub mod object;
mod records;
#[allow(dead_code, missing_docs, non_camel_case_types)]
mod sys;

pub use error::{Error, Fault};

/// The examples of the README are tests.
#[cfg(doctest)]
#[doc = include_str!("../README.md")]
mod readme {}

use std::fmt;

/// A byte order. Instructions don't state theirs, so the caller gives it; BTF does.
///
/// ```
/// # use bpfcanon::Order;
/// assert_eq!(Order::default(), Order::Little);
/// assert_eq!("big".parse(), Ok(Order::Big));
/// assert_eq!(Order::Big.to_string(), "big");
/// ```
#[derive(Clone, Copy, Debug, Default, PartialEq, Eq, PartialOrd, Ord, Hash)]
pub enum Order {
    /// Little-endian, the order of canonical bytes.
    #[default]
    Little = sys::BPFCANON_ORDER_LITTLE as isize,
    /// Big-endian.
    Big = sys::BPFCANON_ORDER_BIG as isize,
}

impl fmt::Display for Order {
    fn fmt(&self, f: &mut fmt::Formatter<'_>) -> fmt::Result {
        f.pad(match self {
            Order::Little => "little",
            Order::Big => "big",
        })
    }
}

/// A word that is neither `little` nor `big`.
#[derive(Clone, Copy, Debug, PartialEq, Eq)]
#[non_exhaustive]
pub struct ParseOrderError;

impl fmt::Display for ParseOrderError {
    fn fmt(&self, f: &mut fmt::Formatter<'_>) -> fmt::Result {
        f.write_str("the byte order is neither `little` nor `big`")
    }
}

impl std::error::Error for ParseOrderError {}

impl std::str::FromStr for Order {
    type Err = ParseOrderError;

    fn from_str(word: &str) -> Result<Order, ParseOrderError> {
        match word {
            "little" => Ok(Order::Little),
            "big" => Ok(Order::Big),
            _ => Err(ParseOrderError),
        }
    }
}

/// Returns the version of the C library, as `0.1.0`.
pub fn library_version() -> &'static str {
    // SAFETY: the call takes nothing.
    call::text(unsafe { sys::bpfcanon_version() }).unwrap_or("")
}
