//! What all calls share: buffers for output, names of causes and strings of the library.

use crate::{sys, Error};
use std::ffi::CStr;
use std::fmt;
use std::os::raw::c_char;

/// An enum of causes. The trait can't be named outside the crate, so no other type implements it.
pub trait CauseNumber: Copy + fmt::Debug + fmt::Display + Send + Sync + 'static {
    /// What is counted up to the place of a fault, in messages.
    const UNIT: &'static str;
    /// The place of the fault: an offset, or a line of a listing.
    fn place(answer: &sys::bpfcanon_answer) -> u64;
    /// The cause of a number.
    fn of_number(number: u32) -> Self;
}

/// A static string of the library.
pub(crate) fn text(string: *const c_char) -> Option<&'static str> {
    if string.is_null() {
        return None;
    }
    // SAFETY: the library's strings are static and end with a NUL.
    unsafe { CStr::from_ptr(string) }.to_str().ok()
}

/// Makes a call with a buffer for this many bytes or records, and once more if the output is longer.
pub(crate) fn output<T, C: CauseNumber>(
    capacity: usize,
    call: impl Fn(*mut T, usize) -> sys::bpfcanon_answer,
) -> Result<Vec<T>, Error<C>> {
    let mut out = Vec::new();
    let mut capacity = capacity;
    loop {
        out.try_reserve_exact(capacity).map_err(|_| Error::OutOfMemory)?;
        let answer = call(out.as_mut_ptr(), out.capacity());
        match answer.status {
            sys::BPFCANON_STATUS_DONE => {
                assert!(answer.written <= out.capacity());
                // SAFETY: the call has written so many bytes or records.
                unsafe { out.set_len(answer.written) };
                return Ok(out);
            }
            sys::BPFCANON_STATUS_ROOM if answer.needed > out.capacity() => capacity = answer.needed,
            _ => return Err(Error::of(&answer)),
        }
    }
}

/// Makes a call that writes UTF-8.
pub(crate) fn text_output<C: CauseNumber>(
    capacity: usize,
    call: impl Fn(*mut c_char, usize) -> sys::bpfcanon_answer,
) -> Result<String, Error<C>> {
    let text = output(capacity, |out: *mut u8, capacity| call(out.cast(), capacity))?;
    let mut text = String::from_utf8(text).expect("the library writes UTF-8");
    text.shrink_to_fit();
    Ok(text)
}

/// Returns the answer of a call that is done.
pub(crate) fn done<C: CauseNumber>(
    answer: sys::bpfcanon_answer,
) -> Result<sys::bpfcanon_answer, Error<C>> {
    match answer.status {
        sys::BPFCANON_STATUS_DONE => Ok(answer),
        _ => Err(Error::of(&answer)),
    }
}

/// Returns whether two inputs are the same, by the answer of a comparison.
pub(crate) fn comparison<C: CauseNumber>(answer: &sys::bpfcanon_answer) -> Result<bool, Error<C>> {
    match answer.status {
        sys::BPFCANON_STATUS_DONE => Ok(true),
        sys::BPFCANON_STATUS_DIFFERENT => Ok(false),
        _ => Err(Error::of(answer)),
    }
}

/// Declares an enum of causes by their names and numbers. Behind these it can have a variant for the
/// causes of another kind, whose numbers are the smaller ones.
macro_rules! causes {
    ($(#[$about:meta])* $kind:ident, $unit:literal, $place:ident, $name:path, $text:path;
     $($(#[$doc:meta])* $variant:ident = $number:literal,)+
     $(; $(#[$other_doc:meta])* $other:ident($other_kind:path) below $first:literal)?) => {
        $(#[$about])*
        #[derive(Clone, Copy, Debug, PartialEq, Eq, Hash)]
        #[non_exhaustive]
        pub enum $kind {
            $($(#[$doc])* $variant,)+
            $($(#[$other_doc])* $other($other_kind),)?
            /// A cause that only a newer library has, by its number in `bpfcanon.h`.
            Other(u32),
        }

        impl $kind {
            /// All causes with numbers of their own that this version of the crate knows.
            pub const ALL: &'static [$kind] = &[$($kind::$variant),+];

            /// Returns the number of the cause in `bpfcanon.h`.
            pub fn number(self) -> u32 {
                match self {
                    $($kind::$variant => $number,)+
                    $($kind::$other(cause) => cause.number(),)?
                    $kind::Other(number) => number,
                }
            }

            /// Returns the name of the cause, as in `docs/FAULTS.md` and the messages of the
            /// command; none if the library doesn't know it.
            pub fn name(self) -> Option<&'static str> {
                // SAFETY: the call takes any number.
                $crate::call::text(unsafe { $name(self.number()) })
            }

            /// Returns a sentence on what the cause means, without a full stop; none if the
            /// library doesn't know it.
            pub fn description(self) -> Option<&'static str> {
                // SAFETY: the call takes any number.
                $crate::call::text(unsafe { $text(self.number()) })
            }
        }

        impl $crate::call::CauseNumber for $kind {
            const UNIT: &'static str = $unit;

            fn place(answer: &$crate::sys::bpfcanon_answer) -> u64 {
                answer.$place
            }

            fn of_number(number: u32) -> $kind {
                match number {
                    $($number => $kind::$variant,)+
                    $(_ if number < $first => $kind::$other(<$other_kind>::of_number(number)),)?
                    _ => $kind::Other(number),
                }
            }
        }

        impl std::fmt::Display for $kind {
            fn fmt(&self, f: &mut std::fmt::Formatter<'_>) -> std::fmt::Result {
                match self.description() {
                    Some(sentence) => f.write_str(sentence),
                    None => write!(f, "cause {}", self.number()),
                }
            }
        }
    };
}
pub(crate) use causes;
