//! BTF, the types of BPF programs ([btf.rst](https://docs.kernel.org/bpf/btf.html)), as the bytes
//! of the section `.BTF` of an object file.

mod encode;
mod file;
mod items;
mod resolve;
mod types;

pub use encode::{encode, EncodeError};
pub use file::{Btf, Types};
pub use items::{Entry, EnumValue, Member, Param};
pub use resolve::ResolveError;
pub use types::{Encoding, Linkage, Type, TypeId};

use crate::{call, sys, Order};

/// The error of a call on BTF.
pub type Error = crate::Error<Cause>;

/// The length in bytes of the longest BTF without a fault: a header of 4,096 bytes, types of 32 MiB
/// and strings of 16 MiB.
pub const MAX: usize = sys::BPFCANON_BTF_MAX as usize;

call::causes! {
    /// Why BTF is refused, with the field names of btf.rst. `docs/FAULTS.md` says what to do about
    /// each cause.
    Cause, "byte", offset, sys::bpfcanon_btf_cause_name, sys::bpfcanon_btf_cause_text;
    /// The file has fewer than 24 bytes.
    ShortHeader = 1,
    /// The file does not begin with the BTF magic number in either byte order.
    Magic = 2,
    /// The version is not 1.
    Version = 3,
    /// The flags are not 0.
    Flags = 4,
    /// `hdr_len` is under 24, over 4,096 or over the length of the file.
    HeaderLength = 5,
    /// A byte of the header after the first 24 is not 0.
    HeaderTail = 6,
    /// `type_len` is over 33,554,432.
    TypeLength = 7,
    /// `str_len` is 0 or over 16,777,216.
    StringLength = 8,
    /// The type and string sections do not follow the header one directly after the other.
    Sections = 9,
    /// `hdr_len`, `type_len` and `str_len` do not add up to the length of the file.
    FileLength = 10,
    /// The first byte of the string section is not NUL.
    FirstString = 11,
    /// The last byte of the string section is not NUL.
    LastString = 12,
    /// The type section ends inside the first three words of a record.
    RecordCut = 13,
    /// An unused bit of `info` is set.
    InfoBits = 14,
    /// The kind is 0 or over 19.
    KindNumber = 15,
    /// `kind_flag` is set on a kind that has none.
    FlagSet = 16,
    /// `vlen` is not 0 on a kind without items.
    Vlen = 17,
    /// The type section ends inside the data after the first three words of a record.
    TailCut = 18,
    /// `name_off` is not inside the string section.
    NameRange = 19,
    /// The name is not valid UTF-8.
    NameUtf8 = 20,
    /// A type of this kind needs a name.
    NameMissing = 21,
    /// A type of this kind has no name.
    NameUnwanted = 22,
    /// Never reported: the number is kept.
    TextsTooLong = 23,
    /// The third word of an ARRAY or FWD is not 0.
    NotZero = 24,
    /// No type of this kind has this size.
    Size = 25,
    /// The type ID is over the number of types.
    Reference = 26,
    /// The type that is referred to has the wrong kind.
    TargetKind = 27,
    /// The encoding, offset and bits of the INT are not valid.
    IntWord = 28,
    /// A record with bit-fields has a member whose INT has an offset, or a width other than 8, 16,
    /// 32, 64 or 128 bits.
    MemberInt = 29,
    /// The member ends after the end of its struct or union.
    MemberPlace = 30,
    /// The linkage is over 2.
    Linkage = 31,
    /// `component_idx` is neither -1 nor the index of a member or parameter of the tagged type.
    Component = 32,
}

/// Returns the canonical form of BTF in the byte order `to`.
///
/// If `to` is [`Order::Little`] these are its canonical bytes. The output is never longer than the
/// input.
///
/// # Errors
///
/// The first fault of the input, or out of memory.
///
/// ```
/// use bpfcanon::{btf, Order};
///
/// let types = b"\xeb\x9f\x01\0\0\0\0\x18\0\0\0\0\0\0\0\x10\0\0\0\x10\0\0\0\x05\
///     \0\0\0\x01\x01\0\0\0\0\0\0\x04\x01\0\0\x20\0int\0";
/// let canonical = btf::canon(Order::Little, types)?;
/// assert_eq!(btf::canon(Order::Big, &canonical)?, types);
/// assert!(btf::same(types, &canonical)?);
/// assert_eq!(btf::check(types)?, 1);
/// assert_eq!(btf::show(types)?, "[1] int \"int\" size=4 encoding=signed offset=0 bits=32\n");
/// # Ok::<(), btf::Error>(())
/// ```
pub fn canon(to: Order, types: &[u8]) -> Result<Vec<u8>, Error> {
    call::output(types.len(), |out, capacity| {
        // SAFETY: the slice and the buffer are valid for the call, and don't overlap.
        unsafe { sys::bpfcanon_btf_canon(to as u32, types.as_ptr(), types.len(), out, capacity) }
    })
}

/// Returns the types of BTF as text: a line for each type and for each of its items, each with a
/// newline.
///
/// # Errors
///
/// The first fault of the input, or out of memory. The text may be many times as long as the input,
/// since types can share names.
pub fn show(types: &[u8]) -> Result<String, Error> {
    // The text of a kernel's types is about twice as long as its BTF.
    call::text_output(types.len().saturating_mul(3), |out, capacity| {
        // SAFETY: the slice and the buffer are valid for the call, and don't overlap.
        unsafe { sys::bpfcanon_btf_show(types.as_ptr(), types.len(), out, capacity) }
    })
}

/// Returns the number of types. Type 0, void, is not counted.
///
/// # Errors
///
/// The first fault of the input, or out of memory.
pub fn check(types: &[u8]) -> Result<u32, Error> {
    // SAFETY: the slice is valid for the call.
    let answer = unsafe { sys::bpfcanon_btf_check(types.as_ptr(), types.len()) };
    Ok(call::done(answer)?.types)
}

/// Returns whether two BTF inputs, each in either byte order, have the same types in the same
/// order.
///
/// # Errors
///
/// The first fault of the first input; if it has none, that of the second; or out of memory.
pub fn same(first: &[u8], second: &[u8]) -> Result<bool, Error> {
    // SAFETY: the slices are valid for the call.
    let answer = unsafe {
        sys::bpfcanon_btf_same(first.as_ptr(), first.len(), second.as_ptr(), second.len())
    };
    call::comparison(&answer)
}
