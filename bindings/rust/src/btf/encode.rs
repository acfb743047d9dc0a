//! From types to BTF.

use super::{Cause, Error, Type, TypeId};
use crate::sys::*;
use crate::{call, Order};
use std::borrow::Borrow;
use std::collections::hash_map::{Entry, HashMap};
use std::collections::TryReserveError;
use std::fmt;
use std::num::TryFromIntError;

/// Why [`encode`] returns no BTF.
#[derive(Clone, Copy, Debug, PartialEq, Eq, Hash)]
#[non_exhaustive]
pub enum EncodeError {
    /// A type can't be encoded.
    Type {
        /// The index of the type, counted from 0. Its ID is one more.
        index: usize,
        /// What is wrong, for example [`Cause::Reference`] if an ID is over the number of types.
        /// None for a type that no BTF holds: one with a name with a NUL, a number that its field
        /// can't hold, or more than 65,535 members, values, parameters or entries.
        cause: Option<Cause>,
    },
    /// The call failed, for example because it ran out of memory.
    Library(Error),
}

impl fmt::Display for EncodeError {
    fn fmt(&self, f: &mut fmt::Formatter<'_>) -> fmt::Result {
        match self {
            EncodeError::Type { index, cause: Some(cause) } => {
                write!(f, "the type with index {index}: {cause}")
            }
            EncodeError::Type { index, cause: None } => {
                write!(f, "the type with index {index} has no encoding")
            }
            EncodeError::Library(error) => error.fmt(f),
        }
    }
}

impl std::error::Error for EncodeError {}

/// Returns the canonical form of the BTF that has these types, in the byte order `to`.
///
/// If `to` is [`Order::Little`] these are its canonical bytes. The first type has the ID 1, and
/// types refer to each other by their IDs. The names, each counted once and with a NUL, are at most
/// 16 MiB long, and the records of the types at most 32 MiB.
///
/// # Errors
///
/// [`EncodeError::Type`] for a type that exceeds a limit, that has a fault or that no BTF holds; or
/// out of memory. A type with more than 65,535 items comes before all others. The order of the
/// other faults is that of `bpfcanon_btf_encode` in `bpfcanon.h`.
///
/// ```
/// use bpfcanon::btf::{self, Cause, EncodeError, Encoding, Member, Type, TypeId};
/// use bpfcanon::Order;
///
/// let (encoding, int) = (Encoding::Signed, TypeId(1));
/// let member = |name, bit_offset| Member { name, target: int, bit_offset, width: 0 };
/// let file = btf::encode(Order::Little, [
///     Type::Int { name: "int", size: 4, encoding, bit_offset: 0, bits: 32 },
///     Type::Struct { name: "point", size: 8, members: vec![member("x", 0), member("y", 32)] },
/// ])?;
/// assert_eq!(
///     btf::show(&file)?,
///     r#"[1] int "int" size=4 encoding=signed offset=0 bits=32
/// [2] struct "point" size=8 items=2
///   member "x" type=1 offset=0 width=0
///   member "y" type=1 offset=32 width=0
/// "#
/// );
///
/// let error = btf::encode(Order::Little, [Type::Ptr { target: TypeId(2) }]).unwrap_err();
/// assert_eq!(error, EncodeError::Type { index: 0, cause: Some(Cause::Reference) });
/// # Ok::<(), Box<dyn std::error::Error>>(())
/// ```
pub fn encode<'a, T>(to: Order, types: T) -> Result<Vec<u8>, EncodeError>
where
    T: IntoIterator,
    T::Item: Borrow<Type<'a>>,
{
    let types = types.into_iter();
    let mut records = Records::default();
    let out_of_memory = |_| EncodeError::Library(Error::OutOfMemory);
    records.types.try_reserve(types.size_hint().0).map_err(out_of_memory)?;
    records.offsets.try_reserve(types.size_hint().0).map_err(out_of_memory)?;
    for (index, it) in types.enumerate() {
        records.push(it.borrow()).map_err(|refused| match refused {
            Refused::NoType => EncodeError::Type { index, cause: None },
            Refused::Memory => EncodeError::Library(Error::OutOfMemory),
        })?;
    }
    records.encode(to).map_err(|error| match error {
        Error::Fault(fault) => EncodeError::Type {
            index: fault.place as usize,
            cause: Some(fault.cause).filter(|it| it.number() != 0),
        },
        other => EncodeError::Library(other),
    })
}

/// Why a type has no record.
enum Refused {
    NoType,
    Memory,
}

impl From<TryFromIntError> for Refused {
    fn from(_: TryFromIntError) -> Refused {
        Refused::NoType
    }
}

impl From<TryReserveError> for Refused {
    fn from(_: TryReserveError) -> Refused {
        Refused::Memory
    }
}

/// What the call reads.
#[derive(Default)]
struct Records<'a> {
    types: Vec<bpfcanon_btf_type>,
    items: Vec<bpfcanon_btf_item>,
    /// Each name once, with a NUL after it.
    strings: Vec<u8>,
    offsets: HashMap<&'a str, u32>,
}

impl<'a> Records<'a> {
    /// Appends the record of a type, and those of its items.
    fn push(&mut self, it: &Type<'a>) -> Result<(), Refused> {
        let first = self.items.len();
        self.push_items(it)?;
        let items = u16::try_from(self.items.len() - first)?;
        let (name, name_len) = self.name(it.name())?;
        let record =
            bpfcanon_btf_type { name, name_len, first: first.try_into()?, items, ..it.record() };
        self.types.try_reserve(1)?;
        self.types.push(record);
        Ok(())
    }

    #[rustfmt::skip]
    fn push_items(&mut self, it: &Type<'a>) -> Result<(), Refused> {
        let to = |target: TypeId| bpfcanon_btf_item { target: target.0, ..Default::default() };
        match it {
            Type::Struct { members, .. } | Type::Union { members, .. } => members.iter().try_for_each(|it| {
                let kind = BPFCANON_BTF_ITEM_KIND_MEMBER;
                self.push_item(it.name, bpfcanon_btf_item { kind, bit_offset: it.bit_offset, width: it.width.into(), ..to(it.target) })
            }),
            Type::Enum { values, signed, .. } => values.iter().try_for_each(|it| {
                let value = if *signed { i32::try_from(it.value as i64).map(|it| it as u32) } else { u32::try_from(it.value) };
                let kind = BPFCANON_BTF_ITEM_KIND_ENUM_VALUE;
                // The library refuses a value that isn't one of 32 bits.
                self.push_item(it.name, bpfcanon_btf_item { kind, value: value.map_or(u64::MAX, u64::from), ..Default::default() })
            }),
            Type::Enum64 { values, .. } => values.iter().try_for_each(|it| {
                let kind = BPFCANON_BTF_ITEM_KIND_ENUM64_VALUE;
                self.push_item(it.name, bpfcanon_btf_item { kind, value: it.value, ..Default::default() })
            }),
            Type::FuncProto { params, .. } => params.iter().try_for_each(|it| {
                self.push_item(it.name, bpfcanon_btf_item { kind: BPFCANON_BTF_ITEM_KIND_PARAM, ..to(it.target) })
            }),
            Type::Datasec { entries, .. } => entries.iter().try_for_each(|it| {
                let kind = BPFCANON_BTF_ITEM_KIND_ENTRY;
                self.push_item("", bpfcanon_btf_item { kind, offset: it.offset, size: it.size, ..to(it.target) })
            }),
            _ => Ok(()),
        }
    }

    fn push_item(&mut self, name: &'a str, record: bpfcanon_btf_item) -> Result<(), Refused> {
        let (name, name_len) = self.name(name)?;
        self.items.try_reserve(1)?;
        self.items.push(bpfcanon_btf_item { name, name_len, ..record });
        Ok(())
    }

    /// The offset and the length of a name, which is appended unless it is there.
    fn name(&mut self, name: &'a str) -> Result<(u32, u32), Refused> {
        if name.is_empty() {
            return Ok((0, 0));
        }
        let len = u32::try_from(name.len())?;
        self.offsets.try_reserve(1)?;
        let offset = match self.offsets.entry(name) {
            Entry::Occupied(known) => return Ok((*known.get(), len)),
            Entry::Vacant(new) => *new.insert(u32::try_from(self.strings.len())?),
        };
        self.strings.try_reserve(name.len() + 1)?;
        self.strings.extend(name.as_bytes());
        self.strings.push(0);
        Ok((offset, len))
    }

    fn encode(&self, to: Order) -> Result<Vec<u8>, Error> {
        let capacity = 24 + 24 * self.types.len() + 12 * self.items.len() + 1 + self.strings.len();
        call::output(capacity, |out, capacity| {
            // SAFETY: the records, the names and the buffer are valid for the call, and don't
            // overlap.
            unsafe {
                bpfcanon_btf_encode(
                    to as u32,
                    self.types.as_ptr(),
                    self.types.len(),
                    self.items.as_ptr(),
                    self.items.len(),
                    self.strings.as_ptr().cast(),
                    self.strings.len(),
                    out,
                    capacity,
                )
            }
        })
    }
}
