//! Decoded BTF.

use super::items::Items;
use super::{Error, Type, TypeId, MAX};
use crate::call;
use crate::sys::{self, bpfcanon_btf_item, bpfcanon_btf_type};
use std::{fmt, iter, ops};

/// The types of a BTF file, decoded. Names are parts of the file, and live as long as it.
///
/// ```
/// use bpfcanon::btf::{Btf, Member, Type, TypeId};
///
/// let file = b"\x9f\xeb\x01\0\x18\0\0\0\0\0\0\0\x28\0\0\0\x28\0\0\0\x09\0\0\0\
///     \x01\0\0\0\0\0\0\x01\x04\0\0\0\x20\0\0\x01\
///     \0\0\0\0\x01\0\0\x04\x04\0\0\0\x05\0\0\0\x01\0\0\0\0\0\0\0\0int\0len\0";
/// let btf = Btf::decode(file)?;
/// for (id, it) in &btf {
///     if let Type::Struct { size, members, .. } = it {
///         assert_eq!((id, size), (TypeId(2), 4));
///         let target = TypeId(1);
///         assert_eq!(members, [Member { name: "len", target, bit_offset: 0, width: 0 }]);
///         assert_eq!(btf.name(target), Some("int"));
///     }
/// }
/// # Ok::<(), bpfcanon::btf::Error>(())
/// ```
#[derive(Clone)]
pub struct Btf<'a> {
    names: Names<'a>,
    // `decode` has checked that the kind of each is known.
    types: Vec<bpfcanon_btf_type>,
    items: Vec<bpfcanon_btf_item>,
}

impl<'a> Btf<'a> {
    /// Decodes BTF. Takes 40 bytes of memory for each type and for each item.
    ///
    /// # Errors
    ///
    /// The first fault of the input, or out of memory, or [`Error::UnknownRecord`] if the library is
    /// newer and decodes a kind of type that this crate doesn't know.
    pub fn decode(file: &'a [u8]) -> Result<Btf<'a>, Error> {
        let (types, items) = decode_records(file)?;
        let unknown = types.iter().position(|it| !it.is_known());
        let unknown_item = items.iter().position(|it| !it.is_known());
        match unknown.or(unknown_item) {
            Some(index) => Err(Error::UnknownRecord(index)),
            None => Ok(Btf { names: Names { file }, types, items }),
        }
    }

    /// Returns the number of types, not counting void. The greatest ID is this number.
    pub fn len(&self) -> usize {
        self.types.len()
    }

    /// Returns whether there is no type except void.
    pub fn is_empty(&self) -> bool {
        self.types.is_empty()
    }

    /// Returns the type with this ID, which is [`Type::Void`] for 0; none if there is no such type.
    pub fn get(&self, id: TypeId) -> Option<Type<'a>> {
        match id {
            TypeId::VOID => Some(Type::Void),
            _ => self.typed(self.record(id)?),
        }
    }

    /// Returns the name of the type with this ID, which is empty if it has none, as void; none if
    /// there is no such type.
    pub fn name(&self, id: TypeId) -> Option<&'a str> {
        if id == TypeId::VOID {
            return Some("");
        }
        let record = self.record(id)?;
        Some(self.names.get(record.name, record.name_len))
    }

    /// Returns an iterator over the types, in order, each with its ID, and without void.
    pub fn iter(&self) -> Types<'_, 'a> {
        Types { btf: self, indices: 0..self.types.len() }
    }

    /// Returns an iterator over the types with this name, in order, each with its ID. Several types
    /// can have one name: a struct and a typedef, for example.
    ///
    /// It compares the name of each type, so a program that looks up many names is faster with a
    /// map of its own.
    ///
    /// ```
    /// # use bpfcanon::btf::{Btf, Type, TypeId};
    /// fn struct_id(btf: &Btf<'_>, name: &str) -> Option<TypeId> {
    ///     btf.by_name(name).find(|(_, it)| matches!(it, Type::Struct { .. })).map(|(id, _)| id)
    /// }
    /// ```
    pub fn by_name<'b>(
        &'b self,
        name: &'b str,
    ) -> impl DoubleEndedIterator<Item = (TypeId, Type<'a>)> + 'b {
        let is_named = move |it: &bpfcanon_btf_type| {
            it.name_len as usize == name.len() && self.names.get(it.name, it.name_len) == name
        };
        let found = self.types.iter().enumerate().filter(move |(_, it)| is_named(it));
        found.filter_map(|(index, _)| self.entry(index))
    }

    fn record(&self, id: TypeId) -> Option<&bpfcanon_btf_type> {
        self.types.get((id.0 as usize).checked_sub(1)?)
    }

    /// The type with this index among the records, and its ID.
    fn entry(&self, index: usize) -> Option<(TypeId, Type<'a>)> {
        Some((TypeId(index as u32 + 1), self.typed(self.types.get(index)?)?))
    }

    fn typed(&self, record: &bpfcanon_btf_type) -> Option<Type<'a>> {
        let (names, first) = (self.names, record.first as usize);
        let records = self.items.get(first..first + usize::from(record.items))?;
        record.typed(names.get(record.name, record.name_len), Items { records, names })
    }
}

/// The records of the types and of all items.
fn decode_records(file: &[u8]) -> Result<(Vec<bpfcanon_btf_type>, Vec<bpfcanon_btf_item>), Error> {
    let mut types: Vec<bpfcanon_btf_type> = Vec::new();
    let mut items: Vec<bpfcanon_btf_item> = Vec::new();
    // Every longer input has a fault.
    let len = file.len().min(MAX);
    types.try_reserve_exact(len / 12).map_err(|_| Error::OutOfMemory)?;
    items.try_reserve_exact(len / 8).map_err(|_| Error::OutOfMemory)?;
    // SAFETY: the slice and both buffers are valid for the call, and don't overlap.
    let answer = unsafe {
        sys::bpfcanon_btf_decode(
            file.as_ptr(),
            file.len(),
            types.as_mut_ptr(),
            types.capacity(),
            items.as_mut_ptr(),
            items.capacity(),
        )
    };
    let answer = call::done(answer)?;
    let (types_len, items_len) = (answer.types as usize, answer.written);
    assert!(types_len <= types.capacity() && items_len <= items.capacity());
    // SAFETY: the call has written so many types and items.
    unsafe {
        types.set_len(types_len);
        items.set_len(items_len);
    }
    types.shrink_to_fit();
    items.shrink_to_fit();
    Ok((types, items))
}

/// The number of types, since a kernel has a hundred thousand.
impl fmt::Debug for Btf<'_> {
    fn fmt(&self, f: &mut fmt::Formatter<'_>) -> fmt::Result {
        f.debug_struct("Btf").field("len", &self.len()).finish_non_exhaustive()
    }
}

impl<'b, 'a> IntoIterator for &'b Btf<'a> {
    type Item = (TypeId, Type<'a>);
    type IntoIter = Types<'b, 'a>;

    fn into_iter(self) -> Types<'b, 'a> {
        self.iter()
    }
}

/// The names of a decoded file.
#[derive(Clone, Copy)]
pub(super) struct Names<'a> {
    file: &'a [u8],
}

impl<'a> Names<'a> {
    /// The name at these offset and length of a record that was decoded from the file.
    pub(super) fn get(self, offset: u32, len: u32) -> &'a str {
        let name = &self.file[offset as usize..][..len as usize];
        debug_assert!(std::str::from_utf8(name).is_ok());
        // SAFETY: the library's contract says that the name of each record that it decodes is valid
        // UTF-8 in the file, and the caller passes those of such a record.
        unsafe { std::str::from_utf8_unchecked(name) }
    }
}

/// An iterator over the types of a [`Btf`], each with its ID, and without void.
#[derive(Clone)]
pub struct Types<'b, 'a> {
    btf: &'b Btf<'a>,
    indices: ops::Range<usize>,
}

impl<'a> Iterator for Types<'_, 'a> {
    type Item = (TypeId, Type<'a>);

    fn next(&mut self) -> Option<Self::Item> {
        self.indices.next().and_then(|it| self.btf.entry(it))
    }

    fn size_hint(&self) -> (usize, Option<usize>) {
        self.indices.size_hint()
    }

    fn nth(&mut self, count: usize) -> Option<Self::Item> {
        self.indices.nth(count).and_then(|it| self.btf.entry(it))
    }
}

impl DoubleEndedIterator for Types<'_, '_> {
    fn next_back(&mut self) -> Option<Self::Item> {
        self.indices.next_back().and_then(|it| self.btf.entry(it))
    }
}

impl ExactSizeIterator for Types<'_, '_> {}
impl iter::FusedIterator for Types<'_, '_> {}

impl fmt::Debug for Types<'_, '_> {
    fn fmt(&self, f: &mut fmt::Formatter<'_>) -> fmt::Result {
        f.debug_map().entries(self.clone()).finish()
    }
}
