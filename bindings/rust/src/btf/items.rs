//! Members, values, parameters and entries.

use super::file::Names;
use super::TypeId;
use crate::sys::*;

/// A member of a struct or union (btf.rst section 2.2.4).
#[derive(Clone, Copy, Debug, PartialEq, Eq, Hash)]
pub struct Member<'a> {
    /// Its name; empty if it has none.
    pub name: &'a str,
    /// The ID of its type.
    pub target: TypeId,
    /// Its offset in bits from the start of the struct or union.
    pub bit_offset: u32,
    /// The number of bits of a bit-field, and 0 for other members.
    pub width: u8,
}

/// A value of an enum (btf.rst sections 2.2.6 and 2.2.19).
#[derive(Clone, Copy, Debug, PartialEq, Eq, Hash)]
pub struct EnumValue<'a> {
    /// Its name.
    pub name: &'a str,
    /// The number, sign-extended if the enum is signed: it is then `value as i64`.
    pub value: u64,
}

/// A parameter of a function prototype (btf.rst section 2.2.13). The last one stands for `...` if it
/// has no name and the type void.
#[derive(Clone, Copy, Debug, PartialEq, Eq, Hash)]
pub struct Param<'a> {
    /// Its name; empty if it has none.
    pub name: &'a str,
    /// The ID of its type.
    pub target: TypeId,
}

/// A variable or function in a data section (btf.rst section 2.2.15).
#[derive(Clone, Copy, Debug, PartialEq, Eq, Hash)]
pub struct Entry {
    /// The ID of a VAR or FUNC.
    pub target: TypeId,
    /// Its offset in bytes from the start of the section.
    pub offset: u32,
    /// Its size in bytes.
    pub size: u32,
}

impl bpfcanon_btf_item {
    /// Whether the crate has the kind of the item.
    pub(crate) fn is_known(&self) -> bool {
        (BPFCANON_BTF_ITEM_KIND_MEMBER..=BPFCANON_BTF_ITEM_KIND_ENTRY).contains(&self.kind)
    }
}

/// The records of the items of a type, and their names.
#[derive(Clone, Copy)]
pub(super) struct Items<'b, 'a> {
    pub(super) records: &'b [bpfcanon_btf_item],
    pub(super) names: Names<'a>,
}

impl<'a> Items<'_, 'a> {
    /// The value of each record, with its name.
    fn map<T>(self, value: impl Fn(&bpfcanon_btf_item, &'a str) -> T) -> Vec<T> {
        self.records.iter().map(|it| value(it, self.names.get(it.name, it.name_len))).collect()
    }

    pub(super) fn members(self) -> Vec<Member<'a>> {
        self.map(|it, name| Member {
            name,
            target: TypeId(it.target),
            bit_offset: it.bit_offset,
            width: it.width as u8,
        })
    }

    pub(super) fn values(self, signed: bool) -> Vec<EnumValue<'a>> {
        self.map(|it, name| match it.kind {
            BPFCANON_BTF_ITEM_KIND_ENUM_VALUE if signed => {
                EnumValue { name, value: it.value as i32 as u64 }
            }
            _ => EnumValue { name, value: it.value },
        })
    }

    pub(super) fn params(self) -> Vec<Param<'a>> {
        self.map(|it, name| Param { name, target: TypeId(it.target) })
    }

    pub(super) fn entries(self) -> Vec<Entry> {
        self.map(|it, _| Entry { target: TypeId(it.target), offset: it.offset, size: it.size })
    }
}
