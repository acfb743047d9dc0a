//! Types as values.

use super::items::Items;
use super::{Entry, EnumValue, Member, Param};
use crate::records::{numbered, Field};
use crate::sys::*;
use std::fmt;

/// The ID of a type: 0 is void, and the types of a file count from 1 (btf.rst section 2.2).
#[derive(Clone, Copy, Debug, Default, PartialEq, Eq, PartialOrd, Ord, Hash)]
pub struct TypeId(pub u32);

impl TypeId {
    /// The ID of void, which has no record.
    pub const VOID: TypeId = TypeId(0);
}

/// The number.
impl fmt::Display for TypeId {
    fn fmt(&self, f: &mut fmt::Formatter<'_>) -> fmt::Result {
        self.0.fmt(f)
    }
}

numbered! {
    /// The encoding of an INT (btf.rst section 2.2.1).
    Encoding {
        /// No encoding bit: unsigned.
        Plain = BPFCANON_BTF_ENCODING_PLAIN,
        /// BTF_INT_SIGNED.
        Signed = BPFCANON_BTF_ENCODING_SIGNED,
        /// BTF_INT_CHAR: a character.
        Char = BPFCANON_BTF_ENCODING_CHAR,
        /// BTF_INT_BOOL: a boolean.
        Bool = BPFCANON_BTF_ENCODING_BOOL,
    }
}

numbered! {
    /// The linkage of a function or a variable (btf.rst sections 2.2.12 and 2.2.14).
    Linkage {
        /// Static.
        Static = BPFCANON_BTF_LINKAGE_STATIC,
        /// Global.
        Global = BPFCANON_BTF_LINKAGE_GLOBAL,
        /// Extern.
        Extern = BPFCANON_BTF_LINKAGE_EXTERN,
    }
}

/// A type with its members, values, parameters or entries.
///
/// A `name` is empty if the type has none. A `size` is in bytes. A `target` is the ID of a type of
/// the same file, or void.
#[derive(Clone, Debug, PartialEq, Eq, Hash)]
// The sentence of a variant describes its fields.
#[allow(missing_docs)]
#[rustfmt::skip]
pub enum Type<'a> {
    /// Void, which has the ID 0 in every file.
    Void,
    /// An integer (btf.rst section 2.2.1): `bits` is its number of bits, and `bit_offset` that of
    /// the bits before them.
    Int { name: &'a str, size: u32, encoding: Encoding, bit_offset: u8, bits: u8 },
    /// A pointer to `target` (btf.rst section 2.2.2).
    Ptr { target: TypeId },
    /// An array of `count` elements of type `target`; `index` is the ID of the index type (btf.rst
    /// section 2.2.3).
    Array { target: TypeId, index: TypeId, count: u32 },
    /// A struct (btf.rst section 2.2.4).
    Struct { name: &'a str, size: u32, members: Vec<Member<'a>> },
    /// A union (btf.rst section 2.2.5).
    Union { name: &'a str, size: u32, members: Vec<Member<'a>> },
    /// An enum of 32-bit values (btf.rst section 2.2.6). `signed` is its kind_flag.
    Enum { name: &'a str, signed: bool, size: u32, values: Vec<EnumValue<'a>> },
    /// A forward declaration of a union or a struct (btf.rst section 2.2.7).
    Fwd { name: &'a str, is_union: bool },
    /// A typedef of `target` (btf.rst section 2.2.8).
    Typedef { name: &'a str, target: TypeId },
    /// A volatile `target` (btf.rst section 2.2.9).
    Volatile { target: TypeId },
    /// A const `target` (btf.rst section 2.2.10).
    Const { target: TypeId },
    /// A restrict `target` (btf.rst section 2.2.11).
    Restrict { target: TypeId },
    /// A function; `target` is its prototype (btf.rst section 2.2.12).
    Func { name: &'a str, linkage: Linkage, target: TypeId },
    /// A function prototype, which returns `target` (btf.rst section 2.2.13).
    FuncProto { target: TypeId, params: Vec<Param<'a>> },
    /// A variable of type `target` (btf.rst section 2.2.14).
    Var { name: &'a str, target: TypeId, linkage: Linkage },
    /// A data section (btf.rst section 2.2.15).
    Datasec { name: &'a str, size: u32, entries: Vec<Entry> },
    /// A floating-point number (btf.rst section 2.2.16).
    Float { name: &'a str, size: u32 },
    /// A declaration tag (btf.rst section 2.2.17). It tags the member or parameter of `target` with
    /// the index `component`, counted from 0, or the complete `target` if that is `None`. `flag` is
    /// its kind_flag.
    DeclTag { name: &'a str, flag: bool, target: TypeId, component: Option<u16> },
    /// A type tag of `target` (btf.rst section 2.2.18). `flag` is its kind_flag.
    TypeTag { name: &'a str, flag: bool, target: TypeId },
    /// An enum of 64-bit values (btf.rst section 2.2.19). `signed` is its kind_flag.
    Enum64 { name: &'a str, signed: bool, size: u32, values: Vec<EnumValue<'a>> },
}

impl<'a> Type<'a> {
    /// Returns the name of the type; empty if it has none.
    pub fn name(&self) -> &'a str {
        match self {
            Type::Int { name, .. }
            | Type::Struct { name, .. }
            | Type::Union { name, .. }
            | Type::Enum { name, .. }
            | Type::Fwd { name, .. }
            | Type::Typedef { name, .. }
            | Type::Func { name, .. }
            | Type::Var { name, .. }
            | Type::Datasec { name, .. }
            | Type::Float { name, .. }
            | Type::DeclTag { name, .. }
            | Type::TypeTag { name, .. }
            | Type::Enum64 { name, .. } => name,
            _ => "",
        }
    }
}

impl Type<'_> {
    /// The record, without a name and items.
    #[rustfmt::skip]
    pub(super) fn record(&self) -> bpfcanon_btf_type {
        let new = |kind: bpfcanon_btf_kind| bpfcanon_btf_type { kind: kind as u8, ..Default::default() };
        let sized = |kind, size| bpfcanon_btf_type { size, ..new(kind) };
        let to = |kind, target: TypeId| bpfcanon_btf_type { target: target.0, ..new(kind) };
        match *self {
            Type::Void => new(0),
            Type::Int { size, encoding, bit_offset, bits, .. } => {
                bpfcanon_btf_type { encoding: encoding as u8, bit_offset, bits, ..sized(BPFCANON_BTF_KIND_INT, size) }
            }
            Type::Ptr { target } => to(BPFCANON_BTF_KIND_PTR, target),
            Type::Array { target, index, count } => {
                bpfcanon_btf_type { index_type: index.0, elements: count, ..to(BPFCANON_BTF_KIND_ARRAY, target) }
            }
            Type::Struct { size, .. } => sized(BPFCANON_BTF_KIND_STRUCT, size),
            Type::Union { size, .. } => sized(BPFCANON_BTF_KIND_UNION, size),
            Type::Enum { signed, size, .. } => bpfcanon_btf_type { flag: signed.into(), ..sized(BPFCANON_BTF_KIND_ENUM, size) },
            Type::Fwd { is_union, .. } => bpfcanon_btf_type { flag: is_union.into(), ..new(BPFCANON_BTF_KIND_FWD) },
            Type::Typedef { target, .. } => to(BPFCANON_BTF_KIND_TYPEDEF, target),
            Type::Volatile { target } => to(BPFCANON_BTF_KIND_VOLATILE, target),
            Type::Const { target } => to(BPFCANON_BTF_KIND_CONST, target),
            Type::Restrict { target } => to(BPFCANON_BTF_KIND_RESTRICT, target),
            Type::Func { linkage, target, .. } => bpfcanon_btf_type { linkage: linkage as u8, ..to(BPFCANON_BTF_KIND_FUNC, target) },
            Type::FuncProto { target, .. } => to(BPFCANON_BTF_KIND_FUNC_PROTO, target),
            Type::Var { target, linkage, .. } => bpfcanon_btf_type { linkage: linkage as u8, ..to(BPFCANON_BTF_KIND_VAR, target) },
            Type::Datasec { size, .. } => sized(BPFCANON_BTF_KIND_DATASEC, size),
            Type::Float { size, .. } => sized(BPFCANON_BTF_KIND_FLOAT, size),
            Type::DeclTag { flag, target, component, .. } => {
                let component = component.map_or(-1, i32::from);
                bpfcanon_btf_type { flag: flag.into(), component, ..to(BPFCANON_BTF_KIND_DECL_TAG, target) }
            }
            Type::TypeTag { flag, target, .. } => bpfcanon_btf_type { flag: flag.into(), ..to(BPFCANON_BTF_KIND_TYPE_TAG, target) },
            Type::Enum64 { signed, size, .. } => bpfcanon_btf_type { flag: signed.into(), ..sized(BPFCANON_BTF_KIND_ENUM64, size) },
        }
    }
}

impl bpfcanon_btf_type {
    /// Whether the crate has the kind, the encoding and the linkage of the type.
    pub(crate) fn is_known(&self) -> bool {
        (BPFCANON_BTF_KIND_INT..=BPFCANON_BTF_KIND_ENUM64).contains(&self.kind.into())
            && Encoding::of(self.encoding).is_some()
            && Linkage::of(self.linkage).is_some()
    }

    /// The type of a record with its name and its items; none if it isn't known.
    #[rustfmt::skip]
    pub(super) fn typed<'a>(&self, name: &'a str, items: Items<'_, 'a>) -> Option<Type<'a>> {
        let (size, target, flag) = (self.size, TypeId(self.target), self.flag == 1);
        let encoding = || Encoding::of(self.encoding);
        let linkage = || Linkage::of(self.linkage);
        Some(match u32::from(self.kind) {
            BPFCANON_BTF_KIND_INT => Type::Int { name, size, encoding: encoding()?, bit_offset: self.bit_offset, bits: self.bits },
            BPFCANON_BTF_KIND_PTR => Type::Ptr { target },
            BPFCANON_BTF_KIND_ARRAY => Type::Array { target, index: TypeId(self.index_type), count: self.elements },
            BPFCANON_BTF_KIND_STRUCT => Type::Struct { name, size, members: items.members() },
            BPFCANON_BTF_KIND_UNION => Type::Union { name, size, members: items.members() },
            BPFCANON_BTF_KIND_ENUM => Type::Enum { name, signed: flag, size, values: items.values(flag) },
            BPFCANON_BTF_KIND_FWD => Type::Fwd { name, is_union: flag },
            BPFCANON_BTF_KIND_TYPEDEF => Type::Typedef { name, target },
            BPFCANON_BTF_KIND_VOLATILE => Type::Volatile { target },
            BPFCANON_BTF_KIND_CONST => Type::Const { target },
            BPFCANON_BTF_KIND_RESTRICT => Type::Restrict { target },
            BPFCANON_BTF_KIND_FUNC => Type::Func { name, linkage: linkage()?, target },
            BPFCANON_BTF_KIND_FUNC_PROTO => Type::FuncProto { target, params: items.params() },
            BPFCANON_BTF_KIND_VAR => Type::Var { name, target, linkage: linkage()? },
            BPFCANON_BTF_KIND_DATASEC => Type::Datasec { name, size, entries: items.entries() },
            BPFCANON_BTF_KIND_FLOAT => Type::Float { name, size },
            BPFCANON_BTF_KIND_DECL_TAG => Type::DeclTag { name, flag, target, component: u16::try_from(self.component).ok() },
            BPFCANON_BTF_KIND_TYPE_TAG => Type::TypeTag { name, flag, target },
            BPFCANON_BTF_KIND_ENUM64 => Type::Enum64 { name, signed: flag, size, values: items.values(flag) },
            _ => return None,
        })
    }
}
