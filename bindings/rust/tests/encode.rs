//! Types that are encoded, by hand from btf.rst, and types that are refused, with their index and
//! cause.

mod rows;

use bpfcanon::btf::{
    self, Btf, Cause, EncodeError, Encoding, Entry, EnumValue, Linkage, Member, Param, Type, TypeId,
};
use rows::{file, load, ORDERS};

/// The info word of a kind of btf.rst section 2.2, with a vlen and a kind_flag.
const fn info(kind: u32, vlen: u32, flag: u32) -> u32 {
    flag << 31 | kind << 24 | vlen
}

const fn member(name: &str, target: u32, bit_offset: u32, width: u8) -> Member<'_> {
    Member { name, target: TypeId(target), bit_offset, width }
}

/// A struct without a name.
fn record(size: u32, members: &[Member<'static>]) -> Type<'static> {
    Type::Struct { name: "", size, members: members.to_vec() }
}

/// A type that refers to another.
const fn ptr(target: u32) -> Type<'static> {
    Type::Ptr { target: TypeId(target) }
}

/// A type of each kind, with its words by btf.rst section 2.2.
#[rustfmt::skip]
fn written() -> Vec<(Type<'static>, Vec<u32>)> {
    let id = TypeId;
    let values = |name, value: i64| vec![EnumValue { name, value: value as u64 }];
    let param = |name, target| Param { name, target: TypeId(target) };
    let entry = Entry { target: id(16), offset: 4, size: 5 };
    vec![
        (Type::Int { name: "a", size: 4, encoding: Encoding::Bool, bit_offset: 2, bits: 7 }, vec![1, info(1, 0, 0), 4, 0x0402_0007]),
        (Type::Struct { name: "bc", size: 8, members: vec![member("a", 4, 5, 3), member("", 5, 32, 0)] },
            vec![3, info(4, 2, 1), 8, 1, 4, 0x0300_0005, 0, 5, 32]),
        (Type::FuncProto { target: id(1), params: vec![param("bc", 1), param("", 0)] }, vec![0, info(13, 2, 0), 1, 3, 1, 0, 0]),
        (Type::Enum { name: "", signed: true, size: 4, values: values("a", -2) }, vec![0, info(6, 1, 1), 4, 1, 0xffff_fffe]),
        (Type::Enum { name: "a", signed: false, size: 4, values: values("bc", 0xffff_fffe) }, vec![1, info(6, 1, 0), 4, 3, 0xffff_fffe]),
        (ptr(24), vec![0, info(2, 0, 0), 24]),
        (Type::Array { target: id(1), index: id(4), count: 9 }, vec![0, info(3, 0, 0), 0, 1, 4, 9]),
        (Type::Union { name: "", size: 1 << 29, members: vec![member("a", 1, 0xff00_0000, 0)] },
            vec![0, info(5, 1, 0), 1 << 29, 1, 1, 0xff00_0000]),
        (Type::Fwd { name: "bc", is_union: true }, vec![3, info(7, 0, 1), 0]),
        (Type::Fwd { name: "bc", is_union: false }, vec![3, info(7, 0, 0), 0]),
        (Type::Typedef { name: "a", target: id(1) }, vec![1, info(8, 0, 0), 1]),
        (Type::Volatile { target: id(2) }, vec![0, info(9, 0, 0), 2]),
        (Type::Const { target: id(0) }, vec![0, info(10, 0, 0), 0]),
        (Type::Restrict { target: id(6) }, vec![0, info(11, 0, 0), 6]),
        (Type::Func { name: "a", linkage: Linkage::Extern, target: id(3) }, vec![1, info(12, 2, 0), 3]),
        (Type::Var { name: "bc", target: id(1), linkage: Linkage::Global }, vec![3, info(14, 0, 0), 1, 1]),
        (Type::Datasec { name: "a", size: 9, entries: vec![entry] }, vec![1, info(15, 1, 0), 9, 16, 4, 5]),
        (Type::Float { name: "a", size: 8 }, vec![1, info(16, 0, 0), 8]),
        (Type::DeclTag { name: "bc", flag: false, target: id(2), component: Some(1) }, vec![3, info(17, 0, 0), 2, 1]),
        (Type::DeclTag { name: "a", flag: true, target: id(15), component: None }, vec![1, info(17, 0, 1), 15, u32::MAX]),
        (Type::TypeTag { name: "a", flag: false, target: id(1) }, vec![1, info(18, 0, 0), 1]),
        (Type::TypeTag { name: "a", flag: true, target: id(1) }, vec![1, info(18, 0, 1), 1]),
        (Type::Enum64 { name: "a", signed: true, size: 8, values: values("bc", i64::MIN + 2) },
            vec![1, info(19, 1, 1), 8, 3, 2, 0x8000_0000]),
        (Type::Enum64 { name: "a", signed: false, size: 8, values: values("bc", i64::MIN + 2) },
            vec![1, info(19, 1, 0), 8, 3, 2, 0x8000_0000]),
        (Type::Int { name: "bc", size: 1, encoding: Encoding::Plain, bit_offset: 0, bits: 8 }, vec![3, info(1, 0, 0), 1, 8]),
        (Type::Int { name: "bc", size: 1, encoding: Encoding::Signed, bit_offset: 0, bits: 8 }, vec![3, info(1, 0, 0), 1, 0x0100_0008]),
        (Type::Int { name: "bc", size: 1, encoding: Encoding::Char, bit_offset: 0, bits: 8 }, vec![3, info(1, 0, 0), 1, 0x0200_0008]),
        (Type::Func { name: "a", linkage: Linkage::Static, target: id(3) }, vec![1, info(12, 0, 0), 3]),
    ]
}

/// The types of a file, encoded again.
fn again(to: bpfcanon::Order, file: &[u8]) -> Result<Vec<u8>, EncodeError> {
    let btf = Btf::decode(file).unwrap();
    btf::encode(to, btf.iter().map(|(_, it)| it))
}

#[test]
fn a_type_of_each_kind_is_encoded() {
    let (types, words): (Vec<_>, Vec<_>) = written().into_iter().unzip();
    for to in ORDERS {
        let want = btf::canon(to, &file(&words.concat())).unwrap();
        assert_eq!(btf::encode(to, &types).as_ref(), Ok(&want));
        assert_eq!(again(to, &want), Ok(want));
    }
    let file = file(&words.concat());
    let decoded: Vec<_> = Btf::decode(&file).unwrap().iter().map(|(_, it)| it).collect();
    assert_eq!(decoded, types);
}

/// And the types of the running kernel, if it has any.
#[test]
fn compiled_files_are_encoded() {
    let files = ["little", "big"].map(|name| load(&format!("flow_table.{name}.btf")));
    for file in files.into_iter().chain(std::fs::read("/sys/kernel/btf/vmlinux")) {
        for to in ORDERS {
            assert!(again(to, &file).unwrap() == btf::canon(to, &file).unwrap());
        }
    }
}

/// The index and cause of the type that is refused.
fn refused(types: &[Type<'_>]) -> (usize, Option<Cause>) {
    match btf::encode(bpfcanon::Order::Little, types) {
        Err(EncodeError::Type { index, cause }) => (index, cause),
        other => panic!("{other:?}"),
    }
}

/// Types that are refused, with their cause. The others are structs without members.
fn bad() -> Vec<(Type<'static>, Option<Cause>)> {
    let id = TypeId;
    let of_members = |members: &[_]| record(1 << 29, members);
    let values = |value| vec![EnumValue { name: "a", value }];
    let unsigned = |value| Type::Enum { name: "", signed: false, size: 4, values: values(value) };
    let signed =
        |value: i64| Type::Enum { name: "", signed: true, size: 4, values: values(value as u64) };
    let typedef = |name| Type::Typedef { name, target: TypeId(0) };
    let tag = |component| Type::DeclTag { name: "a", flag: false, target: id(1), component };
    vec![
        (Type::Void, Some(Cause::KindNumber)),
        (typedef("a\0"), None),
        (of_members(&[member("\0", 0, 0, 0)]), None),
        (of_members(&[member("", 0, 0, 1), member("", 0, 1 << 24, 0)]), None),
        (of_members(&vec![member("", 0, 0, 0); 1 << 16]), None),
        (unsigned(u64::MAX), None),
        (unsigned(1 << 32), None),
        (signed(1 << 31), None),
        (signed(-(1 << 31) - 1), None),
        (of_members(&[member("", 0, 0, 0), member("", 9, 0, 0)]), Some(Cause::Reference)),
        (typedef(""), Some(Cause::NameMissing)),
        (tag(Some(u16::MAX)), Some(Cause::Component)),
    ]
}

#[test]
fn the_type_that_is_refused_is_named() {
    for (it, cause) in bad() {
        for before in 1..4 {
            let mut types = vec![Type::Struct { name: "a", size: 0, members: vec![] }; before + 2];
            types[before] = it.clone();
            assert_eq!(refused(&types), (before, cause), "{it:?}");
        }
    }
}

/// A type that has no record comes before all others.
#[test]
fn the_first_that_is_refused_is_named() {
    let many = vec![Param { name: "", target: TypeId(0) }; 1 << 16];
    let no_record = Type::FuncProto { target: TypeId(0), params: many };
    let func = Type::Func { name: "f", linkage: Linkage::Static, target: TypeId(2) };
    let wide = vec![EnumValue { name: "a", value: 1 << 32 }];
    let wide = Type::Enum { name: "", signed: false, size: 4, values: wide };
    assert_eq!(refused(&[Type::Void, ptr(9), no_record.clone()]), (2, None));
    assert_eq!(refused(&[func, no_record]), (1, None));
    assert_eq!(refused(&[wide, ptr(9)]), (1, Some(Cause::Reference)));
}

#[test]
fn errors_name_the_type() {
    let error = |cause| EncodeError::Type { index: 3, cause }.to_string();
    let sentence = "the type with index 3: the type ID is over the number of types";
    assert_eq!(error(Some(Cause::Reference)), sentence);
    assert_eq!(error(None), "the type with index 3 has no encoding");
    assert_eq!(EncodeError::Library(btf::Error::OutOfMemory).to_string(), "out of memory");
}
