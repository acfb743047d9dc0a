//! Typed values, where the vectors don't show it: lookups, iterators, resolved types and encoding.

mod rows;

use bpfcanon::btf::{Btf, ResolveError, Type, TypeId};
use bpfcanon::insn::{
    self, AluOp, AtomicOp, BranchOp, Insn, MovsxForm, Operand, Program, Reg, Size, SmallSize,
    SwapBits, SwapKind, WideOf, Width,
};
use bpfcanon::Order;
use rows::{file, load};
use std::sync::mpsc;
use std::thread;
use std::time::Duration;

/// The kinds of btf.rst section 2.2, as they are in bits 24 to 28 of the info word.
const INT: u32 = 1 << 24;
const STRUCT: u32 = 4 << 24;
const TYPEDEF: u32 = 8 << 24;
const VOLATILE: u32 = 9 << 24;
const CONST: u32 = 10 << 24;
const RESTRICT: u32 = 11 << 24;
const TYPE_TAG: u32 = 18 << 24;

const A: u32 = 1;
const BC: u32 = 3;

#[test]
fn resolve_follows_qualifiers_tags_and_typedefs() {
    #[rustfmt::skip]
    let file = file(&[
        BC, INT, 4, 32,
        A, TYPEDEF, 1,
        0, VOLATILE, 2,
        0, CONST, 3,
        0, RESTRICT, 4,
        BC, TYPE_TAG, 5,
        0, CONST, 0,
    ]);
    let btf = Btf::decode(&file).unwrap();
    assert_eq!(btf.len(), 7);
    let int = btf.get(TypeId(1)).unwrap();
    assert!(matches!(int, Type::Int { name: "bc", .. }));
    for id in [1, 2, 3, 4, 5, 6] {
        assert_eq!(btf.resolve(TypeId(id)), Ok((TypeId(1), int.clone())), "{id}");
    }
    assert_eq!(btf.resolve(TypeId(7)), Ok((TypeId::VOID, Type::Void)));
    assert_eq!(btf.resolve(TypeId::VOID), Ok((TypeId::VOID, Type::Void)));
    assert_eq!(btf.resolve(TypeId(8)), Err(ResolveError::NoSuchType(TypeId(8))));
    let most = TypeId(u32::MAX);
    assert_eq!(btf.resolve(most), Err(ResolveError::NoSuchType(most)));
}

/// Cycles of 1 to 9 types, with 0 to 9 types that lead to them.
fn resolve_cycles() {
    for (before, length) in (0..10).flat_map(|it| (1..10).map(move |length| (it, length))) {
        let last = before + length;
        let target = |id| if id == last { before + 1 } else { id + 1 };
        let words: Vec<_> = (1..=last).flat_map(|id| [0, CONST, target(id)]).collect();
        let file = file(&words);
        let btf = Btf::decode(&file).unwrap();
        for id in (1..=last).map(TypeId) {
            assert_eq!(btf.resolve(id), Err(ResolveError::Cycle(id)), "{before} {length}");
        }
    }
}

/// The test fails, and doesn't wait, if one of them is followed without end.
#[test]
fn resolve_ends_on_a_cycle() {
    let (ended, end) = mpsc::channel();
    thread::spawn(move || {
        resolve_cycles();
        ended.send(()).unwrap();
    });
    end.recv_timeout(Duration::from_secs(20)).unwrap();
    let error = ResolveError::Cycle(TypeId(3));
    assert_eq!(error.to_string(), "the chain of types from 3 is a cycle");
    assert_eq!(ResolveError::NoSuchType(TypeId(9)).to_string(), "there is no type 9");
}

#[test]
fn types_are_found_by_id_and_by_name() {
    let words = [[A, STRUCT, 0], [A, TYPEDEF, 1], [BC, TYPEDEF, 2], [0, CONST, 3]].concat();
    let file = file(&words);
    let btf = Btf::decode(&file).unwrap();
    let a = Type::Struct { name: "a", size: 0, members: vec![] };
    let typedef = Type::Typedef { name: "a", target: TypeId(1) };
    let found: Vec<_> = btf.by_name("a").collect();
    assert_eq!(found, [(TypeId(1), a.clone()), (TypeId(2), typedef)]);
    assert_eq!(btf.by_name("c").count(), 0);
    assert_eq!(btf.by_name("").map(|(id, _)| id.0).collect::<Vec<_>>(), [4]);
    assert_eq!([0, 1, 3, 4].map(|id| btf.name(TypeId(id))), ["", "a", "bc", ""].map(Some));
    assert_eq!(btf.get(TypeId(1)), Some(a));
    assert_eq!(btf.get(TypeId::VOID), Some(Type::Void));
    for id in [5, u32::MAX].map(TypeId) {
        assert_eq!((btf.get(id), btf.name(id)), (None, None));
    }
}

#[test]
fn names_live_as_long_as_the_file() {
    let file = file(&[A, STRUCT, 0]);
    let name = Btf::decode(&file).unwrap().name(TypeId(1)).unwrap();
    let types: Vec<_> = Btf::decode(&file).unwrap().iter().collect();
    assert_eq!((name, types[0].1.name()), ("a", "a"));
    assert!(file.as_ptr_range().contains(&name.as_ptr()));
}

/// What an iterator returns is the same from each end, by `nth`, and as long as it says.
fn is_exact<I>(mut iter: I)
where
    I: DoubleEndedIterator + ExactSizeIterator + Clone,
    I::Item: PartialEq + std::fmt::Debug,
{
    let all: Vec<_> = iter.clone().collect();
    let mut reversed: Vec<_> = iter.clone().rev().collect();
    reversed.reverse();
    assert_eq!(all, reversed);
    for (at, it) in all.iter().enumerate() {
        let mut rest = iter.clone();
        assert_eq!(rest.nth(at).as_ref(), Some(it));
        assert_eq!(rest.len(), all.len() - at - 1);
    }
    assert_eq!((iter.len(), iter.nth(all.len())), (all.len(), None));
}

#[test]
fn iterators_know_their_length() {
    let (file, bytes) = (load("flow_table.big.btf"), load("packet_filter.big.bin"));
    let btf = Btf::decode(&file).unwrap();
    is_exact(btf.iter());
    for (id, it) in &btf {
        assert_eq!(btf.get(id), Some(it));
    }
    let program = Program::decode(Order::Big, &bytes).unwrap();
    is_exact(program.iter());
    for (index, (offset, insn)) in program.iter().enumerate() {
        assert_eq!(program.get(index), Some(insn));
        assert_eq!(program.offset(index), Some(offset));
        assert_eq!(program.index_at(offset), Some(index));
        assert_eq!(program.index_at(offset + 1), None);
    }
    let len = program.len();
    assert_eq!((program.get(len), program.offset(len), program.group(len)), (None, None, None));
    assert_eq!(program.bytes(len), None);
    let encodings: Vec<_> = (0..len).flat_map(|it| program.bytes(it).unwrap()).copied().collect();
    assert_eq!(encodings, bytes);
    assert_eq!(insn::encode(Order::Big, program.iter().map(|(_, it)| it)), Ok(bytes));
}

/// A line of a listing with its instruction: each form, and each kind of a wide load.
#[rustfmt::skip]
fn shown() -> Vec<(&'static str, Insn)> {
    let r = |number| Reg::new(number).unwrap();
    let movsx = |form| Insn::Movsx { form, dst: r(1), src: r(2) };
    let swap = |kind, bits| Insn::Swap { kind, bits, dst: r(4) };
    let wide = |what| Insn::Wide { dst: r(1), what };
    vec![
        ("sub32 r3, -4", Insn::Alu { width: Width::W32, op: AluOp::Sub, dst: r(3), arg: Operand::Imm(-4) }),
        ("mov r1, r2", Insn::Alu { width: Width::W64, op: AluOp::Mov, dst: r(1), arg: Operand::Reg(r(2)) }),
        ("movsx8_32 r1, r2", movsx(MovsxForm::W32From8)),
        ("movsx16_32 r1, r2", movsx(MovsxForm::W32From16)),
        ("movsx8 r1, r2", movsx(MovsxForm::W64From8)),
        ("movsx16 r1, r2", movsx(MovsxForm::W64From16)),
        ("movsx32 r1, r2", movsx(MovsxForm::W64From32)),
        ("neg32 r3", Insn::Neg { width: Width::W32, dst: r(3) }),
        ("le16 r4", swap(SwapKind::Le, SwapBits::B16)),
        ("be32 r4", swap(SwapKind::Be, SwapBits::B32)),
        ("swap64 r4", swap(SwapKind::Bytes, SwapBits::B64)),
        ("ja +5", Insn::Jump { off: 5 }),
        ("ja32 -6", Insn::JumpLong { imm: -6 }),
        ("jsgt r3, r4, -7", Insn::Branch { width: Width::W64, op: BranchOp::Sgt, dst: r(3), arg: Operand::Reg(r(4)), off: -7 }),
        ("jeq32 r3, -2, +5", Insn::Branch { width: Width::W32, op: BranchOp::Eq, dst: r(3), arg: Operand::Imm(-2), off: 5 }),
        ("call 8", Insn::CallHelper { id: 8 }),
        ("call_local -9", Insn::CallLocal { imm: -9 }),
        ("call_btf 10, 11", Insn::CallBtf { id: 10, off: 11 }),
        ("exit", Insn::Exit),
        ("ldxb r5, [r6+7]", Insn::Load { size: Size::B, dst: r(5), src: r(6), off: 7 }),
        ("ldxsh r5, [r6-7]", Insn::LoadSigned { size: SmallSize::H, dst: r(5), src: r(6), off: -7 }),
        ("stw [r7+8], -9", Insn::StoreImm { size: Size::W, dst: r(7), off: 8, imm: -9 }),
        ("stxdw [r10-8], r1", Insn::StoreReg { size: Size::D, dst: r(10), src: r(1), off: -8 }),
        ("cmpxchg [r1-8], r2", Insn::Atomic { width: Width::W64, op: AtomicOp::Cmpxchg, dst: r(1), src: r(2), off: -8 }),
        ("lddw r1, 1234605616436508552", wide(WideOf::Number(0x1122_3344_5566_7788))),
        ("lddw_map r1, 2", wide(WideOf::MapFd(2))),
        ("lddw_map_value r1, 2, 3", wide(WideOf::MapValueFd(2, 3))),
        ("lddw_var r1, 4, 5", wide(WideOf::VarAddr(4, 5))),
        ("lddw_code r1, 6", wide(WideOf::CodeAddr(6))),
        ("lddw_idx r1, 7", wide(WideOf::MapIdx(7))),
        ("lddw_idx_value r1, 8, 9", wide(WideOf::MapValueIdx(8, 9))),
        ("ldabsw 10", Insn::PacketAbs { size: SmallSize::W, imm: 10 }),
        ("ldindb r1, 11", Insn::PacketInd { size: SmallSize::B, src: r(1), imm: 11 }),
    ]
}

#[test]
fn instructions_are_those_of_the_listing() {
    for (line, want) in shown() {
        let bytes = insn::read(Order::Big, line).unwrap();
        assert_eq!(insn::encode(Order::Big, [want]).as_ref(), Ok(&bytes), "{line}");
        assert_eq!(Program::decode(Order::Big, &bytes).unwrap().get(0), Some(want), "{line}");
    }
}

#[test]
fn empty_inputs_have_no_values() {
    let program = Program::decode(Order::Big, &[]).unwrap();
    assert_eq!((program.is_empty(), program.len(), program.iter().next()), (true, 0, None));
    assert_eq!(insn::encode::<[Insn; 0]>(Order::Big, []), Ok(Vec::new()));
    let file = file(&[]);
    let btf = Btf::decode(&file).unwrap();
    assert_eq!((btf.is_empty(), btf.len(), btf.iter().next()), (true, 0, None));
    assert_eq!(btf.get(TypeId::VOID), Some(Type::Void));
    assert_eq!(Btf::decode(&[]).unwrap_err().fault().unwrap().offset(), 0);
}

#[test]
fn values_print_themselves() {
    let file = file(&[A, STRUCT, 0]);
    let btf = Btf::decode(&file).unwrap();
    assert_eq!(format!("{btf:?}"), "Btf { len: 1, .. }");
    let types = r#"{TypeId(1): Struct { name: "a", size: 0, members: [] }}"#;
    assert_eq!(format!("{:?}", btf.iter()), types);
    let bytes = [0x95, 0, 0, 0, 0, 0, 0, 0];
    let program = Program::decode(Order::Little, &bytes).unwrap();
    assert_eq!(format!("{program:?} {:?}", program.iter()), "{0: Exit} {0: Exit}");
}

#[test]
fn threads_may_read_the_same_values() {
    fn is_thread_safe<T: Send + Sync>() {}
    is_thread_safe::<Btf<'_>>();
    is_thread_safe::<Program<'_>>();
    is_thread_safe::<insn::Error>();
    is_thread_safe::<insn::InsnWriter<Vec<u8>>>();
}
