//! Values that are decoded from the rows of testdata/vectors.tsv, and a sample of each call. The tests
//! from C have each row by each call on bytes.

mod rows;

use bpfcanon::btf::Btf;
use bpfcanon::insn::Program;
use bpfcanon::{btf, insn, Error, Fault, Order};
use rows::{data, file, load, rows, ORDERS};
use std::fmt::Debug;

/// A fault: whether it is in the second of two inputs, its place, and its cause.
fn fault_at<T: Debug, C: Copy + Debug>(
    result: Result<T, Error<C>>,
    place: impl Fn(&Fault<C>) -> u64,
) -> (bool, u64, C) {
    match result {
        Err(Error::Fault(fault)) => (fault.is_in_second(), place(&fault), fault.cause()),
        other => panic!("no fault, but {other:?}"),
    }
}

/// Each instruction is decoded from each byte order and encoded in each.
#[test]
fn instructions_of_vectors() {
    for row in rows("insn") {
        let (line, programs) = (&row[0], [data(&row[1]), data(&row[2])]);
        for (from, program) in ORDERS.into_iter().zip(&programs) {
            let decoded = Program::decode(from, program).unwrap();
            assert_eq!((decoded.offset(0), decoded.bytes(0)), (Some(0), Some(&program[..])));
            assert_eq!((decoded.group(0).unwrap().to_string(), decoded.len()), (row[3].clone(), 1));
            let insn = decoded.get(0).unwrap();
            // The name of its operation is in the mnemonic.
            let shown = format!("{insn:?}").to_lowercase();
            let op = shown.split("op: ").nth(1).and_then(|it| it.split([',', ' ']).next());
            assert!(line.replace('_', "").contains(op.unwrap_or("")), "{line} is {shown}");
            for (to, written) in ORDERS.into_iter().zip(&programs) {
                assert_eq!(insn::encode(to, [insn]).as_ref(), Ok(written), "{line}");
            }
        }
    }
}

#[test]
fn calls_on_instructions() {
    let programs = ["little", "big"].map(|order| load(&format!("packet_filter.{order}.bin")));
    let listing = insn::show(Order::Little, &programs[0]).unwrap();
    for (from, program) in ORDERS.into_iter().zip(&programs) {
        for (to, written) in ORDERS.into_iter().zip(&programs) {
            assert_eq!(insn::canon(from, to, program).as_ref(), Ok(written));
            assert_eq!(insn::same(from, program, to, written), Ok(true));
        }
        assert_eq!(insn::same(from, program, from, &[]), Ok(false));
        assert_eq!(insn::show(from, program).as_ref(), Ok(&listing));
        assert_eq!(insn::read(from, &listing).as_ref(), Ok(program));
        assert_eq!(
            insn::groups(from, program).unwrap().to_string(),
            "base32 base64 atomic32 atomic64 divmul32"
        );
    }
}

/// A register beside an immediate, after an instruction. The tests of the package for Python have all
/// faults of the vectors.
#[test]
fn faulty_instructions() {
    fn fault<T: Debug>(result: Result<T, insn::Error>) -> (bool, u64, insn::Cause) {
        fault_at(result, Fault::offset)
    }
    let exit = [0x95, 0, 0, 0, 0, 0, 0, 0];
    let (first, second) = ((false, 9, insn::Cause::Src), (true, 9, insn::Cause::Src));
    let faulty = [[0x04, 0x10, 0, 0, 5, 0, 0, 0], [0x04, 0x01, 0, 0, 0, 0, 0, 5]];
    for (order, faulty) in ORDERS.into_iter().zip(faulty) {
        let program = [exit, faulty].concat();
        assert_eq!(fault(insn::canon(order, Order::Little, &program)), first);
        assert_eq!(fault(insn::show(order, &program)), first);
        assert_eq!(fault(insn::groups(order, &program)), first);
        assert_eq!(fault(Program::decode(order, &program)), first);
        assert_eq!(fault(insn::same(order, &program, order, &[])), first);
        assert_eq!(fault(insn::same(order, &[], order, &program)), second);
    }
}

#[test]
fn faulty_listings() {
    let read = insn::read(Order::Big, "exit\nleave\n");
    assert_eq!(fault_at(read, Fault::line), (false, 2, insn::ListingCause::Word));
}

/// The types are decoded from each file and encoded in each byte order.
#[test]
fn types_of_vectors() {
    for row in rows("btf") {
        let (name, canonical) = (&row[0], [data(&row[2]), data(&row[3])]);
        for file in [&data(&row[1]), &canonical[0], &canonical[1]] {
            let decoded = Btf::decode(file).unwrap();
            assert_eq!(decoded.len().to_string(), row[4], "{name}");
            for (to, written) in ORDERS.into_iter().zip(&canonical) {
                let types = decoded.iter().map(|(_, it)| it);
                assert_eq!(btf::encode(to, types).as_ref(), Ok(written), "{name}");
            }
        }
    }
}

#[test]
fn calls_on_types() {
    let files = ["little", "big"].map(|order| load(&format!("flow_table.{order}.btf")));
    let canonical = ORDERS.map(|to| btf::canon(to, &files[0]).unwrap());
    assert_ne!(canonical[0], canonical[1]);
    for types in &files {
        for (to, written) in ORDERS.into_iter().zip(&canonical) {
            assert_eq!(btf::canon(to, types).as_ref(), Ok(written));
            assert_eq!(btf::same(types, written), Ok(true));
        }
        assert_eq!(btf::same(types, &file(&[])), Ok(false));
        assert_eq!(btf::show(types), btf::show(&canonical[0]));
        assert_eq!(btf::check(types).unwrap() as usize, Btf::decode(types).unwrap().len());
    }
}

/// A PTR to a type that isn't there.
#[test]
fn faulty_types() {
    fn fault<T: Debug>(result: Result<T, btf::Error>) -> (bool, u64, btf::Cause) {
        fault_at(result, Fault::offset)
    }
    let (good, given) = (file(&[]), file(&[0, 2 << 24, 2]));
    let (first, second) = ((false, 32, btf::Cause::Reference), (true, 32, btf::Cause::Reference));
    assert_eq!(fault(btf::canon(Order::Little, &given)), first);
    assert_eq!(fault(btf::show(&given)), first);
    assert_eq!(fault(btf::check(&given)), first);
    assert_eq!(fault(Btf::decode(&given)), first);
    assert_eq!(fault(btf::same(&given, &good)), first);
    assert_eq!(fault(btf::same(&good, &given)), second);
}
