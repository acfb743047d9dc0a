//! What the vectors don't show: long output, sets of groups, errors and numbers of the header.

mod rows;

use bpfcanon::insn::Groups;
use bpfcanon::{btf, insn, object, Order};
use rows::load;
use std::{error, io};

#[test]
fn byte_orders_have_one_word_each() {
    let words = ["little", "big", "LITTLE", "Big", "le", "", " little", "big\n"];
    let orders = words.map(|word| word.parse::<Order>().ok());
    assert_eq!(orders[..2], [Some(Order::Little), Some(Order::Big)]);
    assert_eq!(orders[2..], [None; 6]);
}

#[test]
fn a_set_has_the_groups_that_are_in_it() {
    let none = Groups::empty();
    assert_eq!((none.is_empty(), none.bits(), none.to_string()), (true, 0, String::new()));
    let bits = (0..32).map(|at| Groups::from_bits_retain(1 << at));
    let groups: Vec<Groups> = bits.filter(|it| !it.to_string().is_empty()).collect();
    assert_eq!(groups[..2], [Groups::BASE32, Groups::BASE64]);
    for &group in &groups {
        assert_eq!((group.contains(none), none.contains(group)), (true, false));
        for &other in &groups {
            let (both, is_one) = (group | other, group == other);
            assert_eq!((both.contains(group), both.contains(both)), (true, true), "{both}");
            assert_eq!((group.contains(other), group.contains(both)), (is_one, is_one), "{both}");
            assert_eq!((both & group, (group & other).is_empty()), (group, !is_one), "{both}");
        }
    }
}

#[test]
fn a_listing_of_short_lines_is_read() {
    let listing = "exit\n".repeat(1000);
    assert_eq!(
        insn::read(Order::Little, listing).unwrap(),
        [0x95, 0, 0, 0, 0, 0, 0, 0].repeat(1000)
    );
}

#[test]
fn errors_name_the_place_and_the_cause() {
    let cut = &load("flow_table.little.btf")[..100];
    let sum = "hdr_len, type_len and str_len do not add up to the length of the file";
    assert_eq!(btf::check(cut).unwrap_err().to_string(), format!("byte 100: {sum}"));
    let error = btf::same(&load("flow_table.big.btf"), cut).unwrap_err();
    assert_eq!(error.to_string(), format!("second input: byte 100: {sum}"));
    let error = insn::read(Order::Little, "exit\n\nleave\n").unwrap_err();
    assert_eq!(error.to_string(), "line 3: no instruction has this mnemonic");
}

#[test]
fn errors_go_through_dyn_error_and_io_error() {
    fn run() -> Result<(), Box<dyn error::Error + Send + Sync>> {
        insn::canon(Order::Little, Order::Little, &[0xff; 8])?;
        Ok(())
    }
    let error = run().unwrap_err();
    let fault = error.downcast_ref::<insn::Error>().unwrap().fault().unwrap();
    assert_eq!(fault.cause(), insn::Cause::Opcode);
    let error = io::Error::from(btf::check(b"no BTF").unwrap_err());
    assert_eq!(error.kind(), io::ErrorKind::InvalidData);
    assert!(error.get_ref().unwrap().is::<btf::Error>());
    let error = io::Error::from(btf::Error::OutOfMemory);
    assert_eq!(error.kind(), io::ErrorKind::OutOfMemory);
}

/// The variants are spelled as the library's names, and the library has no other cause.
#[test]
fn the_crate_has_every_cause_of_the_library() {
    for (at, it) in insn::Cause::ALL.iter().enumerate() {
        assert_eq!((it.number() as usize, it.name()), (at + 1, Some(&*format!("{it:?}"))));
    }
    for (at, it) in insn::ListingCause::ALL.iter().enumerate() {
        assert_eq!((it.number() as usize, it.name()), (at + 1, Some(&*format!("{it:?}"))));
    }
    for (at, it) in btf::Cause::ALL.iter().enumerate() {
        assert_eq!((it.number() as usize, it.name()), (at + 1, Some(&*format!("{it:?}"))));
    }
    for (at, it) in object::Cause::ALL.iter().enumerate() {
        assert_eq!((it.number() as usize, it.name()), (at + 101, Some(&*format!("{it:?}"))));
    }
    assert_eq!(object::Cause::Types(btf::Cause::Vlen).name(), Some("Vlen"));
    assert_eq!(insn::Cause::Other(insn::Cause::ALL.len() as u32 + 1).name(), None);
    assert_eq!(insn::ListingCause::Other(insn::ListingCause::ALL.len() as u32 + 1).name(), None);
    assert_eq!(object::Cause::Other(object::Cause::ALL.len() as u32 + 101).name(), None);
    let next = btf::Cause::Other(btf::Cause::ALL.len() as u32 + 1);
    assert_eq!((next.name(), next.description()), (None, None));
    assert_eq!(next.to_string(), format!("cause {}", next.number()));
}

#[test]
fn the_library_has_the_version_of_the_crate() {
    assert_eq!(bpfcanon::library_version(), env!("CARGO_PKG_VERSION"));
}
