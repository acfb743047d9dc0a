//! Object files, on which the crate does something by itself. The tests of the package for Python
//! read all files of testdata/objects, over the same calls.

mod rows;

use bpfcanon::btf;
use bpfcanon::object::{self, Cause, Error};
use rows::load;
use std::fmt::Debug;

/// A file that is shorter than its canonical file, compared with that and with another one.
#[test]
fn a_canonical_file_may_be_longer() {
    let short = load("objects/changed.shared_bytes.little.o");
    let canonical = object::canon(&short).unwrap();
    assert!(canonical.len() > short.len());
    assert_eq!(object::canon(&canonical).as_ref(), Ok(&canonical));
    assert_eq!(object::key(&short), object::key(&canonical));
    assert_eq!(object::check(&short), Ok(()));
    assert_eq!(object::same(&short, &canonical), Ok(true));
    let other = load("objects/pass.little.debug.o");
    assert_eq!(object::same(&short, &other), Ok(false));
    let key: String = object::key(&other).unwrap().iter().map(|it| format!("{it:02x}")).collect();
    assert_eq!(key, "c917fcd49ec0d1154cce27517cf3e3ecfd7e22b1a542dfae09abddc1d2b0e802");
}

/// A fault: whether it is in the second of two files, its offset, and its cause.
fn fault<T: Debug>(result: Result<T, Error>) -> (bool, usize, Cause) {
    let error = result.unwrap_err();
    let fault = error.fault().unwrap();
    (fault.is_in_second(), fault.offset() as usize, fault.cause())
}

/// A fault of the object file, and one of `.BTF` by itself, whose version is 2.
#[test]
fn a_fault_has_its_place_and_cause() {
    let good = load("objects/pass.little.debug.o");
    let magic = [0x9f, 0xeb, 1, 0, 24, 0, 0, 0];
    let version = good.windows(8).position(|it| it == magic).unwrap() + 2;
    let mut types = good.clone();
    types[version] = 2;
    let rows =
        [(&good[..63], 63, Cause::FileCut), (&types, version, Cause::Types(btf::Cause::Version))];
    for (data, offset, cause) in rows {
        assert_eq!(fault(object::canon(data)), (false, offset, cause));
        assert_eq!(fault(object::key(data)), (false, offset, cause));
        assert_eq!(fault(object::check(data)), (false, offset, cause));
        assert_eq!(fault(object::same(data, &good)), (false, offset, cause));
        assert_eq!(fault(object::same(&good, data)), (true, offset, cause));
    }
}
