//! Reads the rows of testdata/vectors.tsv, and other files of testdata/.

// Each test needs a part of it.
#![allow(dead_code)]

use bpfcanon::Order;
use std::fs;

pub const ORDERS: [Order; 2] = [Order::Little, Order::Big];

/// The fields of each row of a kind in vectors.tsv, without the kind.
pub fn rows(kind: &str) -> Vec<Vec<String>> {
    let file = String::from_utf8(load("vectors.tsv")).unwrap();
    let lines = file.lines().map(|line| line.split('\t').map(String::from).collect::<Vec<_>>());
    let found: Vec<_> = lines.filter(|row| row[0] == kind).map(|row| row[1..].to_vec()).collect();
    assert!(!found.is_empty(), "no row of {kind}");
    found
}

/// The bytes of a field of hexadecimal digits.
pub fn data(field: &str) -> Vec<u8> {
    let digits = field.trim_end_matches('-');
    let byte = |at| u8::from_str_radix(&digits[at..at + 2], 16).unwrap();
    (0..digits.len()).step_by(2).map(byte).collect()
}

/// A file of testdata/.
pub fn load(name: &str) -> Vec<u8> {
    let path = format!("{}/../../testdata/{name}", env!("CARGO_MANIFEST_DIR"));
    fs::read(&path).unwrap_or_else(|error| panic!("{path}: {error}"))
}

/// Little-endian BTF of these words of the type section, with the names `a` at 1 and `bc` at 3.
pub fn file(words: &[u32]) -> Vec<u8> {
    let types = words.iter().flat_map(|it| it.to_le_bytes()).collect::<Vec<_>>();
    let lengths = [24, 0, types.len(), types.len(), 6].map(|it| (it as u32).to_le_bytes()).concat();
    [&[0x9f, 0xeb, 1, 0], &lengths[..], &types, b"\0a\0bc\0"].concat()
}
