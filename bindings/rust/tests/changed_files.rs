//! Changed files never lead to a panic, and either are refused for the reason that the other calls
//! give or can be read to the end.

mod rows;

use bpfcanon::btf::{self, Btf, ResolveError, TypeId};
use bpfcanon::insn::{self, Program};
use bpfcanon::Order;
use rows::{data, load, rows, ORDERS};

/// The generator xorshift64 (Marsaglia 2003), whose state is never 0.
struct Random(u64);

impl Random {
    fn next(&mut self) -> u64 {
        self.0 ^= self.0 << 13;
        self.0 ^= self.0 >> 7;
        self.0 ^= self.0 << 17;
        self.0
    }

    fn below(&mut self, limit: usize) -> usize {
        (self.next() >> 16) as usize % limit
    }

    /// Changes up to 3 bytes, and one time in 8 the length.
    fn change(&mut self, file: &[u8]) -> Vec<u8> {
        let mut changed = file.to_vec();
        for _ in 0..=self.below(3) {
            let at = self.below(file.len());
            changed[at] = match self.below(4) {
                0 => changed[at] ^ 1 << self.below(8),
                1 => self.below(20) as u8,
                2 => changed[self.below(file.len())],
                _ => self.next() as u8,
            };
        }
        if self.below(8) == 0 {
            changed.truncate(self.below(file.len()));
        }
        changed
    }
}

/// Reads each value of BTF that isn't refused, and returns whether it isn't.
fn read_types(file: &[u8]) -> bool {
    let btf = match (Btf::decode(file), btf::check(file)) {
        (Ok(btf), Ok(count)) => {
            assert_eq!(btf.len(), count as usize);
            btf
        }
        (decoded, checked) => {
            assert_eq!(decoded.unwrap_err(), checked.unwrap_err());
            return false;
        }
    };
    for (id, it) in &btf {
        assert_eq!(btf.name(id), Some(it.name()));
        match btf.resolve(id) {
            Ok((end, resolved)) => assert_eq!(btf.get(end), Some(resolved)),
            Err(error) => assert_eq!(error, ResolveError::Cycle(id)),
        }
        assert!(btf.by_name(it.name()).any(|(found, _)| found == id));
    }
    let types = btf.iter().map(|(_, it)| it);
    assert_eq!(btf::encode(Order::Big, types).ok(), btf::canon(Order::Big, file).ok());
    assert_eq!(btf.iter().count(), btf.len());
    assert_eq!(btf.get(TypeId(btf.len() as u32 + 1)), None);
    true
}

/// Reads each instruction of a program that isn't refused, and returns whether it isn't.
fn read_insns(order: Order, bytes: &[u8]) -> bool {
    match (Program::decode(order, bytes), insn::canon(order, order, bytes)) {
        (Ok(program), Ok(_)) => {
            let insns = program.iter().map(|(_, it)| it);
            assert_eq!(insn::encode(order, insns).as_deref(), Ok(bytes));
            true
        }
        (decoded, canonical) => {
            assert_eq!(decoded.unwrap_err(), canonical.unwrap_err());
            false
        }
    }
}

/// Changes this many files of each kind, and returns how many of them are still accepted.
fn accepted(count: usize) -> [usize; 2] {
    let mut random = Random(0x9fbe_0101);
    let mut files: Vec<_> = rows("btf").iter().map(|row| data(&row[1])).collect();
    // A header of 4,096 bytes would be most of what is changed.
    files.retain(|it| it.len() < 1000);
    files.extend(["little", "big"].map(|it| load(&format!("flow_table.{it}.btf"))));
    let bytes: Vec<_> = rows("insn").iter().flat_map(|row| data(&row[1])).collect();
    let mut accepted = [0, 0];
    for round in 0..count {
        let file = random.change(&files[round % files.len()]);
        accepted[0] += usize::from(read_types(&file));
        let start = 8 * random.below(bytes.len() / 8 - 4);
        let program = random.change(&bytes[start..start + 32]);
        accepted[1] += usize::from(read_insns(ORDERS[round % 2], &program));
    }
    accepted
}

#[test]
fn changed_files_are_refused_or_read() {
    let accepted = accepted(4_000);
    assert!(accepted.iter().all(|it| *it > 100), "{accepted:?} accepted");
}

/// Takes minutes: `cargo test --release -- --ignored --nocapture`.
#[test]
#[ignore]
fn a_million_changed_files_are_refused_or_read() {
    println!("{:?} of 1,000,000 BTF files and programs accepted", accepted(1_000_000));
}
