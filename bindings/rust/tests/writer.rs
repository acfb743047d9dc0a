//! Streams in pieces of any length, their faults, and an underlying writer that holds back what it
//! gets, fails or panics.

use bpfcanon::insn::{self, InsnWriter};
use bpfcanon::Order;
use std::io::{self, BufWriter, Write};
use std::panic::{catch_unwind, AssertUnwindSafe};

const WIDE: [u8; 16] = [0x18, 0x10, 0, 0, 0, 0, 0, 5, 0, 0, 0, 0, 0, 0, 0, 1];
const EXIT: [u8; 8] = [0x95, 0, 0, 0, 0, 0, 0, 0];

/// What a stream gives in pieces of this length: the output, and the fault with its offset.
fn write_pieces(stream: &[u8], length: usize) -> (Vec<u8>, Option<(u64, insn::Cause)>) {
    let mut out = Vec::new();
    let mut writer = InsnWriter::new(&mut out, Order::Big, Order::Little);
    let written = stream.chunks(length).try_for_each(|piece| writer.write_all(piece));
    let finished = writer.finish().map(drop);
    if let Err(error) = &written {
        let again = finished.as_ref().map_err(fault_of);
        assert_eq!(again, Err(fault_of(error)), "an error of write is that of finish");
    }
    (out, finished.err().map(|error| fault_of(&error)))
}

fn fault_of(error: &io::Error) -> (u64, insn::Cause) {
    assert_eq!(error.kind(), io::ErrorKind::InvalidData);
    let error = error.get_ref().unwrap().downcast_ref::<insn::Error>().unwrap();
    let fault = error.fault().unwrap();
    (fault.offset(), fault.cause())
}

#[test]
fn a_stream_may_be_cut_anywhere() {
    let stream = [EXIT.repeat(513), WIDE.repeat(9000)].concat();
    let canonical = insn::canon(Order::Big, Order::Little, &stream).unwrap();
    let lengths = [1, 2, 3, 5, 7, 8, 9, 12, 15, 16, 17, 23, 24, 31, 59, 4093, 65529, 65536, 65537];
    for length in lengths.into_iter().chain([stream.len()]) {
        let (out, fault) = write_pieces(&stream, length);
        assert!(out == canonical && fault.is_none(), "pieces of {length} bytes: {fault:?}");
    }
}

#[test]
fn instructions_before_a_fault_are_written() {
    let opcode = [&WIDE[..], &EXIT, &[0xff; 20]].concat();
    let second_slot = [&WIDE[..], &EXIT, &WIDE[..8], &[0, 1, 0, 0, 0, 0, 0, 0], &EXIT].concat();
    let cut = [&WIDE[..], &EXIT[..5]].concat();
    for (stream, length, fault) in [
        (opcode, 24, (24, insn::Cause::Opcode)),
        (second_slot, 24, (32, insn::Cause::Reserved)),
        (cut, 16, (16, insn::Cause::Truncated)),
    ] {
        for piece in 1..40 {
            let (out, found) = write_pieces(&stream, piece);
            assert_eq!((out.len(), found), (length, Some(fault)), "pieces of {piece} bytes");
        }
    }
}

#[test]
fn no_write_succeeds_after_a_fault() {
    let mut writer = InsnWriter::new(Vec::new(), Order::Little, Order::Little);
    let stream = [&EXIT[..], &[0xff; 8]].concat();
    assert_eq!(writer.write(&stream).unwrap(), 8);
    for bytes in [&stream[8..], &EXIT] {
        assert_eq!(fault_of(&writer.write(bytes).unwrap_err()), (8, insn::Cause::Opcode));
    }
    assert_eq!(fault_of(&writer.flush().unwrap_err()), (8, insn::Cause::Opcode));
    assert_eq!(writer.get_ref(), &EXIT);
    assert_eq!(fault_of(&writer.finish().unwrap_err()), (8, insn::Cause::Opcode));
}

/// A writer that accepts a limited number of bytes.
struct Full(usize);

impl Write for Full {
    fn write(&mut self, bytes: &[u8]) -> io::Result<usize> {
        let taken = bytes.len().min(self.0);
        self.0 -= taken;
        Ok(taken)
    }

    fn flush(&mut self) -> io::Result<()> {
        Ok(())
    }
}

#[test]
fn no_write_succeeds_after_the_underlying_writer_failed() {
    let mut writer = InsnWriter::new(Full(12), Order::Little, Order::Little);
    let error = writer.write(&EXIT.repeat(3)).unwrap_err();
    assert_eq!(error.kind(), io::ErrorKind::WriteZero);
    writer.get_mut().0 = 100;
    assert!(writer.write(&EXIT).is_err());
    assert_eq!(writer.get_ref().0, 100);
    assert!(writer.finish().is_err());
}

#[test]
fn flush_and_finish_flush_the_underlying_writer() {
    let mut writer = InsnWriter::new(BufWriter::new(Vec::new()), Order::Big, Order::Little);
    writer.write_all(&EXIT).unwrap();
    assert_eq!((writer.get_ref().buffer(), writer.get_ref().get_ref().len()), (&EXIT[..], 0));
    writer.flush().unwrap();
    assert_eq!((writer.get_ref().buffer(), &writer.get_ref().get_ref()[..]), (&[][..], &EXIT[..]));
    writer.write_all(&EXIT).unwrap();
    let below = writer.finish().unwrap();
    assert_eq!((below.buffer(), below.get_ref()), (&[][..], &EXIT.repeat(2)));
}

#[test]
fn finish_returns_the_error_of_the_flush() {
    let below = BufWriter::new(Full(12));
    let mut writer = InsnWriter::new(below, Order::Little, Order::Little);
    writer.write_all(&EXIT.repeat(2)).unwrap();
    assert_eq!(writer.finish().err().unwrap().kind(), io::ErrorKind::WriteZero);
}

/// A writer that panics the first time, and counts what it accepts after that.
#[derive(Default)]
struct Panicking {
    has_panicked: bool,
    taken: usize,
}

impl Write for Panicking {
    fn write(&mut self, bytes: &[u8]) -> io::Result<usize> {
        if !std::mem::replace(&mut self.has_panicked, true) {
            panic!("the first write");
        }
        self.taken += bytes.len();
        Ok(bytes.len())
    }

    fn flush(&mut self) -> io::Result<()> {
        Ok(())
    }
}

#[test]
fn no_write_succeeds_after_the_underlying_writer_panicked() {
    let mut writer = InsnWriter::new(Panicking::default(), Order::Little, Order::Little);
    assert!(catch_unwind(AssertUnwindSafe(|| writer.write(&EXIT))).is_err());
    assert!(writer.write(&EXIT).is_err() && writer.flush().is_err());
    assert_eq!(writer.get_ref().taken, 0);
    assert!(writer.finish().is_err());
}
