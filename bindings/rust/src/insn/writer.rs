use crate::{insn, sys, Order};
use std::io::{self, Write};

/// The length of a wide load, the longest instruction.
const LONGEST: usize = 16;

/// The bytes that are given to the library at a time.
const PIECE: usize = 64 << 10;

/// Writes the instructions of a stream in another byte order.
///
/// The stream may be cut anywhere between two writes: an instruction is written to `W` as soon as
/// it is complete, and fewer than 16 bytes are kept. [`InsnWriter::finish`] reports an instruction
/// that is cut at the end; a writer that is dropped doesn't. Writes to `W` are large if the writes
/// to it are; else give it a [`std::io::BufWriter`].
///
/// A fault is an [`io::Error`] of the kind [`io::ErrorKind::InvalidData`] around an
/// [`insn::Error`], with its offset in the stream. The instructions before it have been written.
/// After an error all further writes fail, and so does `finish`.
///
/// ```
/// use bpfcanon::{insn::{self, InsnWriter}, Order};
/// use std::io::Write;
///
/// let mut writer = InsnWriter::new(Vec::new(), Order::Big, Order::Little);
/// for piece in [&[0xbf, 0x12, 0, 0, 0][..], &[0, 0, 0, 0x95]] {
///     writer.write_all(piece)?;
/// }
/// assert_eq!(writer.get_ref(), &[0xbf, 0x21, 0, 0, 0, 0, 0, 0]);
/// let error = writer.finish().unwrap_err();
/// let fault = error.get_ref().unwrap().downcast_ref::<insn::Error>().unwrap().fault().unwrap();
/// assert_eq!((fault.offset(), fault.cause()), (8, insn::Cause::Truncated));
/// # Ok::<(), std::io::Error>(())
/// ```
#[derive(Debug)]
pub struct InsnWriter<W: Write> {
    inner: W,
    order: Order,
    to: Order,
    /// The start of an instruction that isn't complete.
    held: Vec<u8>,
    /// The output of the last call.
    out: Vec<u8>,
    /// The length of the instructions that were read.
    done: u64,
    failed: Option<Failure>,
}

/// Why all further writes fail.
#[derive(Clone, Copy, Debug)]
enum Failure {
    /// The instructions have a fault, or memory ran out.
    Insn(insn::Error),
    /// The writer below failed, and how much of the output it took isn't known.
    Below,
}

impl<W: Write> InsnWriter<W> {
    /// Makes a writer of the instructions in the byte order `order` that are written to it. They
    /// are written to `inner` in the order `to`; with [`Order::Little`] these are canonical bytes.
    pub fn new(inner: W, order: Order, to: Order) -> InsnWriter<W> {
        let held = Vec::with_capacity(LONGEST);
        InsnWriter { inner, order, to, held, out: Vec::new(), done: 0, failed: None }
    }

    /// Checks that the stream doesn't end inside an instruction, flushes the underlying writer and
    /// returns it.
    ///
    /// # Errors
    ///
    /// [`insn::Cause::Truncated`] if the stream ends inside an instruction; an error of the
    /// underlying writer; an error if an earlier write failed.
    pub fn finish(mut self) -> io::Result<W> {
        self.check()?;
        if let Err(error) = insn::canon(self.order, self.to, &self.held) {
            return Err(self.fail(error));
        }
        self.inner.flush()?;
        Ok(self.inner)
    }

    /// Returns the underlying writer.
    pub fn get_ref(&self) -> &W {
        &self.inner
    }

    /// Returns the underlying writer. Bytes that are written to it directly come between two
    /// instructions.
    pub fn get_mut(&mut self) -> &mut W {
        &mut self.inner
    }

    fn check(&self) -> io::Result<()> {
        match self.failed {
            None => Ok(()),
            Some(Failure::Insn(error)) => Err(error.into()),
            Some(Failure::Below) => {
                Err(io::Error::new(io::ErrorKind::Other, "an earlier write failed"))
            }
        }
    }

    /// Keeps an error of some bytes, with the offset of its fault in the stream.
    fn fail(&mut self, error: insn::Error) -> io::Error {
        let error = match error {
            insn::Error::Fault(mut fault) => {
                fault.place += self.done;
                insn::Error::Fault(fault)
            }
            other => other,
        };
        self.failed = Some(Failure::Insn(error));
        error.into()
    }

    /// Writes the complete instructions at the start of a piece. Returns their length, which is 0
    /// if the first is not complete yet.
    fn put(&mut self, piece: &[u8]) -> io::Result<usize> {
        self.out.clear();
        if self.out.try_reserve(piece.len()).is_err() {
            return Err(self.fail(insn::Error::OutOfMemory));
        }
        // SAFETY: the slice and the buffer are valid for the call, and don't overlap.
        let front = unsafe {
            sys::bpfcanon_insn_front(
                self.order as u32,
                self.to as u32,
                piece.as_ptr(),
                piece.len(),
                self.out.as_mut_ptr(),
                self.out.capacity(),
            )
        };
        if front.read == 0 && front.status != sys::BPFCANON_STATUS_DONE {
            return Err(self.fail(insn::Error::of(&front)));
        }
        assert!(front.written <= self.out.capacity() && front.read <= piece.len());
        // SAFETY: the call has written so many bytes.
        unsafe { self.out.set_len(front.written) };
        // So it stays if the writer below panics.
        self.failed = Some(Failure::Below);
        self.inner.write_all(&self.out)?;
        self.failed = None;
        self.done += front.read as u64;
        Ok(front.read)
    }
}

impl<W: Write> Write for InsnWriter<W> {
    /// Takes bytes up to the first instruction with a fault. If that is the first instruction, the
    /// fault is returned.
    fn write(&mut self, bytes: &[u8]) -> io::Result<usize> {
        self.check()?;
        if self.held.is_empty() {
            let piece = &bytes[..bytes.len().min(PIECE)];
            let read = self.put(piece)?;
            if read == 0 {
                self.held.extend_from_slice(piece);
                return Ok(piece.len());
            }
            return Ok(read);
        }
        let before = self.held.len();
        let more = bytes.len().min(LONGEST - before);
        let mut start = [0; LONGEST];
        start[..before].copy_from_slice(&self.held);
        start[before..before + more].copy_from_slice(&bytes[..more]);
        let read = self.put(&start[..before + more])?;
        if read == 0 {
            self.held.extend_from_slice(&bytes[..more]);
            return Ok(more);
        }
        self.held.clear();
        Ok(read - before)
    }

    /// Flushes the underlying writer. An instruction that isn't complete stays here.
    fn flush(&mut self) -> io::Result<()> {
        self.check()?;
        self.inner.flush()
    }
}
