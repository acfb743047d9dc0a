package bpfcanon

import (
	"errors"
	"io"

	"bpfcanon/internal/capi"
)

// The longest instruction, a wide load.
const longestInsn = 16

// The number of bytes that an InsnWriter passes to the library at a time.
const pieceSize = 64 << 10

// An InsnWriter writes the instructions of a stream in a byte order. The stream may be cut anywhere
// between two calls of Write: an instruction is written as soon as it is complete, and fewer than
// 16 bytes are held back.
type InsnWriter struct {
	dst       io.Writer
	order, to Order
	held      []byte // the start of an instruction that isn't complete
	out       []byte
	done      uint64 // the length of the instructions that were read
	err       error
}

// NewInsnWriter returns a writer that accepts instructions in the byte order `order` and writes them
// to dst in the byte order `to`; with Little these are canonical bytes.
func NewInsnWriter(dst io.Writer, order, to Order) *InsnWriter {
	return &InsnWriter{dst: dst, order: order, to: to, held: make([]byte, 0, longestInsn)}
}

// Write writes the instructions that the bytes of p complete. On a fault, the instructions before it
// have been written, and the error is a *FaultError with the offset in the stream; Write then
// returns the number of bytes of p before the faulty instruction. Other errors are those of the
// underlying writer, ErrOutOfMemory, ErrOrder and ErrClosed. Once a call has failed, all further calls
// return the same error.
func (w *InsnWriter) Write(p []byte) (int, error) {
	taken := 0
	for taken < len(p) && w.err == nil {
		if len(w.held) > 0 {
			taken += w.complete(p[taken:])
		} else {
			taken += w.writeFront(p[taken:])
		}
	}
	return taken, w.err
}

// complete adds bytes of p to those that are held, up to the length of the longest instruction, and
// writes the instruction that they complete. It returns the number of bytes of p that it consumed.
func (w *InsnWriter) complete(p []byte) int {
	before := len(w.held)
	w.held = append(w.held, p[:least(longestInsn-before, len(p))]...)
	read := w.put(w.held)
	if w.err == nil && read == 0 {
		return len(w.held) - before
	}
	w.held = w.held[:0]
	if read < before {
		return 0
	}
	return read - before
}

// writeFront writes the complete instructions at the start of p, and holds the start of one that may
// follow them. It returns the number of bytes of p that it consumed.
func (w *InsnWriter) writeFront(p []byte) int {
	piece := p[:least(len(p), pieceSize)]
	read := w.put(piece)
	if w.err == nil && read == 0 {
		w.held = append(w.held, piece...)
		return len(piece)
	}
	return read
}

// put writes the complete instructions at the start of piece, and returns their length.
func (w *InsnWriter) put(piece []byte) int {
	if cap(w.out) < len(piece) {
		w.out = make([]byte, len(piece))
	}
	front := capi.InsnFront(capi.Order(w.order), capi.Order(w.to), piece, w.out[:len(piece)])
	if front.Written > 0 {
		if w.err = writeWhole(w.dst, w.out[:front.Written]); w.err != nil {
			return 0
		}
	}
	w.err = w.moved(errorOf(front, insnCause))
	w.done += uint64(front.Read)
	return front.Read
}

// moved returns the error of a call on the bytes that follow the instructions read so far, with its offset in the stream.
func (w *InsnWriter) moved(err error) error {
	var fault *FaultError
	if errors.As(err, &fault) {
		fault.Offset += w.done
	}
	return err
}

// Close reports an incomplete instruction at the end: a *FaultError with ErrInsnTruncated. It doesn't
// close the underlying writer. It returns an earlier error again, and nil if the writer is already
// closed.
func (w *InsnWriter) Close() error {
	if w.err == ErrClosed {
		return nil
	}
	if w.err != nil {
		return w.err
	}
	_, err := CanonInsns(w.order, w.to, w.held)
	err = w.moved(err)
	w.err = err
	if err == nil {
		w.err = ErrClosed
	}
	return err
}

// writeWhole writes all of p, or returns an error.
func writeWhole(dst io.Writer, p []byte) error {
	n, err := dst.Write(p)
	if err == nil && n < len(p) {
		return io.ErrShortWrite
	}
	return err
}

func least(a, b int) int {
	if a < b {
		return a
	}
	return b
}
