package bpfcanon_test

import (
	"bytes"
	"errors"
	"io"
	"testing"

	"bpfcanon"
)

var _ io.WriteCloser = (*bpfcanon.InsnWriter)(nil)

// Writes a stream in pieces of one length.
func writeInPieces(w io.Writer, piece int, stream []byte) error {
	for len(stream) > 0 {
		next := stream[:min(piece, len(stream))]
		if n, err := w.Write(next); err != nil || n != len(next) {
			return err
		}
		stream = stream[len(next):]
	}
	return nil
}

func min(a, b int) int {
	if a < b {
		return a
	}
	return b
}

func TestStreamsMayBeCutAnywhere(t *testing.T) {
	wide, exit := unhex(t, insns[1].big), unhex(t, insns[5].big)
	streams := map[string][2][]byte{
		"compiled": {load(t, "packet_filter.big.bin"), load(t, "packet_filter.little.bin")},
		"wide loads after 4 KiB": {
			append(bytes.Repeat(exit, 513), bytes.Repeat(wide, 9000)...),
			append(bytes.Repeat(unhex(t, insns[5].little), 513), bytes.Repeat(unhex(t, insns[1].little), 9000)...),
		},
	}
	for name, stream := range streams {
		for _, piece := range []int{1, 2, 3, 5, 7, 8, 9, 12, 15, 16, 17, 23, 24, 31, 59, 4093, 65529, 65536, 65537, 1 << 20} {
			var out bytes.Buffer
			w := bpfcanon.NewInsnWriter(&out, bpfcanon.Big, bpfcanon.Little)
			if err := writeInPieces(w, piece, stream[0]); err != nil {
				t.Errorf("%s in pieces of %d: %v", name, piece, err)
			}
			if err := w.Close(); err != nil || !bytes.Equal(out.Bytes(), stream[1]) {
				t.Errorf("%s in pieces of %d: %v, %d bytes, want %d", name, piece, err, out.Len(), len(stream[1]))
			}
		}
	}
}

func max(a, b int) int {
	if a > b {
		return a
	}
	return b
}

func TestAFaultComesAfterTheInstructionsBeforeIt(t *testing.T) {
	stream := unhex(t, insns[0].big+insns[1].big+"04 01 0000 00000005"+insns[5].big)
	good := unhex(t, insns[0].little+insns[1].little)
	want := bpfcanon.FaultError{Cause: bpfcanon.ErrInsnSrc, Offset: 25}
	for piece := 1; piece <= len(stream); piece++ {
		var out bytes.Buffer
		w := bpfcanon.NewInsnWriter(&out, bpfcanon.Big, bpfcanon.Little)
		wantFault(t, "Write", writeInPieces(w, piece, stream), want)
		if !bytes.Equal(out.Bytes(), good) {
			t.Errorf("pieces of %d: %x", piece, out.Bytes())
		}
	}
}

// Write returns the number of its bytes before the faulty instruction, even if that instruction
// began in an earlier call.
func TestWriteCountsTheBytesBeforeAFault(t *testing.T) {
	for _, row := range []struct {
		fault string
		want  bpfcanon.FaultError
	}{
		{"04 01 0000 00000005", bpfcanon.FaultError{Cause: bpfcanon.ErrInsnSrc, Offset: 25}},
		{"18 10 0000 00000001 01 00 0000 00000000", bpfcanon.FaultError{Cause: bpfcanon.ErrInsnReserved, Offset: 32}},
	} {
		good := len(unhex(t, insns[0].big+insns[1].big))
		stream := unhex(t, insns[0].big+insns[1].big+row.fault+insns[5].big)
		for cut := 0; cut < good+len(unhex(t, row.fault)); cut++ {
			w := bpfcanon.NewInsnWriter(new(bytes.Buffer), bpfcanon.Big, bpfcanon.Little)
			first, err := w.Write(stream[:cut])
			if err == nil && first != cut {
				t.Errorf("%d of %d bytes without an error", first, cut)
			}
			if err != nil {
				t.Errorf("the fault came with %d bytes: %v", cut, err)
				continue
			}
			n, err := w.Write(stream[cut:])
			wantFault(t, "Write", err, row.want)
			if want := max(good-cut, 0); n != want {
				t.Errorf("cut at %d, Write returned %d, want %d", cut, n, want)
			}
		}
	}
}

// An error is returned again by each later call.
func wantKept(t *testing.T, what string, w *bpfcanon.InsnWriter, want error) {
	t.Helper()
	for k := 0; k < 3; k++ {
		if err := w.Close(); err != want {
			t.Errorf("%s: Close returned %v, want %v", what, err, want)
		}
		if n, err := w.Write(make([]byte, 8)); n != 0 || err != want {
			t.Errorf("%s: Write returned %d, %v, want %v", what, n, err, want)
		}
	}
}

func TestAFaultIsKept(t *testing.T) {
	for _, stream := range []string{"ff 00 0000 00000000", insns[5].big + "04 01 0000 00000005", "95", insns[5].big + "18 10 0000 55667788"} {
		w := bpfcanon.NewInsnWriter(new(bytes.Buffer), bpfcanon.Big, bpfcanon.Little)
		_, err := w.Write(unhex(t, stream))
		if closed := w.Close(); err == nil {
			err = closed
		}
		var fault *bpfcanon.FaultError
		if !errors.As(err, &fault) {
			t.Fatalf("%s: %v", stream, err)
		}
		wantKept(t, stream, w, err)
	}
}

func TestAnInstructionThatIsCutIsReportedByClose(t *testing.T) {
	for _, row := range []struct {
		stream string
		pos    uint64
	}{
		{insns[5].big + "95", 8},
		{insns[5].big + "95 00 0000 000000", 8},
		{insns[5].big + "18 10 0000 55667788", 16},
		{insns[5].big + "18 10 0000 55667788 00000000 112233", 16},
		{insns[5].big + "18 a0 0000 55667788", 16}, // to register 10, which in little-endian order would be the source
	} {
		var out bytes.Buffer
		w := bpfcanon.NewInsnWriter(&out, bpfcanon.Big, bpfcanon.Little)
		if err := writeInPieces(w, 3, unhex(t, row.stream)); err != nil {
			t.Errorf("%s: %v", row.stream, err)
		}
		wantFault(t, row.stream, w.Close(), bpfcanon.FaultError{Cause: bpfcanon.ErrInsnTruncated, Offset: row.pos})
		if !bytes.Equal(out.Bytes(), unhex(t, insns[5].little)) {
			t.Errorf("%s: %x", row.stream, out.Bytes())
		}
	}
}

func TestAClosedWriterTakesNothing(t *testing.T) {
	var out bytes.Buffer
	w := bpfcanon.NewInsnWriter(&out, bpfcanon.Big, bpfcanon.Little)
	if err := w.Close(); err != nil {
		t.Error(err)
	}
	if n, err := w.Write(unhex(t, insns[5].big)); n != 0 || !errors.Is(err, bpfcanon.ErrClosed) || out.Len() > 0 {
		t.Errorf("%d, %v, %x", n, err, out.Bytes())
	}
	if err := w.Close(); err != nil {
		t.Errorf("closed again: %v", err)
	}
}

// A writer that fails at a call, or accepts only some of the bytes.
type failing struct {
	err   error
	taken int
}

func (w failing) Write(p []byte) (int, error) { return min(w.taken, len(p)), w.err }

func TestErrorsOfTheUnderlyingWriterAreReturned(t *testing.T) {
	exit, broken := unhex(t, insns[5].big), errors.New("broken")
	for _, row := range []struct {
		dst  failing
		want error
	}{{failing{broken, 0}, broken}, {failing{nil, 7}, io.ErrShortWrite}} {
		for held := 0; held < len(exit); held++ {
			w := bpfcanon.NewInsnWriter(row.dst, bpfcanon.Big, bpfcanon.Little)
			if n, err := w.Write(exit[:held]); n != held || err != nil {
				t.Errorf("%d of %d bytes, %v", n, held, err)
			}
			if n, err := w.Write(exit[held:]); n != 0 || err != row.want {
				t.Errorf("after %d bytes: %d, %v; want %v", held, n, err, row.want)
			}
			wantKept(t, "a failed write", w, row.want)
		}
	}
}
