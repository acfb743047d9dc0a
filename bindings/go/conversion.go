package bpfcanon

// #include <bpfcanon.h>
import "C"

// A MovsxForm is the widths of a sign-extending move: that of the destination, and the number of low
// bits of the source that are moved (RFC 9669 section 4.1).
type MovsxForm uint8

const (
	W32From8  MovsxForm = iota + 1 // from 8 to 32 bits
	W32From16                      // from 16 to 32 bits
	W64From8                       // from 8 to 64 bits
	W64From16                      // from 16 to 64 bits
	W64From32                      // from 32 to 64 bits
)

// A movsxWidths is the numbers of bits of a MovsxForm, with its name.
type movsxWidths struct {
	form       MovsxForm
	bits, from uint8
	name       string
}

var movsxForms = [...]movsxWidths{
	{W32From8, 32, 8, "w32_from8"},
	{W32From16, 32, 16, "w32_from16"},
	{W64From8, 64, 8, "w64_from8"},
	{W64From16, 64, 16, "w64_from16"},
	{W64From32, 64, 32, "w64_from32"},
}

// widths returns the row of the form, whose numbers are 0 if there is no such form.
func (f MovsxForm) widths() movsxWidths {
	for _, row := range movsxForms {
		if row.form == f {
			return row
		}
	}
	return movsxWidths{}
}

// movsxForm returns the form with these numbers of bits.
func movsxForm(bits, from uint8) MovsxForm {
	for _, row := range movsxForms {
		if row.bits == bits && row.from == from {
			return row.form
		}
	}
	return 0
}

// String returns the name of the form, for example "w64_from8".
func (f MovsxForm) String() string { return nameOr(f.widths().name, "MovsxForm", uint32(f)) }

// A SwapKind is how a byte swap instruction converts its operand (RFC 9669 section 4.2).
type SwapKind uint8

const (
	SwapLe    SwapKind = C.BPFCANON_SWAP_LE    // between the host's byte order and little-endian
	SwapBe    SwapKind = C.BPFCANON_SWAP_BE    // between the host's byte order and big-endian
	SwapBytes SwapKind = C.BPFCANON_SWAP_BYTES // unconditionally: reverses the bytes
)

var swapNames = map[SwapKind]string{SwapLe: "le", SwapBe: "be", SwapBytes: "bytes"}

// String returns the name of the kind, "le", "be" or "bytes".
func (k SwapKind) String() string { return nameOr(swapNames[k], "SwapKind", uint32(k)) }

// A SwapBits is the number of bits of a byte swap, 16, 32 or 64 (RFC 9669 section 4.2).
type SwapBits uint8

const (
	B16 SwapBits = 16 // the low 16 bits
	B32 SwapBits = 32 // the low 32 bits
	B64 SwapBits = 64 // all bits
)

var swapBitsNames = map[SwapBits]string{B16: "b16", B32: "b32", B64: "b64"}

// String returns the name of the number of bits, for example "b16".
func (b SwapBits) String() string { return nameOr(swapBitsNames[b], "SwapBits", uint32(b)) }
