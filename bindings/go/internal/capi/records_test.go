package capi_test

import (
	"reflect"
	"strings"
	"testing"

	"bpfcanon/internal/capi"
)

// Each record has the fields of its struct in the header, at the same offsets and of the same types.
func TestRecordsAreThoseOfTheHeader(t *testing.T) {
	for _, layout := range capi.Layouts() {
		ours, header := fieldsOf(layout[0]), fieldsOf(layout[1])
		if !reflect.DeepEqual(ours, header) || len(ours) < 9 {
			t.Errorf("%v has %v, and the header has %v", layout[0], ours, header)
		}
		if layout[0].Size() != layout[1].Size() || layout[0].Align() != layout[1].Align() {
			t.Errorf("%v: %d bytes aligned to %d, want %d to %d", layout[0], layout[0].Size(), layout[0].Align(), layout[1].Size(), layout[1].Align())
		}
	}
}

// field is the name of a field without regard to its style, its offset and its type.
type field struct {
	name   string
	offset uintptr
	kind   reflect.Kind
}

func fieldsOf(record reflect.Type) (fields []field) {
	for _, it := range reflect.VisibleFields(record) {
		// cgo puts an underscore before a name that is a keyword of Go.
		name := strings.ToLower(strings.ReplaceAll(it.Name, "_", ""))
		if name != "" {
			fields = append(fields, field{name, it.Offset, it.Type.Kind()})
		}
	}
	return fields
}
