package bpfcanon

import (
	"sync"
	"unsafe"

	"bpfcanon/internal/capi"
)

// BTF is decoded BTF. It doesn't change, so any number of goroutines may read it. Names are
// substrings of one copy of the input, which they keep in memory.
type BTF struct {
	text  string
	types []capi.BTFType
	items []capi.BTFItem

	index  sync.Once // sets byName
	byName names
}

// DecodeBTF decodes the types of BTF. It stores a copy of the input and records of 40 bytes for each
// type and item; no Type is made before a call asks for it.
//
// Errors: a *FaultError with a BTFCause, ErrOutOfMemory, an *UnknownRecordError.
func DecodeBTF(types []byte) (*BTF, error) {
	// The names have to stay as they were decoded, so the copy is decoded.
	file := append([]byte(nil), types...)
	typeRecords, itemRecords, err := decodeRecords(file)
	if err != nil {
		return nil, err
	}
	if err := checkKinds(typeRecords); err != nil {
		return nil, err
	}
	return &BTF{text: textOf(file), types: typeRecords, items: itemRecords}, nil
}

// decodeRecords returns the records of all types and of their items. The first call only counts
// them. Arrays that are always large enough would be twice as large, and to clear and to copy them
// takes longer than this call.
func decodeRecords(file []byte) ([]capi.BTFType, []capi.BTFItem, error) {
	counts := capi.BTFDecode(file, nil, nil)
	if counts.Status != capi.Room {
		return nil, nil, errorOf(counts, btfCause)
	}
	types, items := make([]capi.BTFType, counts.Types), make([]capi.BTFItem, counts.Needed)
	return types, items, errorOf(capi.BTFDecode(file, types, items), btfCause)
}

// textOf returns bytes that nobody changes as a string, without another copy, as strings.Builder
// does.
func textOf(bytes []byte) string {
	return *(*string)(unsafe.Pointer(&bytes))
}

// Len returns the number of types, without void. Their IDs are 1 to Len.
func (b *BTF) Len() int {
	return len(b.types)
}

// record returns the record of a type, which is nil for void.
//
// Errors: ErrNoSuchType.
func (b *BTF) record(id ID) (*capi.BTFType, error) {
	switch {
	case id == 0:
		return nil, nil
	case uint64(id) > uint64(len(b.types)):
		return nil, ErrNoSuchType
	}
	return &b.types[id-1], nil
}

// nameOf returns the name of a record.
func (b *BTF) nameOf(r *capi.BTFType) string {
	return b.text[r.Name : r.Name+r.NameLen]
}

// Name returns the name of a type, which is empty for void and for a type without one. Nothing is
// allocated.
//
// Errors: ErrNoSuchType.
func (b *BTF) Name(id ID) (string, error) {
	r, err := b.record(id)
	if r == nil {
		return "", err
	}
	return b.nameOf(r), nil
}

// Kind returns the kind of a type. Nothing is allocated.
//
// Errors: ErrNoSuchType.
func (b *BTF) Kind(id ID) (Kind, error) {
	r, err := b.record(id)
	if r == nil {
		return KindVoid, err
	}
	return Kind(r.Kind), nil
}

// Type returns the type with this ID, which is Void{} for 0.
//
// Errors: ErrNoSuchType.
func (b *BTF) Type(id ID) (Type, error) {
	r, err := b.record(id)
	switch {
	case err != nil:
		return nil, err
	case r == nil:
		return Void{}, nil
	}
	return b.typeOf(r, &itemArrays{}), nil
}

// Types returns the types with the IDs 1 to Len, for example to change some of them and encode all. The
// items of about a thousand are in one array, which stays in memory with each of them.
func (b *BTF) Types() []Type {
	types, arrays := make([]Type, len(b.types)), itemArrays{least: 1000}
	for i := range types {
		types[i] = b.typeOf(&b.types[i], &arrays)
	}
	return types
}
