package bpfcanon

// #include <bpfcanon.h>
import "C"

import (
	"math"

	"bpfcanon/internal/capi"
)

// btfRecords are the records of types and of their items, with their names.
type btfRecords struct {
	types   []capi.BTFType
	items   []capi.BTFItem
	strings []byte
	offsets map[string]uint32 // of each name in strings
	refused bool              // a Type has no record
}

// recordsOf returns the records of types, or an *EncodeBTFError for the first Type that has none.
func recordsOf(types []Type) (*btfRecords, error) {
	b := &btfRecords{
		// About as many items and names as the types of a kernel have.
		types: make([]capi.BTFType, len(types)), items: make([]capi.BTFItem, 0, 2*len(types)),
		strings: make([]byte, 0, 16*len(types)), offsets: make(map[string]uint32, len(types)),
	}
	for i, it := range types {
		b.types[i] = b.record(it)
		if b.refused {
			return nil, &EncodeBTFError{i, it, 0}
		}
	}
	return b, nil
}

// record returns the record of a type. That of Void has no kind, and the library refuses it.
func (b *btfRecords) record(it Type) capi.BTFType {
	switch it := it.(type) {
	case Void:
		return capi.BTFType{}
	case Int:
		r := b.named(it.Name, capi.BTFType{Kind: uint8(KindInt), Size: it.Size})
		r.Encoding, r.BitOffset, r.Bits = uint8(it.Encoding), it.BitOffset, it.Bits
		return r
	case Ptr:
		return capi.BTFType{Kind: uint8(KindPtr), Target: uint32(it.Target)}
	case Array:
		return capi.BTFType{Kind: uint8(KindArray), Target: uint32(it.Target), IndexType: uint32(it.Index), Elements: it.Count}
	case Fwd:
		return b.named(it.Name, capi.BTFType{Kind: uint8(KindFwd), Flag: flagOf(it.IsUnion)})
	case Typedef:
		return b.named(it.Name, capi.BTFType{Kind: uint8(KindTypedef), Target: uint32(it.Target)})
	case Volatile:
		return capi.BTFType{Kind: uint8(KindVolatile), Target: uint32(it.Target)}
	case Const:
		return capi.BTFType{Kind: uint8(KindConst), Target: uint32(it.Target)}
	case Restrict:
		return capi.BTFType{Kind: uint8(KindRestrict), Target: uint32(it.Target)}
	case Func:
		return b.named(it.Name, capi.BTFType{Kind: uint8(KindFunc), Target: uint32(it.Target), Linkage: uint8(it.Linkage)})
	case Var:
		return b.named(it.Name, capi.BTFType{Kind: uint8(KindVar), Target: uint32(it.Target), Linkage: uint8(it.Linkage)})
	case Float:
		return b.named(it.Name, capi.BTFType{Kind: uint8(KindFloat), Size: it.Size})
	case DeclTag:
		if it.Component < WholeType || it.Component > math.MaxInt32 {
			return b.refuse()
		}
		r := b.named(it.Name, capi.BTFType{Kind: uint8(KindDeclTag), Flag: flagOf(it.Flag), Target: uint32(it.Target)})
		r.Component = int32(it.Component)
		return r
	case TypeTag:
		return b.named(it.Name, capi.BTFType{Kind: uint8(KindTypeTag), Flag: flagOf(it.Flag), Target: uint32(it.Target)})
	}
	return b.withItems(it)
}

// withItems returns the record of a type of a kind that has items. No other value has a record.
func (b *btfRecords) withItems(it Type) capi.BTFType {
	switch it := it.(type) {
	case Struct:
		return addItems(b, it.Name, capi.BTFType{Kind: uint8(KindStruct), Size: it.Size}, it.Members, b.member)
	case Union:
		return addItems(b, it.Name, capi.BTFType{Kind: uint8(KindUnion), Size: it.Size}, it.Members, b.member)
	case Enum:
		value := b.value
		if it.Signed {
			value = b.signedValue
		}
		return addItems(b, it.Name, capi.BTFType{Kind: uint8(KindEnum), Flag: flagOf(it.Signed), Size: it.Size}, it.Values, value)
	case FuncProto:
		return addItems(b, "", capi.BTFType{Kind: uint8(KindFuncProto), Target: uint32(it.Target)}, it.Params, b.param)
	case Datasec:
		return addItems(b, it.Name, capi.BTFType{Kind: uint8(KindDatasec), Size: it.Size}, it.Entries, b.entry)
	case Enum64:
		return addItems(b, it.Name, capi.BTFType{Kind: uint8(KindEnum64), Flag: flagOf(it.Signed), Size: it.Size}, it.Values, b.value64)
	}
	return b.refuse()
}

// refuse returns no record, and notes that there is none.
func (b *btfRecords) refuse() (none capi.BTFType) {
	b.refused = true
	return none
}

// named returns the record with a name.
func (b *btfRecords) named(name string, r capi.BTFType) capi.BTFType {
	r.Name, r.NameLen = b.name(name)
	return r
}

func flagOf(flag bool) uint8 {
	if flag {
		return 1
	}
	return 0
}

// addItems adds the records of the items of a type, and returns the record of the type with them.
func addItems[T any](b *btfRecords, name string, r capi.BTFType, items []T, record func(it *T) capi.BTFItem) capi.BTFType {
	if len(items) > math.MaxUint16 || len(b.items) > math.MaxUint32-math.MaxUint16 {
		return b.refuse()
	}
	r.First, r.Items = uint32(len(b.items)), uint16(len(items))
	for i := range items {
		b.items = append(b.items, record(&items[i]))
	}
	return b.named(name, r)
}

func (b *btfRecords) member(it *Member) capi.BTFItem {
	offset, length := b.name(it.Name)
	return capi.BTFItem{
		Kind: C.BPFCANON_BTF_ITEM_KIND_MEMBER, Name: offset, NameLen: length, Target: uint32(it.Target),
		BitOffset: it.BitOffset, Width: uint32(it.Width),
	}
}

func (b *btfRecords) value(it *EnumValue) capi.BTFItem {
	offset, length := b.name(it.Name)
	return capi.BTFItem{Kind: C.BPFCANON_BTF_ITEM_KIND_ENUM_VALUE, Name: offset, NameLen: length, Value: it.Value}
}

// signedValue keeps a value that isn't one of 32 bits, for which the library refuses it.
func (b *btfRecords) signedValue(it *EnumValue) capi.BTFItem {
	r := b.value(it)
	if it.Value == uint64(int32(it.Value)) {
		r.Value = uint64(uint32(it.Value))
	} else {
		r.Value = math.MaxUint64
	}
	return r
}

func (b *btfRecords) value64(it *EnumValue) capi.BTFItem {
	r := b.value(it)
	r.Kind = C.BPFCANON_BTF_ITEM_KIND_ENUM64_VALUE
	return r
}

func (b *btfRecords) param(it *Param) capi.BTFItem {
	offset, length := b.name(it.Name)
	return capi.BTFItem{Kind: C.BPFCANON_BTF_ITEM_KIND_PARAM, Name: offset, NameLen: length, Target: uint32(it.Target)}
}

func (b *btfRecords) entry(it *Entry) capi.BTFItem {
	return capi.BTFItem{Kind: C.BPFCANON_BTF_ITEM_KIND_ENTRY, Target: uint32(it.Target), Offset: it.Offset, Size: it.Size}
}

// name returns where a name is in the strings, to which it adds a new one with a NUL, and its length.
func (b *btfRecords) name(name string) (offset, length uint32) {
	if name == "" {
		return 0, 0
	}
	if uint64(len(b.strings))+uint64(len(name)) >= math.MaxUint32 {
		b.refused = true
		return 0, 0
	}
	offset, ok := b.offsets[name]
	if !ok {
		offset = uint32(len(b.strings))
		b.offsets[name] = offset
		b.strings = append(append(b.strings, name...), 0)
	}
	return offset, uint32(len(name))
}
