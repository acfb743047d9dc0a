package bpfcanon

import "bpfcanon/internal/capi"

// A Member is a member of a struct or union (btf.rst section 2.2.4). BitOffset counts bits from the
// start of the struct or union. Width is the number of bits of a bit-field, and 0 for other members.
type Member struct {
	Name      string
	Target    ID
	BitOffset uint32
	Width     uint8
}

// An EnumValue is a value of an Enum or an Enum64 (btf.rst sections 2.2.6 and 2.2.19) as 64 bits: if
// the enum is signed, the value is int64(Value).
type EnumValue struct {
	Name  string
	Value uint64
}

// A Param is a parameter of a function prototype (btf.rst section 2.2.13). The last one has neither
// a name nor a target if it stands for variable arguments.
type Param struct {
	Name   string
	Target ID
}

// An Entry is a variable or function in a data section (btf.rst section 2.2.15). Offset is in bytes
// from the start of the section, and Size is in bytes.
type Entry struct {
	Target       ID
	Offset, Size uint32
}

// itemArrays are arrays of items that no type has yet. To allocate some for many types at once takes
// half the time.
type itemArrays struct {
	least   int // how many are allocated at once
	members []Member
	values  []EnumValue
	params  []Param
	entries []Entry
}

// itemsOf returns the items of a type, each made of its record and its name, and nil without items.
// They are from an array that has space for them, or from a new one.
func itemsOf[T any](b *BTF, r *capi.BTFType, least int, array *[]T, itemOf func(it *capi.BTFItem, name string) T) []T {
	count := int(r.Items)
	if count == 0 {
		return nil
	}
	if len(*array) < count {
		*array = make([]T, least+count)
	}
	// An append to the items of a type must not write to those of the next one.
	items := (*array)[:count:count]
	*array = (*array)[count:]
	records := b.items[r.First:]
	for i := range items {
		it := &records[i]
		items[i] = itemOf(it, b.text[it.Name:it.Name+it.NameLen])
	}
	return items
}

func memberOf(it *capi.BTFItem, name string) Member {
	return Member{name, ID(it.Target), it.BitOffset, uint8(it.Width)}
}

func enumValueOf(it *capi.BTFItem, name string) EnumValue {
	return EnumValue{name, it.Value}
}

// signedValueOf returns a value of a signed Enum, whose record has 32 bits of it.
func signedValueOf(it *capi.BTFItem, name string) EnumValue {
	return EnumValue{name, uint64(int32(it.Value))}
}

func paramOf(it *capi.BTFItem, name string) Param {
	return Param{name, ID(it.Target)}
}

func entryOf(it *capi.BTFItem, _ string) Entry {
	return Entry{ID(it.Target), it.Offset, it.Size}
}
