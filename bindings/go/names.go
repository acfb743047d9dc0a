package bpfcanon

// names finds the types with a name: the first one, and from each type the next one.
type names struct {
	first map[string]ID
	next  []ID // by ID
}

// newNames returns the names of all types.
func newNames(b *BTF) names {
	it := names{make(map[string]ID, b.Len()), make([]ID, b.Len()+1)}
	for id := ID(b.Len()); id > 0; id-- {
		if name := b.nameOf(&b.types[id-1]); name != "" {
			it.next[id] = it.first[name]
			it.first[name] = id
		}
	}
	return it
}

// ByName returns the IDs of the types with this name in ascending order. There can be several, such
// as a struct and its typedef, and there is none for the empty name. The first call makes an index.
func (b *BTF) ByName(name string) []ID {
	b.index.Do(func() { b.byName = newNames(b) })
	var ids []ID
	for id := b.byName.first[name]; id != 0; id = b.byName.next[id] {
		ids = append(ids, id)
	}
	return ids
}
