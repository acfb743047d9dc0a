package bpfcanon

import "errors"

// ErrNoSuchType is returned if an ID is over the number of types.
var ErrNoSuchType = errors.New("bpfcanon: no type has this ID")

// ErrCycle is returned if a chain of types leads back to itself, such as a const of itself. BTF can
// have one.
var ErrCycle = errors.New("bpfcanon: the chain of types is a cycle")

// Resolve follows Const, Volatile, Restrict, Typedef and TypeTag to their target until it finds
// another type, and returns its ID: 0 if that is void, and the given ID if it is another type itself.
//
// Errors: ErrNoSuchType, ErrCycle.
func (b *BTF) Resolve(id ID) (ID, error) {
	// A chain that ends has each type at most once.
	for steps := 0; steps <= b.Len(); steps++ {
		kind, err := b.Kind(id)
		if err != nil || !isFollowed(kind) {
			return id, err
		}
		id = ID(b.types[id-1].Target)
	}
	return 0, ErrCycle
}

// isFollowed reports whether Resolve follows the target of a type.
func isFollowed(kind Kind) bool {
	switch kind {
	case KindConst, KindVolatile, KindRestrict, KindTypedef, KindTypeTag:
		return true
	}
	return false
}
