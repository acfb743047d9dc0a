package bpfcanon

import "bpfcanon/internal/capi"

// checkKinds returns an error for the first record of a kind that this package doesn't know.
func checkKinds(records []capi.BTFType) error {
	for i := range records {
		if kind := Kind(records[i].Kind); kind < KindInt || kind > KindEnum64 {
			return &UnknownRecordError{i}
		}
	}
	return nil
}

// typeOf returns the type that a decoded record says, with items from arrays. Its kind is a known one.
func (b *BTF) typeOf(r *capi.BTFType, arrays *itemArrays) Type {
	target := ID(r.Target)
	switch Kind(r.Kind) {
	case KindPtr:
		return Ptr{target}
	case KindArray:
		return Array{target, ID(r.IndexType), r.Elements}
	case KindVolatile:
		return Volatile{target}
	case KindConst:
		return Const{target}
	case KindRestrict:
		return Restrict{target}
	case KindFuncProto:
		return FuncProto{target, itemsOf(b, r, arrays.least, &arrays.params, paramOf)}
	}
	return b.namedOf(r, arrays)
}

// namedOf returns the type that the record of a kind with a name says.
func (b *BTF) namedOf(r *capi.BTFType, arrays *itemArrays) Type {
	name, target, flag, linkage := b.nameOf(r), ID(r.Target), r.Flag == 1, Linkage(r.Linkage)
	switch Kind(r.Kind) {
	case KindInt:
		return Int{name, r.Size, Encoding(r.Encoding), r.BitOffset, r.Bits}
	case KindStruct:
		return Struct{name, r.Size, itemsOf(b, r, arrays.least, &arrays.members, memberOf)}
	case KindUnion:
		return Union{name, r.Size, itemsOf(b, r, arrays.least, &arrays.members, memberOf)}
	case KindEnum:
		valueOf := enumValueOf
		if flag {
			valueOf = signedValueOf
		}
		return Enum{name, flag, r.Size, itemsOf(b, r, arrays.least, &arrays.values, valueOf)}
	case KindFwd:
		return Fwd{name, flag}
	case KindTypedef:
		return Typedef{name, target}
	case KindFunc:
		return Func{name, linkage, target}
	case KindVar:
		return Var{name, target, linkage}
	case KindDatasec:
		return Datasec{name, r.Size, itemsOf(b, r, arrays.least, &arrays.entries, entryOf)}
	case KindFloat:
		return Float{name, r.Size}
	case KindDeclTag:
		return DeclTag{name, flag, target, int(r.Component)}
	case KindTypeTag:
		return TypeTag{name, flag, target}
	}
	return Enum64{name, flag, r.Size, itemsOf(b, r, arrays.least, &arrays.values, enumValueOf)}
}
