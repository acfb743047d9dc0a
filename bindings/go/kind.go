package bpfcanon

// #include <bpfcanon.h>
import "C"

// A Kind is the kind of a type: which of the structs it is (btf.rst section 2.2).
type Kind uint8

// The kinds, each that of the struct with its name. Their numbers are those of btf.rst.
const (
	KindVoid      Kind = 0 // of the type with ID 0
	KindInt       Kind = C.BPFCANON_BTF_KIND_INT
	KindPtr       Kind = C.BPFCANON_BTF_KIND_PTR
	KindArray     Kind = C.BPFCANON_BTF_KIND_ARRAY
	KindStruct    Kind = C.BPFCANON_BTF_KIND_STRUCT
	KindUnion     Kind = C.BPFCANON_BTF_KIND_UNION
	KindEnum      Kind = C.BPFCANON_BTF_KIND_ENUM
	KindFwd       Kind = C.BPFCANON_BTF_KIND_FWD
	KindTypedef   Kind = C.BPFCANON_BTF_KIND_TYPEDEF
	KindVolatile  Kind = C.BPFCANON_BTF_KIND_VOLATILE
	KindConst     Kind = C.BPFCANON_BTF_KIND_CONST
	KindRestrict  Kind = C.BPFCANON_BTF_KIND_RESTRICT
	KindFunc      Kind = C.BPFCANON_BTF_KIND_FUNC
	KindFuncProto Kind = C.BPFCANON_BTF_KIND_FUNC_PROTO
	KindVar       Kind = C.BPFCANON_BTF_KIND_VAR
	KindDatasec   Kind = C.BPFCANON_BTF_KIND_DATASEC
	KindFloat     Kind = C.BPFCANON_BTF_KIND_FLOAT
	KindDeclTag   Kind = C.BPFCANON_BTF_KIND_DECL_TAG
	KindTypeTag   Kind = C.BPFCANON_BTF_KIND_TYPE_TAG
	KindEnum64    Kind = C.BPFCANON_BTF_KIND_ENUM64
)

var kindNames = map[Kind]string{
	KindVoid: "void", KindInt: "int", KindPtr: "ptr", KindArray: "array", KindStruct: "struct", KindUnion: "union",
	KindEnum: "enum", KindFwd: "fwd", KindTypedef: "typedef", KindVolatile: "volatile", KindConst: "const",
	KindRestrict: "restrict", KindFunc: "func", KindFuncProto: "func_proto", KindVar: "var", KindDatasec: "datasec",
	KindFloat: "float", KindDeclTag: "decl_tag", KindTypeTag: "type_tag", KindEnum64: "enum64",
}

// String returns the name of the kind, for example "func_proto".
func (k Kind) String() string { return nameOr(kindNames[k], "Kind", uint32(k)) }

// An Encoding is the encoding of an INT (btf.rst section 2.2.1).
type Encoding uint8

const (
	EncodingPlain  Encoding = C.BPFCANON_BTF_ENCODING_PLAIN  // no encoding bit: unsigned
	EncodingSigned Encoding = C.BPFCANON_BTF_ENCODING_SIGNED // BTF_INT_SIGNED
	EncodingChar   Encoding = C.BPFCANON_BTF_ENCODING_CHAR   // BTF_INT_CHAR: a character
	EncodingBool   Encoding = C.BPFCANON_BTF_ENCODING_BOOL   // BTF_INT_BOOL: a boolean
)

var encodingNames = map[Encoding]string{
	EncodingPlain: "plain", EncodingSigned: "signed", EncodingChar: "char", EncodingBool: "bool",
}

// String returns the name of the encoding, for example "signed".
func (e Encoding) String() string { return nameOr(encodingNames[e], "Encoding", uint32(e)) }

// A Linkage is the linkage of a function or a variable (btf.rst sections 2.2.12 and 2.2.14).
type Linkage uint8

// The linkages, with the numbers that BTF has for them.
const (
	LinkageStatic Linkage = C.BPFCANON_BTF_LINKAGE_STATIC
	LinkageGlobal Linkage = C.BPFCANON_BTF_LINKAGE_GLOBAL
	LinkageExtern Linkage = C.BPFCANON_BTF_LINKAGE_EXTERN
)

var linkageNames = map[Linkage]string{LinkageStatic: "static", LinkageGlobal: "global", LinkageExtern: "extern"}

// String returns the name of the linkage, for example "global".
func (l Linkage) String() string { return nameOr(linkageNames[l], "Linkage", uint32(l)) }
