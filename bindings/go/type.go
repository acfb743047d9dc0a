package bpfcanon

// An ID is the number of a type in its BTF. Types count from 1, and 0 is void.
type ID uint32

// A Type is a type of BTF (btf.rst section 2.2; section numbers are those of this document): one of
// the structs Void to Enum64. A Name is UTF-8, and empty if the type has none. A Size is in bytes. A
// Target is the ID of the type that this one refers to. reflect.DeepEqual compares types; ==
// panics for those that have members, values, parameters or entries, since these are slices.
type Type interface {
	// Kind returns which of the structs the type is.
	Kind() Kind
}

// Void is the type with ID 0.
type Void struct{}

// An Int is an integer: Bits is its number of bits, and BitOffset is where they start (section
// 2.2.1).
type Int struct {
	Name            string
	Size            uint32
	Encoding        Encoding
	BitOffset, Bits uint8
}

// A Ptr is a pointer to Target (section 2.2.2).
type Ptr struct{ Target ID }

// An Array is an array of Count elements of type Target; Index is the ID of the type of its index
// (section 2.2.3).
type Array struct {
	Target, Index ID
	Count         uint32
}

// A Struct is a struct with its members (section 2.2.4).
type Struct struct {
	Name    string
	Size    uint32
	Members []Member
}

// A Union is a union with its members (section 2.2.5).
type Union struct {
	Name    string
	Size    uint32
	Members []Member
}

// An Enum is an enum with its 32-bit values (section 2.2.6). Signed is its kind_flag.
type Enum struct {
	Name   string
	Signed bool
	Size   uint32
	Values []EnumValue
}

// A Fwd is a forward declaration of a union or a struct (section 2.2.7).
type Fwd struct {
	Name    string
	IsUnion bool
}

// A Typedef is a typedef of Target (section 2.2.8).
type Typedef struct {
	Name   string
	Target ID
}

// A Volatile is a volatile Target (section 2.2.9).
type Volatile struct{ Target ID }

// A Const is a const Target (section 2.2.10).
type Const struct{ Target ID }

// A Restrict is a restrict Target (section 2.2.11).
type Restrict struct{ Target ID }

// A Func is a function; Target is its FuncProto (section 2.2.12).
type Func struct {
	Name    string
	Linkage Linkage
	Target  ID
}

// A FuncProto is a function prototype, which returns Target (section 2.2.13).
type FuncProto struct {
	Target ID
	Params []Param
}

// A Var is a variable of type Target (section 2.2.14).
type Var struct {
	Name    string
	Target  ID
	Linkage Linkage
}

// A Datasec is a data section (section 2.2.15).
type Datasec struct {
	Name    string
	Size    uint32
	Entries []Entry
}

// A Float is a floating-point number (section 2.2.16).
type Float struct {
	Name string
	Size uint32
}

// WholeType is the Component of a DeclTag that tags its complete Target.
const WholeType = -1

// A DeclTag is a declaration tag (section 2.2.17). Component is the index, counted from 0, of the
// member or parameter of Target that it tags, or WholeType. Flag is its kind_flag.
type DeclTag struct {
	Name      string
	Flag      bool
	Target    ID
	Component int
}

// A TypeTag is a type tag of Target (section 2.2.18). Flag is its kind_flag.
type TypeTag struct {
	Name   string
	Flag   bool
	Target ID
}

// An Enum64 is an enum with its 64-bit values (section 2.2.19). Signed is its kind_flag.
type Enum64 struct {
	Name   string
	Signed bool
	Size   uint32
	Values []EnumValue
}

func (Void) Kind() Kind      { return KindVoid }
func (Int) Kind() Kind       { return KindInt }
func (Ptr) Kind() Kind       { return KindPtr }
func (Array) Kind() Kind     { return KindArray }
func (Struct) Kind() Kind    { return KindStruct }
func (Union) Kind() Kind     { return KindUnion }
func (Enum) Kind() Kind      { return KindEnum }
func (Fwd) Kind() Kind       { return KindFwd }
func (Typedef) Kind() Kind   { return KindTypedef }
func (Volatile) Kind() Kind  { return KindVolatile }
func (Const) Kind() Kind     { return KindConst }
func (Restrict) Kind() Kind  { return KindRestrict }
func (Func) Kind() Kind      { return KindFunc }
func (FuncProto) Kind() Kind { return KindFuncProto }
func (Var) Kind() Kind       { return KindVar }
func (Datasec) Kind() Kind   { return KindDatasec }
func (Float) Kind() Kind     { return KindFloat }
func (DeclTag) Kind() Kind   { return KindDeclTag }
func (TypeTag) Kind() Kind   { return KindTypeTag }
func (Enum64) Kind() Kind    { return KindEnum64 }
