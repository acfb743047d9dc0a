package bpfcanon

import (
	"strconv"

	"bpfcanon/internal/capi"
)

// A Cause is the cause of a fault: an InsnCause, a LineCause, a BTFCause or an ObjectCause. As an error
// it is a sentence that says what is wrong. Each cause is its own sentinel:
// errors.Is(err, bpfcanon.ErrInsnOpcode).
type Cause interface {
	error
	// String returns the name of the cause in docs/FAULTS.md, for example "Opcode".
	String() string
}

// An InsnCause is the cause of a fault in instructions: the first field whose value fits no
// instruction with the fields before it. docs/FAULTS.md lists the rule of each cause and what to do
// about it.
type InsnCause uint32

const (
	ErrInsnTruncated InsnCause = iota + 1 // the input ends inside an instruction
	ErrInsnOpcode                         // no instruction has this opcode
	ErrInsnDst                            // no instruction with this opcode has this destination register
	ErrInsnSrc                            // no instruction with this opcode has this source register
	ErrInsnOffset                         // no instruction with this opcode and these registers has this offset
	ErrInsnImm                            // no instruction with this opcode, these registers and this offset has this immediate
	ErrInsnReserved                       // the second slot of a wide load has an opcode, a register or an offset that is not zero
	ErrInsnNextImm                        // the immediate of the second slot is not zero, and this kind of wide load has one number only
)

// A LineCause is the cause of a fault in a listing.
type LineCause uint32

const (
	ErrLineChar  LineCause = iota + 1 // a character that is neither blank nor part of a token
	ErrLineWord                       // no instruction has this mnemonic
	ErrLineShape                      // the operands are not those of the mnemonic
	ErrLineRange                      // a number is out of the range of its field
)

// A BTFCause is the cause of a fault in BTF. The names of fields are those of btf.rst.
type BTFCause uint32

const (
	ErrBTFShortHeader  BTFCause = iota + 1 // the file has fewer than 24 bytes
	ErrBTFMagic                            // the file does not begin with the BTF magic number in either byte order
	ErrBTFVersion                          // the version is not 1
	ErrBTFFlags                            // the flags are not 0
	ErrBTFHeaderLength                     // hdr_len is under 24, over 4,096 or over the length of the file
	ErrBTFHeaderTail                       // a byte of the header after the first 24 is not 0
	ErrBTFTypeLength                       // type_len is over 33,554,432
	ErrBTFStringLength                     // str_len is 0 or over 16,777,216
	ErrBTFSections                         // the type and string sections do not follow the header one directly after the other
	ErrBTFFileLength                       // hdr_len, type_len and str_len do not add up to the length of the file
	ErrBTFFirstString                      // the first byte of the string section is not NUL
	ErrBTFLastString                       // the last byte of the string section is not NUL
	ErrBTFRecordCut                        // the type section ends inside the first three words of a record
	ErrBTFInfoBits                         // an unused bit of info is set
	ErrBTFKindNumber                       // the kind is 0 or over 19
	ErrBTFFlagSet                          // kind_flag is set on a kind that has none
	ErrBTFVlen                             // vlen is not 0 on a kind without items
	ErrBTFTailCut                          // the type section ends inside the data after the first three words of a record
	ErrBTFNameRange                        // name_off is not inside the string section
	ErrBTFNameUTF8                         // the name is not valid UTF-8
	ErrBTFNameMissing                      // a type of this kind needs a name
	ErrBTFNameUnwanted                     // a type of this kind has no name
	ErrBTFTextsTooLong                     // never reported: the number is kept
	ErrBTFNotZero                          // the third word of an ARRAY or FWD is not 0
	ErrBTFSize                             // no type of this kind has this size
	ErrBTFReference                        // the type ID is over the number of types
	ErrBTFTargetKind                       // the type that is referred to has the wrong kind
	ErrBTFIntWord                          // the encoding, offset and bits of the INT are not valid
	ErrBTFMemberInt                        // a record with bit-fields has a member whose INT has an offset, or a width other than 8, 16, 32, 64 or 128 bits
	ErrBTFMemberPlace                      // the member ends after the end of its struct or union
	ErrBTFLinkage                          // the linkage is over 2
	ErrBTFComponent                        // component_idx is neither -1 nor the index of a member or parameter of the tagged type
)

// An ObjectCause is the cause of a fault in an object file. A fault of .BTF by itself has a BTFCause.
type ObjectCause uint32

const (
	ErrObjectFileTooLarge          ObjectCause = iota + 101 // the file is longer than 64 MiB
	ErrObjectFileCut                                        // the file is shorter than an ELF header
	ErrObjectMagic                                          // the file doesn't begin with the magic number of ELF
	ErrObjectClass                                          // the file isn't a 64-bit ELF file
	ErrObjectByteOrder                                      // the file states no byte order
	ErrObjectIdentVersion                                   // EI_VERSION isn't 1
	ErrObjectFileType                                       // the file isn't relocatable
	ErrObjectMachine                                        // the file isn't for BPF
	ErrObjectFileVersion                                    // e_version isn't 1
	ErrObjectHeaderSize                                     // e_ehsize isn't 64
	ErrObjectSegments                                       // there are program headers
	ErrObjectSectionHeaderSize                              // e_shentsize isn't 64
	ErrObjectSectionCount                                   // the number of sections is 0, or 0xff00 or more
	ErrObjectSectionTable                                   // the section header table isn't inside the file
	ErrObjectNamesIndex                                     // e_shstrndx isn't the index of a section
	ErrObjectFirstSection                                   // the first section header isn't all zeros
	ErrObjectNamesTable                                     // the names of sections aren't in a string table
	ErrObjectSectionCut                                     // the section extends past the end of the file
	ErrObjectSectionName                                    // the section's name is outside the names, or longer than 1,024 bytes
	ErrObjectSectionKind                                    // a section of this type, name and flags can't be kept or dropped
	ErrObjectSectionTwice                                   // there is a second .symtab, .BTF or .BTF.ext
	ErrObjectRelocationTarget                               // the table of relocations isn't named after its section, or that isn't code or data
	ErrObjectNoSymbols                                      // there is no symbol table
	ErrObjectSymbolTableSize                                // the size of the symbol table is 0 or not a multiple of 24
	ErrObjectSymbolEntrySize                                // sh_entsize of the symbol table isn't 24
	ErrObjectSymbolNames                                    // the names of symbols aren't in a string table
	ErrObjectFirstSymbol                                    // the first symbol isn't all zeros
	ErrObjectSymbolName                                     // the symbol's name is outside the names of symbols
	ErrObjectSymbolSection                                  // the symbol's section doesn't exist, or isn't code or data and the symbol isn't local
	ErrObjectSymbolPlace                                    // the symbol extends past the end of its section
	ErrObjectRelocationTableSize                            // the size of the table of relocations isn't a multiple of 16
	ErrObjectRelocationEntrySize                            // sh_entsize of the table of relocations isn't 16
	ErrObjectRelocationSymbols                              // sh_link of the table of relocations isn't the symbol table
	ErrObjectRelocationSymbol                               // the relocation's symbol isn't in the symbol table, is a source file or a label, or is in a section that isn't code or data
	ErrObjectTypesTooLarge                                  // .BTF has more than 15,728,640 bytes
	ErrObjectTypesOrder                                     // the byte order of .BTF isn't that of the file
	ErrObjectTypesLayout                                    // type_off of .BTF isn't 0
	ErrObjectTypesName                                      // a name_off of .BTF that isn't 0 leads to an empty string, or to a name that is too long
	ErrObjectTypesSection                                   // a DATASEC has a reserved name
	ErrObjectTypesFlag                                      // the kind_flag of a struct or union without bit-fields isn't 0
	ErrObjectExtensionWithoutTypes                          // there is a .BTF.ext, and no .BTF
	ErrObjectExtensionCut                                   // .BTF.ext has fewer than 32 bytes
	ErrObjectExtensionMagic                                 // .BTF.ext doesn't begin with its magic number in the byte order of the file
	ErrObjectExtensionVersion                               // the version of .BTF.ext isn't 1
	ErrObjectExtensionFlags                                 // the flags of .BTF.ext aren't 0
	ErrObjectExtensionHeaderSize                            // hdr_len of .BTF.ext is under 32, or not less than the section
	ErrObjectExtensionPart                                  // a part of .BTF.ext isn't inside the section, or not aligned to 4 bytes
	ErrObjectExtensionRecordSize                            // the record size of a part of .BTF.ext isn't 8 (functions) or 16 (lines, CO-RE relocations)
	ErrObjectExtensionGroup                                 // a group of records extends past the end of its part, or is empty
	ErrObjectExtensionString                                // a string of .BTF.ext isn't inside the strings of .BTF, or is too long for the name of a section
	ErrObjectExtensionLines                                 // functions and source lines of .BTF.ext don't match
	ErrObjectResultTooLarge                                 // the canonical file has more than 64 MiB, or more than four times the file and 64 KiB, or its .BTF more than 15 MiB
	ErrObjectSectionsTooLarge                               // the sections that are kept are together longer than the file
	ErrObjectSymbolDropped                                  // the symbol is dropped, but has a visibility, a value or a name that a loader may read
	ErrObjectExtensionGroupTwice                            // a second group of functions has the same section
	ErrObjectFunctionLines                                  // there are source lines of a function that .BTF.ext doesn't have
	ErrObjectTypesNameTaken                                 // a VAR has the name of a FUNC, or a VAR, FWD or TYPE_TAG has the name of a section
)

// String returns the name of the cause, for example "Opcode", or "InsnCause(999)" for a number
// without a name.
func (c InsnCause) String() string {
	return nameOr(capi.InsnCauseName(uint32(c)), "InsnCause", uint32(c))
}

// Error returns a sentence that explains the cause, for example "no instruction has this opcode".
func (c InsnCause) Error() string {
	return nameOr(capi.InsnCauseText(uint32(c)), "InsnCause", uint32(c))
}

// String returns the name of the cause, for example "Shape", or "LineCause(999)" for a number
// without a name.
func (c LineCause) String() string {
	return nameOr(capi.LineCauseName(uint32(c)), "LineCause", uint32(c))
}

// Error returns a sentence that explains the cause, for example "no instruction has this mnemonic".
func (c LineCause) Error() string {
	return nameOr(capi.LineCauseText(uint32(c)), "LineCause", uint32(c))
}

// String returns the name of the cause, for example "Magic", or "BTFCause(999)" for a number
// without a name.
func (c BTFCause) String() string {
	return nameOr(capi.BTFCauseName(uint32(c)), "BTFCause", uint32(c))
}

// Error returns a sentence that explains the cause, for example "the version is not 1".
func (c BTFCause) Error() string {
	return nameOr(capi.BTFCauseText(uint32(c)), "BTFCause", uint32(c))
}

// String returns the name of the cause, for example "SectionCut", or "ObjectCause(999)" for a number
// without a name.
func (c ObjectCause) String() string {
	return nameOr(capi.ObjectCauseName(uint32(c)), "ObjectCause", uint32(c))
}

// Error returns a sentence that explains the cause, for example "the file isn't for BPF".
func (c ObjectCause) Error() string {
	return nameOr(capi.ObjectCauseText(uint32(c)), "ObjectCause", uint32(c))
}

// nameOr returns the name, or the type with the number if the library has no name for it.
func nameOr(name, kind string, number uint32) string {
	if name == "" {
		return kind + "(" + strconv.FormatUint(uint64(number), 10) + ")"
	}
	return name
}
