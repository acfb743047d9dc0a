//! Canonical BPF object files, and keys of object files.
//!
//! A canonical file is an object file that loaders read like the original, except for source lines.
//! Two accepted files hold the same parts if and only if their canonical files are equal.
//! `docs/OBJECTS.md` defines the file and the causes for which an object file is refused, and says
//! what is proved and which loaders were compared.
//!
//! No call holds a file, a path or a state. A loader passes the bytes that it then loads, so that
//! nobody can exchange a file between the check and the load.
//!
//! ```
//! use bpfcanon::object;
//!
//! let file = std::fs::read("../../testdata/objects/pass.little.debug.o")?;
//! let canonical = object::canon(&file)?;
//! assert!(object::same(&file, &canonical)?);
//! assert_eq!(object::key(&file)?, object::key(&canonical)?);
//! assert!(canonical.len() < file.len());
//!
//! let error = object::check(&file[..100]).unwrap_err();
//! let fault = error.fault().unwrap();
//! assert_eq!((fault.offset(), fault.cause()), (40, object::Cause::SectionTable));
//! # Ok::<(), Box<dyn std::error::Error>>(())
//! ```

use crate::{btf, call, sys};

/// The error of a call on object files. Offsets count from the first byte of the file.
pub type Error = crate::Error<Cause>;

/// The length in bytes of the longest object file that is accepted, and of the longest canonical
/// one: 64 MiB.
pub const MAX: usize = sys::BPFCANON_OBJECT_MAX as usize;

/// The length of a key in bytes.
pub const KEY_SIZE: usize = sys::BPFCANON_KEY_SIZE as usize;

call::causes! {
    /// Why an object file is refused. `docs/OBJECTS.md` has the rule of each cause.
    Cause, "byte", offset, sys::bpfcanon_object_cause_name, sys::bpfcanon_object_cause_text;
    /// The file is longer than 64 MiB.
    FileTooLarge = 101,
    /// The file is shorter than an ELF header.
    FileCut = 102,
    /// The file doesn't begin with the magic number of ELF.
    Magic = 103,
    /// The file isn't a 64-bit ELF file.
    Class = 104,
    /// The file states no byte order.
    ByteOrder = 105,
    /// `EI_VERSION` isn't 1.
    IdentVersion = 106,
    /// The file isn't relocatable.
    FileType = 107,
    /// The file isn't for BPF.
    Machine = 108,
    /// `e_version` isn't 1.
    FileVersion = 109,
    /// `e_ehsize` isn't 64.
    HeaderSize = 110,
    /// There are program headers.
    Segments = 111,
    /// `e_shentsize` isn't 64.
    SectionHeaderSize = 112,
    /// The number of sections is 0, or 0xff00 or more.
    SectionCount = 113,
    /// The section header table isn't inside the file.
    SectionTable = 114,
    /// `e_shstrndx` isn't the index of a section.
    NamesIndex = 115,
    /// The first section header isn't all zeros.
    FirstSection = 116,
    /// The names of sections aren't in a string table.
    NamesTable = 117,
    /// The section extends past the end of the file.
    SectionCut = 118,
    /// The section's name is outside the names, or longer than 1,024 bytes.
    SectionName = 119,
    /// A section of this type, name and flags can't be kept or dropped.
    SectionKind = 120,
    /// There is a second .symtab, `.BTF` or `.BTF.ext`.
    SectionTwice = 121,
    /// The table of relocations isn't named after its section, or that isn't code or data.
    RelocationTarget = 122,
    /// There is no symbol table.
    NoSymbols = 123,
    /// The size of the symbol table is 0 or not a multiple of 24.
    SymbolTableSize = 124,
    /// `sh_entsize` of the symbol table isn't 24.
    SymbolEntrySize = 125,
    /// The names of symbols aren't in a string table.
    SymbolNames = 126,
    /// The first symbol isn't all zeros.
    FirstSymbol = 127,
    /// The symbol's name is outside the names of symbols.
    SymbolName = 128,
    /// The symbol's section doesn't exist, or isn't code or data and the symbol isn't local.
    SymbolSection = 129,
    /// The symbol extends past the end of its section.
    SymbolPlace = 130,
    /// The size of the table of relocations isn't a multiple of 16.
    RelocationTableSize = 131,
    /// `sh_entsize` of the table of relocations isn't 16.
    RelocationEntrySize = 132,
    /// `sh_link` of the table of relocations isn't the symbol table.
    RelocationSymbols = 133,
    /// The relocation's symbol isn't in the symbol table, is a source file or a label, or is in a
    /// section that isn't code or data.
    RelocationSymbol = 134,
    /// `.BTF` has more than 15,728,640 bytes.
    TypesTooLarge = 135,
    /// The byte order of `.BTF` isn't that of the file.
    TypesOrder = 136,
    /// `type_off` of `.BTF` isn't 0.
    TypesLayout = 137,
    /// A `name_off` of `.BTF` that isn't 0 leads to an empty string, or to a name that is too long.
    TypesName = 138,
    /// A DATASEC has a reserved name.
    TypesSection = 139,
    /// The `kind_flag` of a struct or union without bit-fields isn't 0.
    TypesFlag = 140,
    /// There is a `.BTF.ext`, and no `.BTF`.
    ExtensionWithoutTypes = 141,
    /// `.BTF.ext` has fewer than 32 bytes.
    ExtensionCut = 142,
    /// `.BTF.ext` doesn't begin with its magic number in the byte order of the file.
    ExtensionMagic = 143,
    /// The version of `.BTF.ext` isn't 1.
    ExtensionVersion = 144,
    /// The flags of `.BTF.ext` aren't 0.
    ExtensionFlags = 145,
    /// `hdr_len` of `.BTF.ext` is under 32, or not less than the section.
    ExtensionHeaderSize = 146,
    /// A part of `.BTF.ext` isn't inside the section, or not aligned to 4 bytes.
    ExtensionPart = 147,
    /// The record size of a part of `.BTF.ext` isn't 8 (functions) or 16 (lines, CO-RE
    /// relocations).
    ExtensionRecordSize = 148,
    /// A group of records extends past the end of its part, or is empty.
    ExtensionGroup = 149,
    /// A string of `.BTF.ext` isn't inside the strings of `.BTF`, or is too long for the name of a
    /// section.
    ExtensionString = 150,
    /// Functions and source lines of `.BTF.ext` don't match.
    ExtensionLines = 151,
    /// The canonical file has more than 64 MiB, or more than four times the file and 64 KiB, or its
    /// `.BTF` more than 15 MiB.
    ResultTooLarge = 152,
    /// The sections that are kept are together longer than the file.
    SectionsTooLarge = 153,
    /// The symbol is dropped, but has a visibility, a value or a name that a loader may read.
    SymbolDropped = 154,
    /// A second group of functions has the same section.
    ExtensionGroupTwice = 155,
    /// There are source lines of a function that `.BTF.ext` doesn't have.
    FunctionLines = 156,
    /// A VAR has the name of a FUNC, or a VAR, FWD or `TYPE_TAG` has the name of a section.
    TypesNameTaken = 157,
    ;
    /// `.BTF` has this fault by itself.
    Types(btf::Cause) below 101
}

/// Returns the canonical file of an object file. It may be longer than that.
///
/// # Errors
///
/// The first fault of the file, or out of memory.
pub fn canon(file: &[u8]) -> Result<Vec<u8>, Error> {
    written(file, file.len(), sys::bpfcanon_object_canon)
}

/// Returns the SHA-256 of the canonical file of an object file.
///
/// # Errors
///
/// The first fault of the file, or out of memory.
pub fn key(file: &[u8]) -> Result<[u8; KEY_SIZE], Error> {
    let key = written(file, KEY_SIZE, sys::bpfcanon_object_key)?;
    Ok(key.try_into().expect("a key has 32 bytes"))
}

/// Returns whether two object files hold the same parts, that is, whether their canonical files are
/// equal.
///
/// # Errors
///
/// The first fault of the first file; if it has none, that of the second; or out of memory.
pub fn same(first: &[u8], second: &[u8]) -> Result<bool, Error> {
    // SAFETY: the slices are valid for the call.
    let answer = unsafe {
        sys::bpfcanon_object_same(first.as_ptr(), first.len(), second.as_ptr(), second.len())
    };
    call::comparison(&answer)
}

/// Checks that an object file has a canonical file. Its instructions aren't checked.
///
/// # Errors
///
/// The first fault of the file, or out of memory.
pub fn check(file: &[u8]) -> Result<(), Error> {
    // SAFETY: the slice is valid for the call.
    let answer = unsafe { sys::bpfcanon_object_check(file.as_ptr(), file.len()) };
    call::done(answer).map(drop)
}

/// A call that writes what it makes of an object file.
type Call = unsafe extern "C" fn(*const u8, usize, *mut u8, usize) -> sys::bpfcanon_answer;

fn written(file: &[u8], capacity: usize, call: Call) -> Result<Vec<u8>, Error> {
    call::output(capacity, |out, capacity| {
        // SAFETY: the slice and the buffer are valid for the call, and don't overlap.
        unsafe { call(file.as_ptr(), file.len(), out, capacity) }
    })
}
