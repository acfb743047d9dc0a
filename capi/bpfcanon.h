/*
 * bpfcanon: canonical bytes of BPF instructions (RFC 9669), of BTF (Linux
 * Documentation/bpf/btf.rst) and of BPF object files, listings and comparison. The manual is
 * bpfcanon(3).
 *
 * What is proved. Each call under "Calls on the caller's memory" is a few lines of C (bpfcanon.c)
 * around a call that is written in Rattle and proved to meet its contract (crates/bpfcanon_c). The
 * C replaces a null pointer whose length is 0 by an address of its own, refuses arrays of records
 * that aren't aligned, and passes everything else on. The C is tested and not proved; so are the
 * calls that allocate, the inline functions and macros, the names and the version.
 *
 * Obligations of the caller, which no call checks:
 *   - An input points to `len` readable bytes and `out` to `capacity` writable ones, for as long as
 *     the call runs. Either may be NULL if its length is 0. NULL with a length is an access to
 *     address 0. The bytes of `out` may be uninitialised: no call reads one before it writes it.
 *   - The `out`, `types` and `items` of a call with `_new` in its name are not NULL: the call sets
 *     each of them, even if you need only one.
 *   - No output overlaps an input or another output.
 *   - While a call runs, no other thread writes to its inputs, and none reads or writes its `out`.
 *   - malloc, realloc and free belong to one allocator, any thread may call them, and malloc aligns
 *     to 16 bytes.
 *   - No call is made from a signal handler, or in the child of a fork of a process with threads.
 *
 * Calls have no shared state. Any number of threads may call at the same time, even with the same
 * inputs, and a thread may free a block that another one got.
 *
 * Limits. No call limits the length of instructions or of a listing: the limits of the command
 * bpfcanon(1) are its own. BTF has the limits of its format, see BPFCANON_BTF_MAX, and object files
 * have BPFCANON_OBJECT_MAX.
 *
 * All lengths, offsets and capacities are in bytes, except that those of arrays of records are in
 * records. An offset counts from the first byte of its input.
 *
 * Records. bpfcanon_insn, bpfcanon_btf_type and bpfcanon_btf_item have integers as fields and no
 * padding, so that they can be compared and hashed as bytes. They will not grow: a new field would
 * be in a new struct. Arrays of them are aligned as C aligns them: to 4 bytes for
 * bpfcanon_btf_type, and to 8 for the others.
 *
 * Encodings. Listings that are written, and the names and sentences of causes and statuses, are
 * ASCII. A listing that is read is ASCII too, except in its comments, which may have any bytes: any
 * other byte outside a comment is a fault. Type listings are UTF-8, because names are.
 *
 * Platforms. Linux on x86-64-v2, that is with SSE4.2 and POPCNT, or on any little-endian 64-bit ARM
 * (aarch64). On an older x86-64 processor the library ends its process when it is loaded, with a
 * sentence on standard error and status 3.
 */
#ifndef BPFCANON_H
#define BPFCANON_H

#include <stddef.h>
#include <stdint.h>
#include <string.h>

#ifdef __cplusplus
extern "C" {
#endif

/*
 * The version of this header, also as one number: 1,002,003 is 1.2.3. bpfcanon_version() returns
 * that of the library. docs/API.md says what a version may change.
 */
#define BPFCANON_VERSION_MAJOR 0
#define BPFCANON_VERSION_MINOR 1
#define BPFCANON_VERSION_PATCH 0
#define BPFCANON_VERSION "0.1.0"
#define BPFCANON_VERSION_NUMBER \
	(BPFCANON_VERSION_MAJOR * 1000000 + BPFCANON_VERSION_MINOR * 1000 + BPFCANON_VERSION_PATCH)

/* The longest valid BTF: a 4,096-byte header, 32 MiB of types, 16 MiB of strings. */
#define BPFCANON_BTF_MAX 50335744

/* The longest object file that is accepted, and the longest canonical one: 64 MiB. */
#define BPFCANON_OBJECT_MAX 67108864

/* The length of the key of an object file, a SHA-256. */
#define BPFCANON_KEY_SIZE 32

/* A byte order. Instructions don't state their own; BTF does. Little-endian is canonical. */
enum bpfcanon_order {
	BPFCANON_ORDER_LITTLE = 0,
	BPFCANON_ORDER_BIG = 1
};

/*
 * How a call ended. The comment says which fields of the answer are set; the others are 0. If
 * several apply, BPFCANON_STATUS_ALIGNMENT comes first, then BPFCANON_STATUS_ORDER,
 * BPFCANON_STATUS_FAULT and BPFCANON_STATUS_ROOM; from bpfcanon_insn_front BPFCANON_STATUS_ROOM
 * comes before BPFCANON_STATUS_FAULT.
 */
enum bpfcanon_status {
	/* done: the fields that the call sets; or two inputs are the same */
	BPFCANON_STATUS_DONE = 0,
	/* two inputs are different */
	BPFCANON_STATUS_DIFFERENT = 1,
	/* the input, or the first of two, has a fault: `cause`, with `offset`, or `line` in a listing */
	BPFCANON_STATUS_FAULT = 2,
	/* the second of two inputs has a fault and the first has none: `cause` and `offset` */
	BPFCANON_STATUS_FAULT_SECOND = 3,
	/* out of memory */
	BPFCANON_STATUS_OUT_OF_MEMORY = 4,
	/* the output is longer than `capacity`, nothing was written: `needed`, of btf_decode `types` */
	BPFCANON_STATUS_ROOM = 5,
	/* an argument is not a valid byte order */
	BPFCANON_STATUS_ORDER = 6,
	/* an array of records, even an empty one, is not aligned: nothing was read */
	BPFCANON_STATUS_ALIGNMENT = 7
};

/*
 * The causes of faults of instructions. Their numbers are 1 to BPFCANON_INSN_CAUSE_MAX, and
 * likewise below. A later version of the library may have more causes; they follow the last of
 * these.
 */
enum bpfcanon_insn_cause {
	BPFCANON_INSN_CAUSE_TRUNCATED = 1,
	BPFCANON_INSN_CAUSE_OPCODE = 2,
	BPFCANON_INSN_CAUSE_DST = 3,
	BPFCANON_INSN_CAUSE_SRC = 4,
	BPFCANON_INSN_CAUSE_OFFSET = 5,
	BPFCANON_INSN_CAUSE_IMM = 6,
	BPFCANON_INSN_CAUSE_RESERVED = 7,
	BPFCANON_INSN_CAUSE_NEXT_IMM = 8
};
#define BPFCANON_INSN_CAUSE_MAX 8

/* The causes of faults of listings, which bpfcanon_insn_read reports. */
enum bpfcanon_line_cause {
	BPFCANON_LINE_CAUSE_CHAR = 1,
	BPFCANON_LINE_CAUSE_WORD = 2,
	BPFCANON_LINE_CAUSE_SHAPE = 3,
	BPFCANON_LINE_CAUSE_RANGE = 4
};
#define BPFCANON_LINE_CAUSE_MAX 4

/* The causes of faults of BTF. */
enum bpfcanon_btf_cause {
	BPFCANON_BTF_CAUSE_SHORT_HEADER = 1,
	BPFCANON_BTF_CAUSE_MAGIC = 2,
	BPFCANON_BTF_CAUSE_VERSION = 3,
	BPFCANON_BTF_CAUSE_FLAGS = 4,
	BPFCANON_BTF_CAUSE_HEADER_LENGTH = 5,
	BPFCANON_BTF_CAUSE_HEADER_TAIL = 6,
	BPFCANON_BTF_CAUSE_TYPE_LENGTH = 7,
	BPFCANON_BTF_CAUSE_STRING_LENGTH = 8,
	BPFCANON_BTF_CAUSE_SECTIONS = 9,
	BPFCANON_BTF_CAUSE_FILE_LENGTH = 10,
	BPFCANON_BTF_CAUSE_FIRST_STRING = 11,
	BPFCANON_BTF_CAUSE_LAST_STRING = 12,
	BPFCANON_BTF_CAUSE_RECORD_CUT = 13,
	BPFCANON_BTF_CAUSE_INFO_BITS = 14,
	BPFCANON_BTF_CAUSE_KIND_NUMBER = 15,
	BPFCANON_BTF_CAUSE_FLAG_SET = 16,
	BPFCANON_BTF_CAUSE_VLEN = 17,
	BPFCANON_BTF_CAUSE_TAIL_CUT = 18,
	BPFCANON_BTF_CAUSE_NAME_RANGE = 19,
	BPFCANON_BTF_CAUSE_NAME_UTF8 = 20,
	BPFCANON_BTF_CAUSE_NAME_MISSING = 21,
	BPFCANON_BTF_CAUSE_NAME_UNWANTED = 22,
	BPFCANON_BTF_CAUSE_TEXTS_TOO_LONG = 23, /* never reported */
	BPFCANON_BTF_CAUSE_NOT_ZERO = 24,
	BPFCANON_BTF_CAUSE_SIZE = 25,
	BPFCANON_BTF_CAUSE_REFERENCE = 26,
	BPFCANON_BTF_CAUSE_TARGET_KIND = 27,
	BPFCANON_BTF_CAUSE_INT_WORD = 28,
	BPFCANON_BTF_CAUSE_MEMBER_INT = 29,
	BPFCANON_BTF_CAUSE_MEMBER_PLACE = 30,
	BPFCANON_BTF_CAUSE_LINKAGE = 31,
	BPFCANON_BTF_CAUSE_COMPONENT = 32
};
#define BPFCANON_BTF_CAUSE_MAX 32

/*
 * The causes of faults of object files, from 101 to BPFCANON_OBJECT_CAUSE_MAX. If .BTF has a fault
 * by itself, `cause` is that of enum bpfcanon_btf_cause, whose numbers are less than 101.
 */
enum bpfcanon_object_cause {
	BPFCANON_OBJECT_CAUSE_FILE_TOO_LARGE = 101,
	BPFCANON_OBJECT_CAUSE_FILE_CUT = 102,
	BPFCANON_OBJECT_CAUSE_MAGIC = 103,
	BPFCANON_OBJECT_CAUSE_CLASS = 104,
	BPFCANON_OBJECT_CAUSE_BYTE_ORDER = 105,
	BPFCANON_OBJECT_CAUSE_IDENT_VERSION = 106,
	BPFCANON_OBJECT_CAUSE_FILE_TYPE = 107,
	BPFCANON_OBJECT_CAUSE_MACHINE = 108,
	BPFCANON_OBJECT_CAUSE_FILE_VERSION = 109,
	BPFCANON_OBJECT_CAUSE_HEADER_SIZE = 110,
	BPFCANON_OBJECT_CAUSE_SEGMENTS = 111,
	BPFCANON_OBJECT_CAUSE_SECTION_HEADER_SIZE = 112,
	BPFCANON_OBJECT_CAUSE_SECTION_COUNT = 113,
	BPFCANON_OBJECT_CAUSE_SECTION_TABLE = 114,
	BPFCANON_OBJECT_CAUSE_NAMES_INDEX = 115,
	BPFCANON_OBJECT_CAUSE_FIRST_SECTION = 116,
	BPFCANON_OBJECT_CAUSE_NAMES_TABLE = 117,
	BPFCANON_OBJECT_CAUSE_SECTION_CUT = 118,
	BPFCANON_OBJECT_CAUSE_SECTION_NAME = 119,
	BPFCANON_OBJECT_CAUSE_SECTION_KIND = 120,
	BPFCANON_OBJECT_CAUSE_SECTION_TWICE = 121,
	BPFCANON_OBJECT_CAUSE_RELOCATION_TARGET = 122,
	BPFCANON_OBJECT_CAUSE_NO_SYMBOLS = 123,
	BPFCANON_OBJECT_CAUSE_SYMBOL_TABLE_SIZE = 124,
	BPFCANON_OBJECT_CAUSE_SYMBOL_ENTRY_SIZE = 125,
	BPFCANON_OBJECT_CAUSE_SYMBOL_NAMES = 126,
	BPFCANON_OBJECT_CAUSE_FIRST_SYMBOL = 127,
	BPFCANON_OBJECT_CAUSE_SYMBOL_NAME = 128,
	BPFCANON_OBJECT_CAUSE_SYMBOL_SECTION = 129,
	BPFCANON_OBJECT_CAUSE_SYMBOL_PLACE = 130,
	BPFCANON_OBJECT_CAUSE_RELOCATION_TABLE_SIZE = 131,
	BPFCANON_OBJECT_CAUSE_RELOCATION_ENTRY_SIZE = 132,
	BPFCANON_OBJECT_CAUSE_RELOCATION_SYMBOLS = 133,
	BPFCANON_OBJECT_CAUSE_RELOCATION_SYMBOL = 134,
	BPFCANON_OBJECT_CAUSE_TYPES_TOO_LARGE = 135,
	BPFCANON_OBJECT_CAUSE_TYPES_ORDER = 136,
	BPFCANON_OBJECT_CAUSE_TYPES_LAYOUT = 137,
	BPFCANON_OBJECT_CAUSE_TYPES_NAME = 138,
	BPFCANON_OBJECT_CAUSE_TYPES_SECTION = 139,
	BPFCANON_OBJECT_CAUSE_TYPES_FLAG = 140,
	BPFCANON_OBJECT_CAUSE_EXTENSION_WITHOUT_TYPES = 141,
	BPFCANON_OBJECT_CAUSE_EXTENSION_CUT = 142,
	BPFCANON_OBJECT_CAUSE_EXTENSION_MAGIC = 143,
	BPFCANON_OBJECT_CAUSE_EXTENSION_VERSION = 144,
	BPFCANON_OBJECT_CAUSE_EXTENSION_FLAGS = 145,
	BPFCANON_OBJECT_CAUSE_EXTENSION_HEADER_SIZE = 146,
	BPFCANON_OBJECT_CAUSE_EXTENSION_PART = 147,
	BPFCANON_OBJECT_CAUSE_EXTENSION_RECORD_SIZE = 148,
	BPFCANON_OBJECT_CAUSE_EXTENSION_GROUP = 149,
	BPFCANON_OBJECT_CAUSE_EXTENSION_STRING = 150,
	BPFCANON_OBJECT_CAUSE_EXTENSION_LINES = 151,
	BPFCANON_OBJECT_CAUSE_RESULT_TOO_LARGE = 152,
	BPFCANON_OBJECT_CAUSE_SECTIONS_TOO_LARGE = 153,
	BPFCANON_OBJECT_CAUSE_SYMBOL_DROPPED = 154,
	BPFCANON_OBJECT_CAUSE_EXTENSION_GROUP_TWICE = 155,
	BPFCANON_OBJECT_CAUSE_FUNCTION_LINES = 156,
	BPFCANON_OBJECT_CAUSE_TYPES_NAME_TAKEN = 157
};
#define BPFCANON_OBJECT_CAUSE_MAX 157

/* Conformance groups (RFC 9669 section 2.4), as bits of a mask. */
enum bpfcanon_group {
	BPFCANON_GROUP_BASE32 = 1,
	BPFCANON_GROUP_BASE64 = 2,
	BPFCANON_GROUP_ATOMIC32 = 4,
	BPFCANON_GROUP_ATOMIC64 = 8,
	BPFCANON_GROUP_DIVMUL32 = 16,
	BPFCANON_GROUP_DIVMUL64 = 32,
	BPFCANON_GROUP_PACKET = 64
};

/*
 * What a call returns. Fields that the call or its status doesn't set are 0. `offset` is the offset
 * that docs/FAULTS.md states for the cause. For BPFCANON_INSN_CAUSE_TRUNCATED that is the first
 * byte of the incomplete slot, which is the end of the input only if a wide load lacks its second
 * slot.
 */
typedef struct bpfcanon_answer {
	uint32_t status; /* enum bpfcanon_status */
	uint32_t cause;  /* of a fault: enum bpfcanon_insn_cause, _line_, _btf_ or _object_cause */
	uint64_t offset; /* of a fault, or from an encoder the index of a record */
	uint64_t line;   /* the line of a fault of a listing, from 1 */
	size_t read;     /* bpfcanon_insn_front: the length of the complete instructions */
	size_t written;  /* for a call that writes: the length of the output */
	size_t needed;   /* with BPFCANON_STATUS_ROOM: the buffer size that the output needs */
	uint32_t types;  /* bpfcanon_btf_check and _decode: the number of types, not counting void */
	uint32_t groups; /* bpfcanon_insn_groups: a mask of enum bpfcanon_group */
} bpfcanon_answer;

/* --- Instructions and types as records --- */

/*
 * The form of an instruction (RFC 9669 sections 4 and 5), with the fields of bpfcanon_insn that it
 * has besides form, len, group and offset. The other fields are 0.
 */
enum bpfcanon_form {
	BPFCANON_FORM_ALU = 1,          /* bits, op: bpfcanon_alu; dst; by_reg; src or imm */
	BPFCANON_FORM_MOVSX = 2,        /* bits, from_bits, dst, src */
	BPFCANON_FORM_NEG = 3,          /* bits, dst */
	BPFCANON_FORM_SWAP = 4,         /* bits, op: bpfcanon_swap; dst */
	BPFCANON_FORM_JUMP = 5,         /* off: how many slots after the next instruction */
	BPFCANON_FORM_JUMP_LONG = 6,    /* imm: likewise */
	BPFCANON_FORM_BRANCH = 7,       /* bits, op: bpfcanon_branch; dst, off, by_reg, src or imm */
	BPFCANON_FORM_CALL_HELPER = 8,  /* imm: the ID of the helper */
	BPFCANON_FORM_CALL_LOCAL = 9,   /* imm: how many slots after the next instruction */
	BPFCANON_FORM_CALL_BTF = 10,    /* imm: the BTF ID of the function; off */
	BPFCANON_FORM_EXIT = 11,
	BPFCANON_FORM_LOAD = 12,        /* bits, dst, src, off: dst = memory at src + off */
	BPFCANON_FORM_LOAD_SIGNED = 13, /* bits, dst, src, off: likewise */
	BPFCANON_FORM_STORE_IMM = 14,   /* bits, dst, off, imm: memory at dst + off = imm */
	BPFCANON_FORM_STORE_REG = 15,   /* bits, dst, src, off: memory at dst + off = src */
	BPFCANON_FORM_ATOMIC = 16,      /* bits, op: bpfcanon_atomic; dst, src, off: memory at dst + off */
	BPFCANON_FORM_WIDE = 17,        /* bits: 64; op: bpfcanon_wide; dst, imm, next_imm */
	BPFCANON_FORM_PACKET_ABS = 18,  /* bits, imm */
	BPFCANON_FORM_PACKET_IND = 19   /* bits, src, imm */
};

/* An arithmetic operation: its code in the standard, and 16 more for the signed divisions. */
enum bpfcanon_alu {
	BPFCANON_ALU_ADD = 0,
	BPFCANON_ALU_SUB = 1,
	BPFCANON_ALU_MUL = 2,
	BPFCANON_ALU_DIV = 3,
	BPFCANON_ALU_OR = 4,
	BPFCANON_ALU_AND = 5,
	BPFCANON_ALU_LSH = 6,
	BPFCANON_ALU_RSH = 7,
	BPFCANON_ALU_MOD = 9,
	BPFCANON_ALU_XOR = 10,
	BPFCANON_ALU_MOV = 11,
	BPFCANON_ALU_ARSH = 12,
	BPFCANON_ALU_SDIV = 19,
	BPFCANON_ALU_SMOD = 25
};

/* The comparison of a branch: its code in the standard. */
enum bpfcanon_branch {
	BPFCANON_BRANCH_EQ = 1,
	BPFCANON_BRANCH_GT = 2,
	BPFCANON_BRANCH_GE = 3,
	BPFCANON_BRANCH_SET = 4,
	BPFCANON_BRANCH_NE = 5,
	BPFCANON_BRANCH_SGT = 6,
	BPFCANON_BRANCH_SGE = 7,
	BPFCANON_BRANCH_LT = 10,
	BPFCANON_BRANCH_LE = 11,
	BPFCANON_BRANCH_SLT = 12,
	BPFCANON_BRANCH_SLE = 13
};

/* A byte swap: its opcode. */
enum bpfcanon_swap {
	BPFCANON_SWAP_LE = 0xd4,
	BPFCANON_SWAP_BE = 0xdc,
	BPFCANON_SWAP_BYTES = 0xd7
};

/* An atomic operation: its immediate. */
enum bpfcanon_atomic {
	BPFCANON_ATOMIC_ADD = 0x00,
	BPFCANON_ATOMIC_OR = 0x40,
	BPFCANON_ATOMIC_AND = 0x50,
	BPFCANON_ATOMIC_XOR = 0xa0,
	BPFCANON_ATOMIC_FETCH_ADD = 0x01,
	BPFCANON_ATOMIC_FETCH_OR = 0x41,
	BPFCANON_ATOMIC_FETCH_AND = 0x51,
	BPFCANON_ATOMIC_FETCH_XOR = 0xa1,
	BPFCANON_ATOMIC_XCHG = 0xe1,
	BPFCANON_ATOMIC_CMPXCHG = 0xf1
};

/* What a wide load loads: its src field. The immediates that it doesn't have are 0. */
enum bpfcanon_wide {
	BPFCANON_WIDE_NUMBER = 0,       /* imm: the low 32 bits; next_imm: the high ones */
	BPFCANON_WIDE_MAP_FD = 1,       /* imm */
	BPFCANON_WIDE_MAP_VALUE_FD = 2, /* imm; next_imm: the offset in bytes */
	BPFCANON_WIDE_VAR_ADDR = 3,     /* imm, next_imm */
	BPFCANON_WIDE_CODE_ADDR = 4,    /* imm: how many slots after the next instruction */
	BPFCANON_WIDE_MAP_IDX = 5,      /* imm */
	BPFCANON_WIDE_MAP_VALUE_IDX = 6 /* imm; next_imm: the offset in bytes */
};

/* An instruction: 32 bytes. */
typedef struct bpfcanon_insn {
	uint8_t form;       /* enum bpfcanon_form */
	uint8_t op;         /* the operation, as the form says */
	uint8_t bits;       /* 8, 16, 32 or 64: of the operation, or of the memory that is read or written */
	uint8_t from_bits;  /* MOVSX: how many bits it reads, 8, 16 or 32 */
	uint8_t dst;        /* a register, 0 to 10 */
	uint8_t src;        /* a register, 0 to 10 */
	uint8_t by_reg;     /* 1 if the second operand is src, 0 if it is imm */
	uint8_t len;        /* the length of the encoding in bytes: 16 for BPFCANON_FORM_WIDE, otherwise 8 */
	int16_t off;        /* the offset field */
	uint16_t group;     /* one bit of enum bpfcanon_group, without the groups that it includes */
	int32_t imm;        /* the immediate */
	int32_t next_imm;   /* the immediate of the second slot */
	uint32_t zero;      /* 0 */
	uint64_t offset;    /* the offset of the encoding */
} bpfcanon_insn;

/* The number that a wide load with `op` BPFCANON_WIDE_NUMBER loads. `insn` is a pointer. */
#define bpfcanon_insn_number(insn) \
	((uint64_t)(uint32_t)(insn)->next_imm << 32 | (uint32_t)(insn)->imm)

/*
 * The kind of a type (btf.rst section 2.2), with the fields of bpfcanon_btf_type that it has
 * besides kind. The other fields are 0, except that name and first always have a value.
 */
enum bpfcanon_btf_kind {
	BPFCANON_BTF_KIND_INT = 1,         /* name, size, encoding, bit_offset, bits */
	BPFCANON_BTF_KIND_PTR = 2,         /* target */
	BPFCANON_BTF_KIND_ARRAY = 3,       /* target: of its elements; index_type, elements */
	BPFCANON_BTF_KIND_STRUCT = 4,      /* name, size, items: members */
	BPFCANON_BTF_KIND_UNION = 5,       /* name, size, items: members */
	BPFCANON_BTF_KIND_ENUM = 6,        /* name, size, flag: signed; items: values */
	BPFCANON_BTF_KIND_FWD = 7,         /* name, flag: a union */
	BPFCANON_BTF_KIND_TYPEDEF = 8,     /* name, target */
	BPFCANON_BTF_KIND_VOLATILE = 9,    /* target */
	BPFCANON_BTF_KIND_CONST = 10,      /* target */
	BPFCANON_BTF_KIND_RESTRICT = 11,   /* target */
	BPFCANON_BTF_KIND_FUNC = 12,       /* name, target: its FUNC_PROTO; linkage */
	BPFCANON_BTF_KIND_FUNC_PROTO = 13, /* target: what it returns; items: parameters */
	BPFCANON_BTF_KIND_VAR = 14,        /* name, target, linkage */
	BPFCANON_BTF_KIND_DATASEC = 15,    /* name, size, items: entries */
	BPFCANON_BTF_KIND_FLOAT = 16,      /* name, size */
	BPFCANON_BTF_KIND_DECL_TAG = 17,   /* name, target, component, flag: the kind_flag */
	BPFCANON_BTF_KIND_TYPE_TAG = 18,   /* name, target, flag: the kind_flag */
	BPFCANON_BTF_KIND_ENUM64 = 19      /* name, size, flag: signed; items: values */
};

/*
 * A type: 40 bytes. IDs count from 1: that of types[i] is i + 1. Void, with ID 0, has no record.
 *
 * Each `target` and `index_type` that was decoded is 0 or the ID of a type of the same file, of a
 * kind that docs/FAULTS.md allows there. Types may form a cycle: `const` of itself is accepted, so
 * a loop that follows `target` needs a limit or has to note where it was.
 */
typedef struct bpfcanon_btf_type {
	uint8_t kind;        /* enum bpfcanon_btf_kind */
	uint8_t flag;        /* 0 or 1 */
	uint8_t encoding;    /* INT: enum bpfcanon_btf_encoding */
	uint8_t linkage;     /* FUNC, VAR: enum bpfcanon_btf_linkage */
	uint8_t bit_offset;  /* INT: where its value begins */
	uint8_t bits;        /* INT: the length of its value */
	uint16_t items;      /* the number of its items */
	uint32_t name;       /* the offset of the name in the input, where a NUL follows it */
	uint32_t name_len;   /* the length of the name in bytes, 0 if there is none */
	uint32_t size;       /* in bytes */
	uint32_t target;     /* the ID of the type that it refers to */
	uint32_t index_type; /* ARRAY: the ID of the type of its index */
	uint32_t elements;   /* ARRAY: the number of its elements */
	int32_t component;   /* DECL_TAG: the index of a member or parameter, -1 for the entire type */
	uint32_t first;      /* how many items the types before it have: the index of its first item */
} bpfcanon_btf_type;

/* The encoding of an INT (btf.rst section 2.2.1). */
enum bpfcanon_btf_encoding {
	BPFCANON_BTF_ENCODING_PLAIN = 0, /* unsigned */
	BPFCANON_BTF_ENCODING_SIGNED = 1,
	BPFCANON_BTF_ENCODING_CHAR = 2,
	BPFCANON_BTF_ENCODING_BOOL = 4
};

/* The linkage of a function or variable (btf.rst sections 2.2.12 and 2.2.14). */
enum bpfcanon_btf_linkage {
	BPFCANON_BTF_LINKAGE_STATIC = 0,
	BPFCANON_BTF_LINKAGE_GLOBAL = 1,
	BPFCANON_BTF_LINKAGE_EXTERN = 2
};

/*
 * The kind of an item, with the fields of bpfcanon_btf_item that it has besides kind. The other
 * fields are 0, except that name always has a value.
 */
enum bpfcanon_btf_item_kind {
	BPFCANON_BTF_ITEM_KIND_MEMBER = 1,       /* name, target, bit_offset, width */
	BPFCANON_BTF_ITEM_KIND_ENUM_VALUE = 2,   /* of an ENUM: name, value */
	BPFCANON_BTF_ITEM_KIND_ENUM64_VALUE = 3, /* of an ENUM64: name, value */
	BPFCANON_BTF_ITEM_KIND_PARAM = 4,        /* name, target; neither in the last one if it is `...` */
	BPFCANON_BTF_ITEM_KIND_ENTRY = 5         /* of a DATASEC: target, offset, size */
};

/* An item of a type, which is a member, value, parameter or entry: 40 bytes. */
typedef struct bpfcanon_btf_item {
	uint32_t name;       /* as of a type, and of an ENTRY the offset of the string section */
	uint32_t name_len;   /* the length of the name in bytes, 0 if there is none */
	uint32_t target;     /* the ID of its type */
	uint32_t bit_offset; /* MEMBER: from the start of the struct or union */
	uint32_t width;      /* MEMBER: the bits of a bit-field, 0 if it is none */
	uint32_t offset;     /* ENTRY: in bytes */
	uint32_t size;       /* ENTRY: in bytes */
	uint32_t kind;       /* enum bpfcanon_btf_item_kind */
	uint64_t value;      /* of an ENUM 32 bits, zero-extended; signed if the type's flag is 1 */
} bpfcanon_btf_item;

/*
 * The name of a type or an item of the input `bytes`, from its field `name`: UTF-8 that ends with a
 * NUL.
 */
#define bpfcanon_btf_name(bytes, name) ((const char *)(bytes) + (name))

/*
 * Loops over `count` types, and over the items of a type: `type` and `item` are variables that
 * point to a record, and `all` is the array of all items.
 */
#define bpfcanon_each_type(type, types, count) \
	for ((type) = (types); (count) && (type) < (types) + (count); (type)++)
#define bpfcanon_each_item(item, type, all) \
	for ((item) = (type)->items ? (all) + (type)->first : NULL; \
	     (item) && (item) < (all) + (type)->first + (type)->items; (item)++)

/* An inline function of this header, also in C89. */
#define BPFCANON_INLINE static __inline__ __attribute__((__unused__))

/*
 * Finds types by name: the ID of the first of `count` types after the ID `after` whose name is
 * `name`, or 0 if there is none. Begin with `after` 0. `bytes` is the input of the types.
 */
BPFCANON_INLINE uint32_t bpfcanon_btf_by_name(const uint8_t *bytes, const bpfcanon_btf_type *types,
                                              uint32_t count, const char *name, uint32_t after)
{
	const size_t len = strlen(name);
	uint32_t i;

	for (i = after; len && i < count; i++)
		if (types[i].name_len == len && !memcmp(bytes + types[i].name, name, len))
			return i + 1;
	return 0;
}

/* What bpfcanon_btf_resolve returns in place of an ID. */
#define BPFCANON_BTF_NO_SUCH_TYPE (-1) /* the ID is over `count` */
#define BPFCANON_BTF_CYCLE (-2)        /* the types lead back to themselves */

/*
 * Follows TYPEDEF, VOLATILE, CONST, RESTRICT and TYPE_TAG from a type of `count` types to the first
 * type of another kind, and returns its ID, which is 0 for void.
 */
BPFCANON_INLINE int64_t bpfcanon_btf_resolve(const bpfcanon_btf_type *types, uint32_t count,
                                             uint32_t id)
{
	/* On a cycle the walk comes back to `seen`, which is set again after 1, 2, 4.. steps. */
	uint32_t seen = id, steps = 0, limit = 1;

	for (; id && id <= count; steps++) {
		switch (types[id - 1].kind) {
		case BPFCANON_BTF_KIND_TYPEDEF:
		case BPFCANON_BTF_KIND_VOLATILE:
		case BPFCANON_BTF_KIND_CONST:
		case BPFCANON_BTF_KIND_RESTRICT:
		case BPFCANON_BTF_KIND_TYPE_TAG:
			break;
		default:
			return id;
		}
		if (steps == limit) {
			seen = id;
			steps = 0;
			limit *= 2;
		}
		id = types[id - 1].target;
		if (id == seen)
			return BPFCANON_BTF_CYCLE;
	}
	return id ? BPFCANON_BTF_NO_SUCH_TYPE : 0;
}

/* --- Calls on the caller's memory. Their comments list statuses without BPFCANON_STATUS_ --- */

/*
 * Writes the canonical form of BTF in the byte order `to`. If `to` is BPFCANON_ORDER_LITTLE these
 * are the canonical bytes. Sets `written`. A capacity of `len` bytes is always enough.
 *
 * This call and the others that write set `out` only if the status is BPFCANON_STATUS_DONE, or,
 * from bpfcanon_insn_front, BPFCANON_STATUS_FAULT. The bytes after the output are unchanged, and
 * with any other status so is all of `out`. With `out` NULL and `capacity` 0 an output that isn't
 * empty results in BPFCANON_STATUS_ROOM, with its length in `needed`; otherwise the result is that
 * of any other call.
 *
 * Statuses: DONE, FAULT, OUT_OF_MEMORY, ROOM, ORDER.
 */
bpfcanon_answer bpfcanon_btf_canon(uint32_t to, const uint8_t *bytes, size_t len, uint8_t *out,
                                   size_t capacity);

/*
 * Converts instructions from the byte order `order` to the byte order `to`. If `to` is
 * BPFCANON_ORDER_LITTLE these are the canonical bytes. Sets `written`, which is `len`.
 *
 * Statuses: DONE, FAULT, OUT_OF_MEMORY, ROOM, ORDER.
 */
bpfcanon_answer bpfcanon_insn_canon(uint32_t order, uint32_t to, const uint8_t *bytes, size_t len,
                                    uint8_t *out, size_t capacity);

/*
 * Counts the types of BTF, or reports its first fault. Sets `types`.
 *
 * Statuses: DONE, FAULT, OUT_OF_MEMORY.
 */
bpfcanon_answer bpfcanon_btf_check(const uint8_t *bytes, size_t len);

/*
 * Returns the conformance groups that the instructions need, including implied ones. Sets `groups`.
 * Allocates nothing.
 *
 * Statuses: DONE, FAULT, ORDER.
 */
bpfcanon_answer bpfcanon_insn_groups(uint32_t order, const uint8_t *bytes, size_t len);

/*
 * Compares two inputs: BPFCANON_STATUS_DONE if they hold the same types in the same order, or the
 * same instructions, that is, if their canonical bytes are equal, and BPFCANON_STATUS_DIFFERENT if
 * they don't. Each program has its own byte order. Comparing instructions allocates no memory.
 *
 * Statuses: DONE, DIFFERENT, FAULT, FAULT_SECOND, for BTF OUT_OF_MEMORY, and for instructions
 * ORDER.
 */
bpfcanon_answer bpfcanon_btf_same(const uint8_t *first, size_t first_len, const uint8_t *second,
                                  size_t second_len);
bpfcanon_answer bpfcanon_insn_same(uint32_t first_order, const uint8_t *first, size_t first_len,
                                   uint32_t second_order, const uint8_t *second,
                                   size_t second_len);

/*
 * Writes the listing of instructions: a line for each, with a newline, and no NUL at the end. Sets
 * `written`. A capacity of 4 * `len` bytes is always enough.
 *
 * Statuses: DONE, FAULT, OUT_OF_MEMORY, ROOM, ORDER.
 */
bpfcanon_answer bpfcanon_insn_show(uint32_t order, const uint8_t *bytes, size_t len, char *out,
                                   size_t capacity);

/*
 * Writes the instructions of a listing in the byte order `to`. A fault sets `line` and not
 * `offset`, and its cause is of enum bpfcanon_line_cause. Sets `written`. A capacity of 2 * `len`
 * bytes is always enough.
 *
 * Statuses: DONE, FAULT, OUT_OF_MEMORY, ROOM, ORDER.
 */
bpfcanon_answer bpfcanon_insn_read(uint32_t to, const char *text, size_t len, uint8_t *out,
                                   size_t capacity);

/*
 * Writes the listing of the types of BTF: a line for each type and for each of its items, with a
 * newline, and no NUL at the end. Sets `written`. It may be many times as long as the input, since
 * types can share names.
 *
 * Statuses: DONE, FAULT, OUT_OF_MEMORY, ROOM.
 */
bpfcanon_answer bpfcanon_btf_show(const uint8_t *bytes, size_t len, char *out, size_t capacity);

/*
 * Writes the complete instructions at the start of a buffer in the byte order `to`, for a stream
 * that is read in pieces. Sets `read` and `written`, which are equal. If the status is
 * BPFCANON_STATUS_DONE, fewer than 16 bytes remain after `read`; they may begin an instruction, so
 * prepend them to the next piece. At the end of the stream pass what remains to
 * bpfcanon_insn_canon, which reports BPFCANON_INSN_CAUSE_TRUNCATED if anything does. If the status
 * is BPFCANON_STATUS_FAULT, the fault remains whatever bytes follow, `offset` is its offset in the
 * bytes of this call, and the instructions before it are written. A capacity of `len` bytes is
 * always enough.
 *
 * Statuses: DONE, FAULT, OUT_OF_MEMORY, ROOM, ORDER.
 */
bpfcanon_answer bpfcanon_insn_front(uint32_t order, uint32_t to, const uint8_t *bytes, size_t len,
                                    uint8_t *out, size_t capacity);

/*
 * Decodes instructions into records at the start of `out`, in order. Sets `written`. `written`,
 * `needed` and `capacity` are numbers of records. A capacity of `len` / 8 records is always enough.
 * Allocates nothing.
 *
 * Statuses: DONE, FAULT, ROOM, ORDER, ALIGNMENT.
 */
bpfcanon_answer bpfcanon_insn_decode(uint32_t order, const uint8_t *bytes, size_t len,
                                     bpfcanon_insn *out, size_t capacity);

/*
 * Encodes the instructions that records say in the byte order `to`. The fields `len`, `group`,
 * `zero` and `offset` aren't read; the other fields that a form doesn't have have to be 0. Sets
 * `written`, in bytes. A capacity of 16 * `count` bytes is always enough. With
 * BPFCANON_STATUS_FAULT `offset` is the index of the first record that says no instruction, and
 * `cause` is 0, whose name is "Record". Allocates nothing.
 *
 * Statuses: DONE, FAULT, ROOM, ORDER, ALIGNMENT.
 */
bpfcanon_answer bpfcanon_insn_encode(uint32_t to, const bpfcanon_insn *insns, size_t count,
                                     uint8_t *out, size_t capacity);

/*
 * Decodes the types of BTF into records at the start of `types`, in order, and the items of all of
 * them into records at the start of `items`. Sets `types`, and `written` to the number of items.
 * With BPFCANON_STATUS_ROOM, if either array is too short, `types` and `needed` are the numbers of
 * types and of items. A capacity of `len` / 12 types and `len` / 8 items is always enough. Names
 * stay in `bytes`.
 *
 * Statuses: DONE, FAULT, OUT_OF_MEMORY, ROOM, ALIGNMENT.
 */
bpfcanon_answer bpfcanon_btf_decode(const uint8_t *bytes, size_t len, bpfcanon_btf_type *types,
                                    size_t types_capacity, bpfcanon_btf_item *items,
                                    size_t items_capacity);

/*
 * Writes the canonical form of the BTF of records in the byte order `to`. If `to` is
 * BPFCANON_ORDER_LITTLE these are the canonical bytes. Sets `written`, in bytes. Records are as
 * bpfcanon_btf_decode sets them, with names in `strings`, which may be the input that was decoded:
 *   - `name` is the offset of a name of `name_len` bytes, and a NUL follows it in `strings`. Names
 *     may share bytes. If `name_len` is 0 there is no name, and `name` isn't read.
 *   - The items of a type are `items` items from `first` on. If `items` is 0, or the kind has no
 *     items, `first` isn't read. Types may share items.
 *   - The other fields that a kind doesn't have have to be 0.
 *
 * With BPFCANON_STATUS_FAULT `offset` is the index of a type that can't be encoded, also if one of
 * its items is at fault, and `cause` says why. Of several faults the first in this order is
 * reported, and of two that are alike that of the type with the lower index:
 *   1. What a record needs to be written, type by type: it has no kind
 *      (BPFCANON_BTF_CAUSE_KIND_NUMBER); its items run past the array (_TAIL_CUT); its name, or
 *      then that of an item, in order and even of an ENTRY, runs past `strings` or has no NUL
 *      (_NAME_RANGE), or with it the names so far, from the first byte of one to the NUL after
 *      another, extend over 16 MiB or more (_STRING_LENGTH); the records so far are longer than
 *      32 MiB in BTF (_TYPE_LENGTH).
 *   2. The first fault of the BTF that is written so, as bpfcanon_btf_canon would report it. A
 *      number that its field in BTF can't hold is written without its high bits, except that a bit
 *      offset of more than 24 bits is added to the width of a bit-field, and that any negative
 *      component is -1. A name ends at its first NUL. `items` of a kind without items is written
 *      too (_VLEN), but not of a FUNC.
 *   3. 0, whose name is "Record", type by type: the BTF doesn't say what the record says. A field
 *      that has to be 0 isn't, a number is too large for its field in BTF, an item is of another
 *      kind, or a name has a NUL.
 *
 * A capacity of 25 bytes, 24 for each type, 12 for each item of each type, and `strings_len` is
 * always enough.
 *
 * Statuses: DONE, FAULT, OUT_OF_MEMORY, ROOM, ORDER, ALIGNMENT.
 */
bpfcanon_answer bpfcanon_btf_encode(uint32_t to, const bpfcanon_btf_type *types,
                                    size_t types_count, const bpfcanon_btf_item *items,
                                    size_t items_count, const char *strings, size_t strings_len,
                                    uint8_t *out, size_t capacity);

/*
 * Writes the canonical file of a BPF object file: an object file that loaders read like the
 * original, except for source lines. docs/OBJECTS.md defines it, and names the loaders that were
 * compared. Sets `written`. It may be longer than the original, but not than BPFCANON_OBJECT_MAX.
 *
 * These four calls hold no file, no path and no global state. So a loader can pass the buffer that
 * it then loads, for example by bpf_object__open_mem of libbpf, and no one can exchange a file
 * between the check and the load. Offsets of faults count from the first byte of the object file,
 * also those of .BTF in it.
 *
 * Statuses: DONE, FAULT, OUT_OF_MEMORY, ROOM.
 */
bpfcanon_answer bpfcanon_object_canon(const uint8_t *bytes, size_t len, uint8_t *out,
                                      size_t capacity);

/*
 * Compares two object files: BPFCANON_STATUS_DONE if they hold the same parts, that is, if their
 * canonical files are equal, and BPFCANON_STATUS_DIFFERENT if they don't.
 *
 * Statuses: DONE, DIFFERENT, FAULT, FAULT_SECOND, OUT_OF_MEMORY.
 */
bpfcanon_answer bpfcanon_object_same(const uint8_t *first, size_t first_len, const uint8_t *second,
                                     size_t second_len);

/*
 * Writes the key of an object file, which is the SHA-256 of its canonical file. Sets `written`,
 * which is BPFCANON_KEY_SIZE.
 *
 * Statuses: DONE, FAULT, OUT_OF_MEMORY, ROOM.
 */
bpfcanon_answer bpfcanon_object_key(const uint8_t *bytes, size_t len, uint8_t *out,
                                    size_t capacity);

/*
 * Checks that an object file has a canonical file, or reports its first fault. Its code isn't
 * checked: bpfcanon_insn_groups does that for the bytes of a section.
 *
 * Statuses: DONE, FAULT, OUT_OF_MEMORY.
 */
bpfcanon_answer bpfcanon_object_check(const uint8_t *bytes, size_t len);

/* --- Calls that allocate --- */

/*
 * Write the same output into a block from malloc and set `*out` to it: `written` bytes and, after a
 * listing, a NUL that `written` doesn't count. Free the block with bpfcanon_free. `*out` is NULL
 * unless the status is BPFCANON_STATUS_DONE, and then it isn't, even if `written` is 0. The
 * statuses are those of the call without `_new`, except BPFCANON_STATUS_ROOM and
 * BPFCANON_STATUS_ALIGNMENT. A fault, an invalid order and an array that isn't aligned are reported
 * even if there is no memory for the block; to find a fault in instructions takes no memory.
 */
bpfcanon_answer bpfcanon_btf_canon_new(uint32_t to, const uint8_t *bytes, size_t len,
                                       uint8_t **out);
bpfcanon_answer bpfcanon_insn_canon_new(uint32_t order, uint32_t to, const uint8_t *bytes,
                                        size_t len, uint8_t **out);
bpfcanon_answer bpfcanon_insn_show_new(uint32_t order, const uint8_t *bytes, size_t len,
                                       char **out);
bpfcanon_answer bpfcanon_insn_read_new(uint32_t to, const char *text, size_t len, uint8_t **out);
bpfcanon_answer bpfcanon_btf_show_new(const uint8_t *bytes, size_t len, char **out);
bpfcanon_answer bpfcanon_object_canon_new(const uint8_t *bytes, size_t len, uint8_t **out);

/* Likewise. The status may be BPFCANON_STATUS_ALIGNMENT. */
bpfcanon_answer bpfcanon_btf_encode_new(uint32_t to, const bpfcanon_btf_type *types,
                                        size_t types_count, const bpfcanon_btf_item *items,
                                        size_t items_count, const char *strings,
                                        size_t strings_len, uint8_t **out);

/*
 * Likewise with records in place of bytes, which `written` counts, and for BTF with two blocks. The
 * status of both may be BPFCANON_STATUS_OUT_OF_MEMORY.
 */
bpfcanon_answer bpfcanon_insn_decode_new(uint32_t order, const uint8_t *bytes, size_t len,
                                         bpfcanon_insn **out);
bpfcanon_answer bpfcanon_btf_decode_new(const uint8_t *bytes, size_t len,
                                        bpfcanon_btf_type **types, bpfcanon_btf_item **items);

/* Frees a block of the calls above. NULL is allowed. */
void bpfcanon_free(void *block);

/* --- Names and the version --- */

/* The version of the library, for example "0.1.0". */
const char *bpfcanon_version(void);

/*
 * The name of a status or cause, for example "Truncated", and a sentence that explains it, without
 * a full stop. The names and sentences of causes are those of docs/FAULTS.md; the cause 0 of
 * bpfcanon_insn_encode and bpfcanon_btf_encode has them too, and bpfcanon_object_cause_name and
 * _text also give those of enum bpfcanon_btf_cause. NULL for any other number. The strings are
 * static.
 */
const char *bpfcanon_status_name(uint32_t status);
const char *bpfcanon_status_text(uint32_t status);
const char *bpfcanon_insn_cause_name(uint32_t cause);
const char *bpfcanon_insn_cause_text(uint32_t cause);
const char *bpfcanon_line_cause_name(uint32_t cause);
const char *bpfcanon_line_cause_text(uint32_t cause);
const char *bpfcanon_btf_cause_name(uint32_t cause);
const char *bpfcanon_btf_cause_text(uint32_t cause);
const char *bpfcanon_object_cause_name(uint32_t cause);
const char *bpfcanon_object_cause_text(uint32_t cause);

#ifdef __cplusplus
}
#endif

#endif
