//! What `capi/bpfcanon.h` declares. `tools/to_rust` makes this file.

pub const BPFCANON_BTF_MAX: u32 = 50335744;
pub const BPFCANON_OBJECT_MAX: u32 = 67108864;
pub const BPFCANON_KEY_SIZE: u32 = 32;
pub const BPFCANON_ORDER_LITTLE: bpfcanon_order = 0;
pub const BPFCANON_ORDER_BIG: bpfcanon_order = 1;
pub type bpfcanon_order = u32;
pub const BPFCANON_STATUS_DONE: bpfcanon_status = 0;
pub const BPFCANON_STATUS_DIFFERENT: bpfcanon_status = 1;
pub const BPFCANON_STATUS_FAULT: bpfcanon_status = 2;
pub const BPFCANON_STATUS_FAULT_SECOND: bpfcanon_status = 3;
pub const BPFCANON_STATUS_OUT_OF_MEMORY: bpfcanon_status = 4;
pub const BPFCANON_STATUS_ROOM: bpfcanon_status = 5;
pub const BPFCANON_STATUS_ORDER: bpfcanon_status = 6;
pub const BPFCANON_STATUS_ALIGNMENT: bpfcanon_status = 7;
pub type bpfcanon_status = u32;
pub const BPFCANON_GROUP_BASE32: bpfcanon_group = 1;
pub const BPFCANON_GROUP_BASE64: bpfcanon_group = 2;
pub const BPFCANON_GROUP_ATOMIC32: bpfcanon_group = 4;
pub const BPFCANON_GROUP_ATOMIC64: bpfcanon_group = 8;
pub const BPFCANON_GROUP_DIVMUL32: bpfcanon_group = 16;
pub const BPFCANON_GROUP_DIVMUL64: bpfcanon_group = 32;
pub const BPFCANON_GROUP_PACKET: bpfcanon_group = 64;
pub type bpfcanon_group = u32;
#[repr(C)]
#[derive(Debug, Default, Copy, Clone, PartialEq, Eq)]
pub struct bpfcanon_answer {
    pub status: u32,
    pub cause: u32,
    pub offset: u64,
    pub line: u64,
    pub read: usize,
    pub written: usize,
    pub needed: usize,
    pub types: u32,
    pub groups: u32,
}
pub const BPFCANON_FORM_ALU: bpfcanon_form = 1;
pub const BPFCANON_FORM_MOVSX: bpfcanon_form = 2;
pub const BPFCANON_FORM_NEG: bpfcanon_form = 3;
pub const BPFCANON_FORM_SWAP: bpfcanon_form = 4;
pub const BPFCANON_FORM_JUMP: bpfcanon_form = 5;
pub const BPFCANON_FORM_JUMP_LONG: bpfcanon_form = 6;
pub const BPFCANON_FORM_BRANCH: bpfcanon_form = 7;
pub const BPFCANON_FORM_CALL_HELPER: bpfcanon_form = 8;
pub const BPFCANON_FORM_CALL_LOCAL: bpfcanon_form = 9;
pub const BPFCANON_FORM_CALL_BTF: bpfcanon_form = 10;
pub const BPFCANON_FORM_EXIT: bpfcanon_form = 11;
pub const BPFCANON_FORM_LOAD: bpfcanon_form = 12;
pub const BPFCANON_FORM_LOAD_SIGNED: bpfcanon_form = 13;
pub const BPFCANON_FORM_STORE_IMM: bpfcanon_form = 14;
pub const BPFCANON_FORM_STORE_REG: bpfcanon_form = 15;
pub const BPFCANON_FORM_ATOMIC: bpfcanon_form = 16;
pub const BPFCANON_FORM_WIDE: bpfcanon_form = 17;
pub const BPFCANON_FORM_PACKET_ABS: bpfcanon_form = 18;
pub const BPFCANON_FORM_PACKET_IND: bpfcanon_form = 19;
pub type bpfcanon_form = u32;
pub const BPFCANON_ALU_ADD: bpfcanon_alu = 0;
pub const BPFCANON_ALU_SUB: bpfcanon_alu = 1;
pub const BPFCANON_ALU_MUL: bpfcanon_alu = 2;
pub const BPFCANON_ALU_DIV: bpfcanon_alu = 3;
pub const BPFCANON_ALU_OR: bpfcanon_alu = 4;
pub const BPFCANON_ALU_AND: bpfcanon_alu = 5;
pub const BPFCANON_ALU_LSH: bpfcanon_alu = 6;
pub const BPFCANON_ALU_RSH: bpfcanon_alu = 7;
pub const BPFCANON_ALU_MOD: bpfcanon_alu = 9;
pub const BPFCANON_ALU_XOR: bpfcanon_alu = 10;
pub const BPFCANON_ALU_MOV: bpfcanon_alu = 11;
pub const BPFCANON_ALU_ARSH: bpfcanon_alu = 12;
pub const BPFCANON_ALU_SDIV: bpfcanon_alu = 19;
pub const BPFCANON_ALU_SMOD: bpfcanon_alu = 25;
pub type bpfcanon_alu = u32;
pub const BPFCANON_BRANCH_EQ: bpfcanon_branch = 1;
pub const BPFCANON_BRANCH_GT: bpfcanon_branch = 2;
pub const BPFCANON_BRANCH_GE: bpfcanon_branch = 3;
pub const BPFCANON_BRANCH_SET: bpfcanon_branch = 4;
pub const BPFCANON_BRANCH_NE: bpfcanon_branch = 5;
pub const BPFCANON_BRANCH_SGT: bpfcanon_branch = 6;
pub const BPFCANON_BRANCH_SGE: bpfcanon_branch = 7;
pub const BPFCANON_BRANCH_LT: bpfcanon_branch = 10;
pub const BPFCANON_BRANCH_LE: bpfcanon_branch = 11;
pub const BPFCANON_BRANCH_SLT: bpfcanon_branch = 12;
pub const BPFCANON_BRANCH_SLE: bpfcanon_branch = 13;
pub type bpfcanon_branch = u32;
pub const BPFCANON_SWAP_LE: bpfcanon_swap = 212;
pub const BPFCANON_SWAP_BE: bpfcanon_swap = 220;
pub const BPFCANON_SWAP_BYTES: bpfcanon_swap = 215;
pub type bpfcanon_swap = u32;
pub const BPFCANON_ATOMIC_ADD: bpfcanon_atomic = 0;
pub const BPFCANON_ATOMIC_OR: bpfcanon_atomic = 64;
pub const BPFCANON_ATOMIC_AND: bpfcanon_atomic = 80;
pub const BPFCANON_ATOMIC_XOR: bpfcanon_atomic = 160;
pub const BPFCANON_ATOMIC_FETCH_ADD: bpfcanon_atomic = 1;
pub const BPFCANON_ATOMIC_FETCH_OR: bpfcanon_atomic = 65;
pub const BPFCANON_ATOMIC_FETCH_AND: bpfcanon_atomic = 81;
pub const BPFCANON_ATOMIC_FETCH_XOR: bpfcanon_atomic = 161;
pub const BPFCANON_ATOMIC_XCHG: bpfcanon_atomic = 225;
pub const BPFCANON_ATOMIC_CMPXCHG: bpfcanon_atomic = 241;
pub type bpfcanon_atomic = u32;
pub const BPFCANON_WIDE_NUMBER: bpfcanon_wide = 0;
pub const BPFCANON_WIDE_MAP_FD: bpfcanon_wide = 1;
pub const BPFCANON_WIDE_MAP_VALUE_FD: bpfcanon_wide = 2;
pub const BPFCANON_WIDE_VAR_ADDR: bpfcanon_wide = 3;
pub const BPFCANON_WIDE_CODE_ADDR: bpfcanon_wide = 4;
pub const BPFCANON_WIDE_MAP_IDX: bpfcanon_wide = 5;
pub const BPFCANON_WIDE_MAP_VALUE_IDX: bpfcanon_wide = 6;
pub type bpfcanon_wide = u32;
#[repr(C)]
#[derive(Debug, Default, Copy, Clone, PartialEq, Eq)]
pub struct bpfcanon_insn {
    pub form: u8,
    pub op: u8,
    pub bits: u8,
    pub from_bits: u8,
    pub dst: u8,
    pub src: u8,
    pub by_reg: u8,
    pub len: u8,
    pub off: i16,
    pub group: u16,
    pub imm: i32,
    pub next_imm: i32,
    pub zero: u32,
    pub offset: u64,
}
pub const BPFCANON_BTF_KIND_INT: bpfcanon_btf_kind = 1;
pub const BPFCANON_BTF_KIND_PTR: bpfcanon_btf_kind = 2;
pub const BPFCANON_BTF_KIND_ARRAY: bpfcanon_btf_kind = 3;
pub const BPFCANON_BTF_KIND_STRUCT: bpfcanon_btf_kind = 4;
pub const BPFCANON_BTF_KIND_UNION: bpfcanon_btf_kind = 5;
pub const BPFCANON_BTF_KIND_ENUM: bpfcanon_btf_kind = 6;
pub const BPFCANON_BTF_KIND_FWD: bpfcanon_btf_kind = 7;
pub const BPFCANON_BTF_KIND_TYPEDEF: bpfcanon_btf_kind = 8;
pub const BPFCANON_BTF_KIND_VOLATILE: bpfcanon_btf_kind = 9;
pub const BPFCANON_BTF_KIND_CONST: bpfcanon_btf_kind = 10;
pub const BPFCANON_BTF_KIND_RESTRICT: bpfcanon_btf_kind = 11;
pub const BPFCANON_BTF_KIND_FUNC: bpfcanon_btf_kind = 12;
pub const BPFCANON_BTF_KIND_FUNC_PROTO: bpfcanon_btf_kind = 13;
pub const BPFCANON_BTF_KIND_VAR: bpfcanon_btf_kind = 14;
pub const BPFCANON_BTF_KIND_DATASEC: bpfcanon_btf_kind = 15;
pub const BPFCANON_BTF_KIND_FLOAT: bpfcanon_btf_kind = 16;
pub const BPFCANON_BTF_KIND_DECL_TAG: bpfcanon_btf_kind = 17;
pub const BPFCANON_BTF_KIND_TYPE_TAG: bpfcanon_btf_kind = 18;
pub const BPFCANON_BTF_KIND_ENUM64: bpfcanon_btf_kind = 19;
pub type bpfcanon_btf_kind = u32;
#[repr(C)]
#[derive(Debug, Default, Copy, Clone, PartialEq, Eq)]
pub struct bpfcanon_btf_type {
    pub kind: u8,
    pub flag: u8,
    pub encoding: u8,
    pub linkage: u8,
    pub bit_offset: u8,
    pub bits: u8,
    pub items: u16,
    pub name: u32,
    pub name_len: u32,
    pub size: u32,
    pub target: u32,
    pub index_type: u32,
    pub elements: u32,
    pub component: i32,
    pub first: u32,
}
pub const BPFCANON_BTF_ENCODING_PLAIN: bpfcanon_btf_encoding = 0;
pub const BPFCANON_BTF_ENCODING_SIGNED: bpfcanon_btf_encoding = 1;
pub const BPFCANON_BTF_ENCODING_CHAR: bpfcanon_btf_encoding = 2;
pub const BPFCANON_BTF_ENCODING_BOOL: bpfcanon_btf_encoding = 4;
pub type bpfcanon_btf_encoding = u32;
pub const BPFCANON_BTF_LINKAGE_STATIC: bpfcanon_btf_linkage = 0;
pub const BPFCANON_BTF_LINKAGE_GLOBAL: bpfcanon_btf_linkage = 1;
pub const BPFCANON_BTF_LINKAGE_EXTERN: bpfcanon_btf_linkage = 2;
pub type bpfcanon_btf_linkage = u32;
pub const BPFCANON_BTF_ITEM_KIND_MEMBER: bpfcanon_btf_item_kind = 1;
pub const BPFCANON_BTF_ITEM_KIND_ENUM_VALUE: bpfcanon_btf_item_kind = 2;
pub const BPFCANON_BTF_ITEM_KIND_ENUM64_VALUE: bpfcanon_btf_item_kind = 3;
pub const BPFCANON_BTF_ITEM_KIND_PARAM: bpfcanon_btf_item_kind = 4;
pub const BPFCANON_BTF_ITEM_KIND_ENTRY: bpfcanon_btf_item_kind = 5;
pub type bpfcanon_btf_item_kind = u32;
#[repr(C)]
#[derive(Debug, Default, Copy, Clone, PartialEq, Eq)]
pub struct bpfcanon_btf_item {
    pub name: u32,
    pub name_len: u32,
    pub target: u32,
    pub bit_offset: u32,
    pub width: u32,
    pub offset: u32,
    pub size: u32,
    pub kind: u32,
    pub value: u64,
}
extern "C" {
    pub fn bpfcanon_btf_canon(
        to: u32,
        bytes: *const u8,
        len: usize,
        out: *mut u8,
        capacity: usize,
    ) -> bpfcanon_answer;
    pub fn bpfcanon_insn_canon(
        order: u32,
        to: u32,
        bytes: *const u8,
        len: usize,
        out: *mut u8,
        capacity: usize,
    ) -> bpfcanon_answer;
    pub fn bpfcanon_btf_check(bytes: *const u8, len: usize) -> bpfcanon_answer;
    pub fn bpfcanon_insn_groups(order: u32, bytes: *const u8, len: usize) -> bpfcanon_answer;
    pub fn bpfcanon_btf_same(
        first: *const u8,
        first_len: usize,
        second: *const u8,
        second_len: usize,
    ) -> bpfcanon_answer;
    pub fn bpfcanon_insn_same(
        first_order: u32,
        first: *const u8,
        first_len: usize,
        second_order: u32,
        second: *const u8,
        second_len: usize,
    ) -> bpfcanon_answer;
    pub fn bpfcanon_insn_show(
        order: u32,
        bytes: *const u8,
        len: usize,
        out: *mut ::std::os::raw::c_char,
        capacity: usize,
    ) -> bpfcanon_answer;
    pub fn bpfcanon_insn_read(
        to: u32,
        text: *const ::std::os::raw::c_char,
        len: usize,
        out: *mut u8,
        capacity: usize,
    ) -> bpfcanon_answer;
    pub fn bpfcanon_btf_show(
        bytes: *const u8,
        len: usize,
        out: *mut ::std::os::raw::c_char,
        capacity: usize,
    ) -> bpfcanon_answer;
    pub fn bpfcanon_insn_front(
        order: u32,
        to: u32,
        bytes: *const u8,
        len: usize,
        out: *mut u8,
        capacity: usize,
    ) -> bpfcanon_answer;
    pub fn bpfcanon_insn_decode(
        order: u32,
        bytes: *const u8,
        len: usize,
        out: *mut bpfcanon_insn,
        capacity: usize,
    ) -> bpfcanon_answer;
    pub fn bpfcanon_insn_encode(
        to: u32,
        insns: *const bpfcanon_insn,
        count: usize,
        out: *mut u8,
        capacity: usize,
    ) -> bpfcanon_answer;
    pub fn bpfcanon_btf_decode(
        bytes: *const u8,
        len: usize,
        types: *mut bpfcanon_btf_type,
        types_capacity: usize,
        items: *mut bpfcanon_btf_item,
        items_capacity: usize,
    ) -> bpfcanon_answer;
    pub fn bpfcanon_btf_encode(
        to: u32,
        types: *const bpfcanon_btf_type,
        types_count: usize,
        items: *const bpfcanon_btf_item,
        items_count: usize,
        strings: *const ::std::os::raw::c_char,
        strings_len: usize,
        out: *mut u8,
        capacity: usize,
    ) -> bpfcanon_answer;
    pub fn bpfcanon_object_canon(
        bytes: *const u8,
        len: usize,
        out: *mut u8,
        capacity: usize,
    ) -> bpfcanon_answer;
    pub fn bpfcanon_object_same(
        first: *const u8,
        first_len: usize,
        second: *const u8,
        second_len: usize,
    ) -> bpfcanon_answer;
    pub fn bpfcanon_object_key(
        bytes: *const u8,
        len: usize,
        out: *mut u8,
        capacity: usize,
    ) -> bpfcanon_answer;
    pub fn bpfcanon_object_check(bytes: *const u8, len: usize) -> bpfcanon_answer;
    pub fn bpfcanon_version() -> *const ::std::os::raw::c_char;
    pub fn bpfcanon_insn_cause_name(cause: u32) -> *const ::std::os::raw::c_char;
    pub fn bpfcanon_insn_cause_text(cause: u32) -> *const ::std::os::raw::c_char;
    pub fn bpfcanon_line_cause_name(cause: u32) -> *const ::std::os::raw::c_char;
    pub fn bpfcanon_line_cause_text(cause: u32) -> *const ::std::os::raw::c_char;
    pub fn bpfcanon_btf_cause_name(cause: u32) -> *const ::std::os::raw::c_char;
    pub fn bpfcanon_btf_cause_text(cause: u32) -> *const ::std::os::raw::c_char;
    pub fn bpfcanon_object_cause_name(cause: u32) -> *const ::std::os::raw::c_char;
    pub fn bpfcanon_object_cause_text(cause: u32) -> *const ::std::os::raw::c_char;
}
