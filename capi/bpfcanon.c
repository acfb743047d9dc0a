/*
 * The C part of the library: the public calls around the proved ones, blocks for output, names and
 * the version. It is tested and not proved.
 */
#include "bpfcanon.h"
#include "proved.h"

#include <stddef.h>
#include <stdlib.h>

/* --- Calls on the caller's memory --- */

/*
 * An address in place of a null pointer whose length is 0, since a slice of Rattle has one. A null
 * pointer with a length is passed on, so that the call faults and touches no memory of this library.
 */
static uint8_t nowhere;

static const uint8_t *input(const void *bytes, size_t len)
{
	return bytes || len ? (const uint8_t *)bytes : &nowhere;
}

static uint8_t *output(void *out, size_t capacity)
{
	return out || capacity ? (uint8_t *)out : &nowhere;
}

bpfcanon_answer bpfcanon_btf_canon(uint32_t to, const uint8_t *bytes, size_t len, uint8_t *out,
                                   size_t capacity)
{
	return bpfcanon_proved_btf_canon(to, input(bytes, len), len, output(out, capacity), capacity);
}

bpfcanon_answer bpfcanon_insn_canon(uint32_t order, uint32_t to, const uint8_t *bytes, size_t len,
                                    uint8_t *out, size_t capacity)
{
	return bpfcanon_proved_insn_canon(order, to, input(bytes, len), len, output(out, capacity), capacity);
}

bpfcanon_answer bpfcanon_btf_check(const uint8_t *bytes, size_t len)
{
	return bpfcanon_proved_btf_check(input(bytes, len), len);
}

bpfcanon_answer bpfcanon_insn_groups(uint32_t order, const uint8_t *bytes, size_t len)
{
	return bpfcanon_proved_insn_groups(order, input(bytes, len), len);
}

bpfcanon_answer bpfcanon_btf_same(const uint8_t *first, size_t first_len, const uint8_t *second,
                                  size_t second_len)
{
	return bpfcanon_proved_btf_same(input(first, first_len), first_len, input(second, second_len), second_len);
}

bpfcanon_answer bpfcanon_insn_same(uint32_t first_order, const uint8_t *first, size_t first_len,
                                   uint32_t second_order, const uint8_t *second, size_t second_len)
{
	return bpfcanon_proved_insn_same(first_order, input(first, first_len), first_len, second_order,
	                                 input(second, second_len), second_len);
}

bpfcanon_answer bpfcanon_insn_show(uint32_t order, const uint8_t *bytes, size_t len, char *out,
                                   size_t capacity)
{
	return bpfcanon_proved_insn_show(order, input(bytes, len), len, output(out, capacity), capacity);
}

bpfcanon_answer bpfcanon_insn_read(uint32_t to, const char *text, size_t len, uint8_t *out,
                                   size_t capacity)
{
	return bpfcanon_proved_insn_read(to, input(text, len), len, output(out, capacity), capacity);
}

bpfcanon_answer bpfcanon_btf_show(const uint8_t *bytes, size_t len, char *out, size_t capacity)
{
	return bpfcanon_proved_btf_show(input(bytes, len), len, output(out, capacity), capacity);
}

bpfcanon_answer bpfcanon_insn_front(uint32_t order, uint32_t to, const uint8_t *bytes, size_t len,
                                   uint8_t *out, size_t capacity)
{
	return bpfcanon_proved_insn_front(order, to, input(bytes, len), len, output(out, capacity), capacity);
}

bpfcanon_answer bpfcanon_object_canon(const uint8_t *bytes, size_t len, uint8_t *out, size_t capacity)
{
	return bpfcanon_proved_object_canon(input(bytes, len), len, output(out, capacity), capacity);
}

bpfcanon_answer bpfcanon_object_same(const uint8_t *first, size_t first_len, const uint8_t *second,
                                     size_t second_len)
{
	return bpfcanon_proved_object_same(input(first, first_len), first_len, input(second, second_len), second_len);
}

bpfcanon_answer bpfcanon_object_key(const uint8_t *bytes, size_t len, uint8_t *out, size_t capacity)
{
	return bpfcanon_proved_object_key(input(bytes, len), len, output(out, capacity), capacity);
}

bpfcanon_answer bpfcanon_object_check(const uint8_t *bytes, size_t len)
{
	return bpfcanon_proved_object_check(input(bytes, len), len);
}

/* --- Records --- */

/* crates/bpfcanon_c declares the same records, and its lengths have 64 bits. */
#define IS_AT(record, field, offset) \
	_Static_assert(offsetof(record, field) == (offset), #record "." #field)
#define HAS_SIZE(type, size) _Static_assert(sizeof(type) == (size), #type)
HAS_SIZE(size_t, 8);
HAS_SIZE(bpfcanon_answer, 56);
IS_AT(bpfcanon_answer, status, 0); IS_AT(bpfcanon_answer, cause, 4); IS_AT(bpfcanon_answer, offset, 8);
IS_AT(bpfcanon_answer, line, 16); IS_AT(bpfcanon_answer, read, 24); IS_AT(bpfcanon_answer, written, 32);
IS_AT(bpfcanon_answer, needed, 40); IS_AT(bpfcanon_answer, types, 48); IS_AT(bpfcanon_answer, groups, 52);
HAS_SIZE(bpfcanon_insn, 32);
IS_AT(bpfcanon_insn, form, 0); IS_AT(bpfcanon_insn, op, 1); IS_AT(bpfcanon_insn, bits, 2);
IS_AT(bpfcanon_insn, from_bits, 3); IS_AT(bpfcanon_insn, dst, 4); IS_AT(bpfcanon_insn, src, 5);
IS_AT(bpfcanon_insn, by_reg, 6); IS_AT(bpfcanon_insn, len, 7); IS_AT(bpfcanon_insn, off, 8);
IS_AT(bpfcanon_insn, group, 10); IS_AT(bpfcanon_insn, imm, 12); IS_AT(bpfcanon_insn, next_imm, 16);
IS_AT(bpfcanon_insn, zero, 20); IS_AT(bpfcanon_insn, offset, 24);
HAS_SIZE(bpfcanon_btf_type, 40);
IS_AT(bpfcanon_btf_type, kind, 0); IS_AT(bpfcanon_btf_type, flag, 1); IS_AT(bpfcanon_btf_type, encoding, 2);
IS_AT(bpfcanon_btf_type, linkage, 3); IS_AT(bpfcanon_btf_type, bit_offset, 4); IS_AT(bpfcanon_btf_type, bits, 5);
IS_AT(bpfcanon_btf_type, items, 6); IS_AT(bpfcanon_btf_type, name, 8); IS_AT(bpfcanon_btf_type, name_len, 12);
IS_AT(bpfcanon_btf_type, size, 16); IS_AT(bpfcanon_btf_type, target, 20); IS_AT(bpfcanon_btf_type, index_type, 24);
IS_AT(bpfcanon_btf_type, elements, 28); IS_AT(bpfcanon_btf_type, component, 32); IS_AT(bpfcanon_btf_type, first, 36);
HAS_SIZE(bpfcanon_btf_item, 40);
IS_AT(bpfcanon_btf_item, name, 0); IS_AT(bpfcanon_btf_item, name_len, 4); IS_AT(bpfcanon_btf_item, target, 8);
IS_AT(bpfcanon_btf_item, bit_offset, 12); IS_AT(bpfcanon_btf_item, width, 16); IS_AT(bpfcanon_btf_item, offset, 20);
IS_AT(bpfcanon_btf_item, size, 24); IS_AT(bpfcanon_btf_item, kind, 28); IS_AT(bpfcanon_btf_item, value, 32);

/* Records in place of a null pointer whose capacity is 0. */
static bpfcanon_insn no_insn;
static bpfcanon_btf_type no_type;
static bpfcanon_btf_item no_item;

/* Whether an array of records is aligned as C aligns its type. A null pointer is. */
#define IS_ALIGNED(type, records) ((uintptr_t)(records) % _Alignof(type) == 0)

static bpfcanon_answer ended(uint32_t status)
{
	bpfcanon_answer answer = { 0, 0, 0, 0, 0, 0, 0, 0, 0 };

	answer.status = status;
	return answer;
}

bpfcanon_answer bpfcanon_insn_decode(uint32_t order, const uint8_t *bytes, size_t len,
                                     bpfcanon_insn *out, size_t capacity)
{
	if (!IS_ALIGNED(bpfcanon_insn, out))
		return ended(BPFCANON_STATUS_ALIGNMENT);
	return bpfcanon_proved_insn_decode(order, input(bytes, len), len, out || capacity ? out : &no_insn,
	                                   capacity);
}

bpfcanon_answer bpfcanon_insn_encode(uint32_t to, const bpfcanon_insn *insns, size_t count,
                                     uint8_t *out, size_t capacity)
{
	if (!IS_ALIGNED(bpfcanon_insn, insns))
		return ended(BPFCANON_STATUS_ALIGNMENT);
	return bpfcanon_proved_insn_encode(to, insns || count ? insns : &no_insn, count,
	                                   output(out, capacity), capacity);
}

bpfcanon_answer bpfcanon_btf_decode(const uint8_t *bytes, size_t len, bpfcanon_btf_type *types,
                                    size_t types_capacity, bpfcanon_btf_item *items,
                                    size_t items_capacity)
{
	if (!IS_ALIGNED(bpfcanon_btf_type, types) || !IS_ALIGNED(bpfcanon_btf_item, items))
		return ended(BPFCANON_STATUS_ALIGNMENT);
	return bpfcanon_proved_btf_decode(input(bytes, len), len,
	                                  types || types_capacity ? types : &no_type, types_capacity,
	                                  items || items_capacity ? items : &no_item, items_capacity);
}

bpfcanon_answer bpfcanon_btf_encode(uint32_t to, const bpfcanon_btf_type *types,
                                    size_t types_count, const bpfcanon_btf_item *items,
                                    size_t items_count, const char *strings, size_t strings_len,
                                    uint8_t *out, size_t capacity)
{
	if (!IS_ALIGNED(bpfcanon_btf_type, types) || !IS_ALIGNED(bpfcanon_btf_item, items))
		return ended(BPFCANON_STATUS_ALIGNMENT);
	return bpfcanon_proved_btf_encode(to, types || types_count ? types : &no_type, types_count,
	                                  items || items_count ? items : &no_item, items_count,
	                                  input(strings, strings_len), strings_len,
	                                  output(out, capacity), capacity);
}

/* --- Calls that allocate --- */

/* A call that writes, in a shape that fits all seven, with what finds a fault and what it is given besides its output. */
struct request {
	bpfcanon_answer (*write)(const struct request *request, uint8_t *out, size_t capacity);
	bpfcanon_answer (*check)(const struct request *request);
	uint32_t order, to;
	const uint8_t *bytes;
	size_t len;
	const bpfcanon_btf_type *types;
	size_t types_count;
	const bpfcanon_btf_item *items;
	size_t items_count;
};

static bpfcanon_answer write_btf(const struct request *request, uint8_t *out, size_t capacity)
{
	return bpfcanon_proved_btf_canon(request->to, request->bytes, request->len, out, capacity);
}

static bpfcanon_answer write_insns(const struct request *request, uint8_t *out, size_t capacity)
{
	return bpfcanon_proved_insn_canon(request->order, request->to, request->bytes, request->len,
	                                  out, capacity);
}

static bpfcanon_answer write_listing(const struct request *request, uint8_t *out, size_t capacity)
{
	return bpfcanon_proved_insn_show(request->order, request->bytes, request->len, out, capacity);
}

static bpfcanon_answer write_listed(const struct request *request, uint8_t *out, size_t capacity)
{
	return bpfcanon_proved_insn_read(request->to, request->bytes, request->len, out, capacity);
}

static bpfcanon_answer write_types(const struct request *request, uint8_t *out, size_t capacity)
{
	return bpfcanon_proved_btf_show(request->bytes, request->len, out, capacity);
}

static bpfcanon_answer write_object(const struct request *request, uint8_t *out, size_t capacity)
{
	return bpfcanon_proved_object_canon(request->bytes, request->len, out, capacity);
}

static bpfcanon_answer write_encoded(const struct request *request, uint8_t *out, size_t capacity)
{
	return bpfcanon_btf_encode(request->to, request->types, request->types_count, request->items,
	                           request->items_count, (const char *)request->bytes, request->len,
	                           out, capacity);
}

/* Takes the memory that the call needs without its block. */
static bpfcanon_answer without_room(const struct request *request)
{
	return request->write(request, &nowhere, 0);
}

/* Takes no memory: a comparison with no instructions reports the fault of the first input, and both orders. */
static bpfcanon_answer check_insns(const struct request *request)
{
	return bpfcanon_proved_insn_same(request->order, request->bytes, request->len, request->to, &nowhere, 0);
}

/* What a call returns that has no memory and has freed its blocks: what is wrong with its arguments is so whatever memory there is. */
static bpfcanon_answer no_memory(bpfcanon_answer checked)
{
	switch (checked.status) {
	case BPFCANON_STATUS_FAULT:
	case BPFCANON_STATUS_ORDER:
	case BPFCANON_STATUS_ALIGNMENT:
		return checked;
	default:
		return ended(BPFCANON_STATUS_OUT_OF_MEMORY);
	}
}

/* Writes into a block of this capacity, with one byte more for a NUL. */
static bpfcanon_answer write_block(const struct request *request, size_t capacity, uint8_t **out)
{
	uint8_t *block = (uint8_t *)malloc(capacity + 1), *smaller;
	bpfcanon_answer answer;

	*out = NULL;
	if (!block)
		return ended(BPFCANON_STATUS_OUT_OF_MEMORY);
	answer = request->write(request, block, capacity);
	if (answer.status != BPFCANON_STATUS_DONE) {
		free(block);
		return answer;
	}
	block[answer.written] = 0;
	smaller = (uint8_t *)realloc(block, answer.written + 1);
	*out = smaller ? smaller : block;
	return answer;
}

/* Writes into a block of a guessed capacity, and if that is too short, once more. */
static bpfcanon_answer write_guessed(const struct request *request, size_t guess, uint8_t **out)
{
	bpfcanon_answer answer = write_block(request, guess, out);

	if (answer.status == BPFCANON_STATUS_ROOM)
		answer = write_block(request, answer.needed, out);
	return answer.status == BPFCANON_STATUS_OUT_OF_MEMORY ? no_memory(request->check(request)) : answer;
}

/* Writes into a block of `times` the length of the input. */
static bpfcanon_answer write_new(const struct request *request, size_t times, uint8_t **out)
{
	const size_t most = (SIZE_MAX - 1) / times;

	return write_guessed(request, times * (request->len < most ? request->len : most), out);
}

bpfcanon_answer bpfcanon_btf_canon_new(uint32_t to, const uint8_t *bytes, size_t len,
                                       uint8_t **out)
{
	const struct request request = { write_btf, without_room, 0, to, input(bytes, len), len, NULL, 0, NULL, 0 };

	return write_new(&request, 1, out);
}

bpfcanon_answer bpfcanon_insn_canon_new(uint32_t order, uint32_t to, const uint8_t *bytes,
                                        size_t len, uint8_t **out)
{
	const struct request request = { write_insns, check_insns, order, to, input(bytes, len), len, NULL, 0, NULL, 0 };

	return write_new(&request, 1, out);
}

/* A listing is at most 4 times as long: "jsgt32 r10, -2147483648, -32768\n" has 32 characters for 8 bytes. */
bpfcanon_answer bpfcanon_insn_show_new(uint32_t order, const uint8_t *bytes, size_t len,
                                       char **out)
{
	const struct request request = { write_listing, check_insns, order, 0, input(bytes, len), len, NULL, 0, NULL, 0 };
	uint8_t *block;
	bpfcanon_answer answer = write_new(&request, 4, &block);

	*out = (char *)block;
	return answer;
}

/* Instructions are at most twice as long as their listing: "exit" has 4 characters for 8 bytes. */
bpfcanon_answer bpfcanon_insn_read_new(uint32_t to, const char *text, size_t len, uint8_t **out)
{
	const struct request request = { write_listed, without_room, 0, to, input(text, len), len, NULL, 0, NULL, 0 };

	return write_new(&request, 2, out);
}

/*
 * The listing of a kernel's types is 2.1 times as long as its BTF. Its length has no bound, because
 * types may share a long name: then the proved call is made a second time.
 */
bpfcanon_answer bpfcanon_btf_show_new(const uint8_t *bytes, size_t len, char **out)
{
	const struct request request = { write_types, without_room, 0, 0, input(bytes, len), len, NULL, 0, NULL, 0 };
	uint8_t *block;
	bpfcanon_answer answer = write_new(&request, 4, &block);

	*out = (char *)block;
	return answer;
}

/*
 * A canonical file may be longer than its original, since names don't share bytes in it and each section is followed by up to 7 zeros. It is
 * twice as long only if there is little else in it.
 */
bpfcanon_answer bpfcanon_object_canon_new(const uint8_t *bytes, size_t len, uint8_t **out)
{
	const struct request request = { write_object, without_room, 0, 0, input(bytes, len), len, NULL, 0, NULL, 0 };

	return write_new(&request, 2, out);
}

/* A type has at most 24 bytes without its items, and an item 12. Types that share items need more. */
bpfcanon_answer bpfcanon_btf_encode_new(uint32_t to, const bpfcanon_btf_type *types,
                                        size_t types_count, const bpfcanon_btf_item *items,
                                        size_t items_count, const char *strings,
                                        size_t strings_len, uint8_t **out)
{
	const struct request request = { write_encoded, without_room, 0, to, (const uint8_t *)strings,
	                                 strings_len, types, types_count, items, items_count };
	const size_t guess = 32 + 24 * types_count + 12 * items_count + strings_len;

	return write_guessed(&request, guess < BPFCANON_BTF_MAX ? guess : BPFCANON_BTF_MAX, out);
}

/* A block for a number of records, at least for one, or NULL. */
static void *records_block(size_t count, size_t size)
{
	if (count > SIZE_MAX / size)
		return NULL;
	return malloc(count ? count * size : size);
}

/* Makes a block smaller, to a number of records. It stays as it is if that fails. */
static void *shrunk(void *block, size_t count, size_t size)
{
	void *smaller = realloc(block, count ? count * size : size);

	return smaller ? smaller : block;
}

/* An instruction has at least 8 bytes. */
bpfcanon_answer bpfcanon_insn_decode_new(uint32_t order, const uint8_t *bytes, size_t len,
                                         bpfcanon_insn **out)
{
	const size_t capacity = len / 8;
	bpfcanon_insn *block = (bpfcanon_insn *)records_block(capacity, sizeof *block);
	bpfcanon_answer answer;

	*out = NULL;
	if (!block)
		return no_memory(bpfcanon_insn_decode(order, bytes, len, NULL, 0));
	answer = bpfcanon_insn_decode(order, bytes, len, block, capacity);
	if (answer.status != BPFCANON_STATUS_DONE) {
		free(block);
		return answer;
	}
	*out = (bpfcanon_insn *)shrunk(block, answer.written, sizeof *block);
	return answer;
}

/* A type has at least 12 bytes, and an item 8. */
bpfcanon_answer bpfcanon_btf_decode_new(const uint8_t *bytes, size_t len,
                                        bpfcanon_btf_type **types, bpfcanon_btf_item **items)
{
	bpfcanon_btf_type *all = (bpfcanon_btf_type *)records_block(len / 12, sizeof *all);
	bpfcanon_btf_item *all_items = (bpfcanon_btf_item *)records_block(len / 8, sizeof *all_items);
	bpfcanon_answer answer = ended(BPFCANON_STATUS_OUT_OF_MEMORY);

	*types = NULL;
	*items = NULL;
	if (all && all_items)
		answer = bpfcanon_btf_decode(bytes, len, all, len / 12, all_items, len / 8);
	if (answer.status != BPFCANON_STATUS_DONE) {
		free(all);
		free(all_items);
		return answer.status == BPFCANON_STATUS_OUT_OF_MEMORY ? no_memory(bpfcanon_btf_decode(bytes, len, NULL, 0, NULL, 0)) : answer;
	}
	*types = (bpfcanon_btf_type *)shrunk(all, answer.types, sizeof *all);
	*items = (bpfcanon_btf_item *)shrunk(all_items, answer.written, sizeof *all_items);
	return answer;
}

void bpfcanon_free(void *block)
{
	free(block);
}

/* --- Names and the version --- */

const char *bpfcanon_version(void)
{
	return BPFCANON_VERSION;
}

struct meaning {
	const char *name, *text;
};

/* The index in each table is the number of a status or cause. */
static const struct meaning statuses[] = {
	{ "Done", "the call is done, or the two inputs are the same" },
	{ "Different", "the two inputs are different" },
	{ "Fault", "the input, or the first of two, has a fault" },
	{ "FaultSecond", "the second of two inputs has a fault, and the first has none" },
	{ "OutOfMemory", "out of memory" },
	{ "Room", "the output is longer than the capacity of its buffer" },
	{ "Order", "a number is not that of a byte order" },
	{ "Alignment", "an array of records is not aligned as C aligns its type" },
};

static const struct meaning insn_causes[] = {
	{ "Record", "the record is not that of an instruction" },
	{ "Truncated", "the input ends inside an instruction" },
	{ "Opcode", "no instruction has this opcode" },
	{ "Dst", "no instruction with this opcode has this destination register" },
	{ "Src", "no instruction with this opcode has this source register" },
	{ "Offset", "no instruction with this opcode and these registers has this offset" },
	{ "Imm",
	  "no instruction with this opcode, these registers and this offset has this "
	  "immediate" },
	{ "Reserved",
	  "the second slot of a wide load has an opcode, a register or an offset that is "
	  "not zero" },
	{ "NextImm",
	  "the immediate of the second slot is not zero, and this kind of wide load has "
	  "one number only" },
};

static const struct meaning line_causes[] = {
	{ NULL, NULL },
	{ "Char", "a character that is neither blank nor part of a token" },
	{ "Word", "no instruction has this mnemonic" },
	{ "Shape", "the operands are not those of the mnemonic" },
	{ "Range", "a number is out of the range of its field" },
};

static const struct meaning btf_causes[] = {
	{ "Record", "the record is not that of a type" },
	{ "ShortHeader", "the file has fewer than 24 bytes" },
	{ "Magic", "the file does not begin with the BTF magic number in either byte order" },
	{ "Version", "the version is not 1" },
	{ "Flags", "the flags are not 0" },
	{ "HeaderLength", "hdr_len is under 24, over 4,096 or over the length of the file" },
	{ "HeaderTail", "a byte of the header after the first 24 is not 0" },
	{ "TypeLength", "type_len is over 33,554,432" },
	{ "StringLength", "str_len is 0 or over 16,777,216" },
	{ "Sections",
	  "the type and string sections do not follow the header one directly after the "
	  "other" },
	{ "FileLength", "hdr_len, type_len and str_len do not add up to the length of the file" },
	{ "FirstString", "the first byte of the string section is not NUL" },
	{ "LastString", "the last byte of the string section is not NUL" },
	{ "RecordCut", "the type section ends inside the first three words of a record" },
	{ "InfoBits", "an unused bit of info is set" },
	{ "KindNumber", "the kind is 0 or over 19" },
	{ "FlagSet", "kind_flag is set on a kind that has none" },
	{ "Vlen", "vlen is not 0 on a kind without items" },
	{ "TailCut",
	  "the type section ends inside the data after the first three words of a record" },
	{ "NameRange", "name_off is not inside the string section" },
	{ "NameUtf8", "the name is not valid UTF-8" },
	{ "NameMissing", "a type of this kind needs a name" },
	{ "NameUnwanted", "a type of this kind has no name" },
	{ "TextsTooLong", "never reported: the number is kept" },
	{ "NotZero", "the third word of an ARRAY or FWD is not 0" },
	{ "Size", "no type of this kind has this size" },
	{ "Reference", "the type ID is over the number of types" },
	{ "TargetKind", "the type that is referred to has the wrong kind" },
	{ "IntWord", "the encoding, offset and bits of the INT are not valid" },
	{ "MemberInt",
	  "a record with bit-fields has a member whose INT has an offset, or a width "
	  "other than 8, 16, 32, 64 or 128 bits" },
	{ "MemberPlace", "the member ends after the end of its struct or union" },
	{ "Linkage", "the linkage is over 2" },
	{ "Component",
	  "component_idx is neither -1 nor the index of a member or parameter of the "
	  "tagged type" },
};

static const struct meaning object_causes[] = {
	/* from BPFCANON_OBJECT_CAUSE_FILE_TOO_LARGE on */
	{ "FileTooLarge", "the file is longer than 64 MiB" },
	{ "FileCut", "the file is shorter than an ELF header" },
	{ "Magic", "the file doesn't begin with the magic number of ELF" },
	{ "Class", "the file isn't a 64-bit ELF file" },
	{ "ByteOrder", "the file states no byte order" },
	{ "IdentVersion", "EI_VERSION isn't 1" },
	{ "FileType", "the file isn't relocatable" },
	{ "Machine", "the file isn't for BPF" },
	{ "FileVersion", "e_version isn't 1" },
	{ "HeaderSize", "e_ehsize isn't 64" },
	{ "Segments", "there are program headers" },
	{ "SectionHeaderSize", "e_shentsize isn't 64" },
	{ "SectionCount", "the number of sections is 0, or 0xff00 or more" },
	{ "SectionTable", "the section header table isn't inside the file" },
	{ "NamesIndex", "e_shstrndx isn't the index of a section" },
	{ "FirstSection", "the first section header isn't all zeros" },
	{ "NamesTable", "the names of sections aren't in a string table" },
	{ "SectionCut", "the section extends past the end of the file" },
	{ "SectionName", "the section's name is outside the names, or longer than 1,024 bytes" },
	{ "SectionKind", "a section of this type, name and flags can't be kept or dropped" },
	{ "SectionTwice", "there is a second .symtab, .BTF or .BTF.ext" },
	{ "RelocationTarget",
	  "the table of relocations isn't named after its section, or that isn't code or "
	  "data" },
	{ "NoSymbols", "there is no symbol table" },
	{ "SymbolTableSize", "the size of the symbol table is 0 or not a multiple of 24" },
	{ "SymbolEntrySize", "sh_entsize of the symbol table isn't 24" },
	{ "SymbolNames", "the names of symbols aren't in a string table" },
	{ "FirstSymbol", "the first symbol isn't all zeros" },
	{ "SymbolName", "the symbol's name is outside the names of symbols" },
	{ "SymbolSection",
	  "the symbol's section doesn't exist, or isn't code or data and the symbol isn't "
	  "local" },
	{ "SymbolPlace", "the symbol extends past the end of its section" },
	{ "RelocationTableSize", "the size of the table of relocations isn't a multiple of 16" },
	{ "RelocationEntrySize", "sh_entsize of the table of relocations isn't 16" },
	{ "RelocationSymbols", "sh_link of the table of relocations isn't the symbol table" },
	{ "RelocationSymbol",
	  "the relocation's symbol isn't in the symbol table, is a source file or a "
	  "label, or is in a section that isn't code or data" },
	{ "TypesTooLarge", ".BTF has more than 15,728,640 bytes" },
	{ "TypesOrder", "the byte order of .BTF isn't that of the file" },
	{ "TypesLayout", "type_off of .BTF isn't 0" },
	{ "TypesName",
	  "a name_off of .BTF that isn't 0 leads to an empty string, or to a name that is "
	  "too long" },
	{ "TypesSection", "a DATASEC has a reserved name" },
	{ "TypesFlag", "the kind_flag of a struct or union without bit-fields isn't 0" },
	{ "ExtensionWithoutTypes", "there is a .BTF.ext, and no .BTF" },
	{ "ExtensionCut", ".BTF.ext has fewer than 32 bytes" },
	{ "ExtensionMagic",
	  ".BTF.ext doesn't begin with its magic number in the byte order of the file" },
	{ "ExtensionVersion", "the version of .BTF.ext isn't 1" },
	{ "ExtensionFlags", "the flags of .BTF.ext aren't 0" },
	{ "ExtensionHeaderSize", "hdr_len of .BTF.ext is under 32, or not less than the section" },
	{ "ExtensionPart",
	  "a part of .BTF.ext isn't inside the section, or not aligned to 4 bytes" },
	{ "ExtensionRecordSize",
	  "the record size of a part of .BTF.ext isn't 8 (functions) or 16 (lines, CO-RE "
	  "relocations)" },
	{ "ExtensionGroup", "a group of records extends past the end of its part, or is empty" },
	{ "ExtensionString",
	  "a string of .BTF.ext isn't inside the strings of .BTF, or is too long for the "
	  "name of a section" },
	{ "ExtensionLines", "functions and source lines of .BTF.ext don't match" },
	{ "ResultTooLarge",
	  "the canonical file has more than 64 MiB, or more than four times the file and "
	  "64 KiB, or its .BTF more than 15 MiB" },
	{ "SectionsTooLarge", "the sections that are kept are together longer than the file" },
	{ "SymbolDropped",
	  "the symbol is dropped, but has a visibility, a value or a name that a loader "
	  "may read" },
	{ "ExtensionGroupTwice", "a second group of functions has the same section" },
	{ "FunctionLines", "there are source lines of a function that .BTF.ext doesn't have" },
	{ "TypesNameTaken",
	  "a VAR has the name of a FUNC, or a VAR, FWD or TYPE_TAG has the name of a "
	  "section" },
};

static const struct meaning no_meaning = { NULL, NULL };

#define MEANING(table, number) \
	((number) < sizeof(table) / sizeof *(table) ? &(table)[number] : &no_meaning)

const char *bpfcanon_status_name(uint32_t status)
{
	return MEANING(statuses, status)->name;
}

const char *bpfcanon_status_text(uint32_t status)
{
	return MEANING(statuses, status)->text;
}

const char *bpfcanon_insn_cause_name(uint32_t cause)
{
	return MEANING(insn_causes, cause)->name;
}

const char *bpfcanon_insn_cause_text(uint32_t cause)
{
	return MEANING(insn_causes, cause)->text;
}

const char *bpfcanon_line_cause_name(uint32_t cause)
{
	return MEANING(line_causes, cause)->name;
}

const char *bpfcanon_line_cause_text(uint32_t cause)
{
	return MEANING(line_causes, cause)->text;
}

const char *bpfcanon_btf_cause_name(uint32_t cause)
{
	return MEANING(btf_causes, cause)->name;
}

const char *bpfcanon_btf_cause_text(uint32_t cause)
{
	return MEANING(btf_causes, cause)->text;
}

/* A cause of an object file, or of .BTF in it. A file has no records. */
static const struct meaning *object_meaning(uint32_t cause)
{
	return cause && cause <= BPFCANON_BTF_CAUSE_MAX ? MEANING(btf_causes, cause)
	                                             : MEANING(object_causes, cause - BPFCANON_OBJECT_CAUSE_FILE_TOO_LARGE);
}

const char *bpfcanon_object_cause_name(uint32_t cause)
{
	return object_meaning(cause)->name;
}

const char *bpfcanon_object_cause_text(uint32_t cause)
{
	return object_meaning(cause)->text;
}
