/* The calls on records: worked instructions and types, and arrays that are too short or aren't aligned. */
#include "checks.h"

/* lddw r1, 0x1122334455667788; jsgt r1, r2, -3; call 6; sth [r10-8], -2; exit */
static const uint8_t program[] =
	"\x18\x01\0\0\x88\x77\x66\x55\0\0\0\0\x44\x33\x22\x11" "\x6d\x21\xfd\xff\0\0\0\0" "\x85\0\0\0\x06\0\0\0"
	"\x6a\x0a\xf8\xff\xfe\xff\xff\xff" "\x95\0\0\0\0\0\0";
#define INSNS 5

static const bpfcanon_insn insns[INSNS] = {
	{ .form = BPFCANON_FORM_WIDE, .op = BPFCANON_WIDE_NUMBER, .bits = 64, .dst = 1, .len = 16, .group = BPFCANON_GROUP_BASE64, .imm = 0x55667788,
	  .next_imm = 0x11223344 },
	{ .form = BPFCANON_FORM_BRANCH, .op = BPFCANON_BRANCH_SGT, .bits = 64, .dst = 1, .src = 2, .by_reg = 1, .len = 8, .off = -3,
	  .group = BPFCANON_GROUP_BASE64, .offset = 16 },
	{ .form = BPFCANON_FORM_CALL_HELPER, .len = 8, .group = BPFCANON_GROUP_BASE32, .imm = 6, .offset = 24 },
	{ .form = BPFCANON_FORM_STORE_IMM, .bits = 16, .dst = 10, .len = 8, .off = -8, .group = BPFCANON_GROUP_BASE32, .imm = -2, .offset = 32 },
	{ .form = BPFCANON_FORM_EXIT, .len = 8, .group = BPFCANON_GROUP_BASE32, .offset = 40 },
};

/* INT "int" of 32 bits, signed; STRUCT "s" of 4 bytes with the bit-field "int" of 3 bits at 5 */
static const uint8_t file[] =
	"\x9f\xeb\1\0\x18\0\0\0" "\0\0\0\0\x28\0\0\0\x28\0\0\0\7\0\0\0" "\1\0\0\0\0\0\0\1\4\0\0\0\x20\0\0\1"
	"\5\0\0\0\1\0\0\x84\4\0\0\0" "\1\0\0\0\1\0\0\0\5\0\0\3" "\0int\0s";

static const bpfcanon_btf_type types[] = {
	{ .kind = BPFCANON_BTF_KIND_INT, .encoding = BPFCANON_BTF_ENCODING_SIGNED, .bits = 32, .name = 65, .name_len = 3, .size = 4 },
	{ .kind = BPFCANON_BTF_KIND_STRUCT, .items = 1, .name = 69, .name_len = 1, .size = 4 },
};
static const bpfcanon_btf_item items[] = {
	{ .name = 65, .name_len = 3, .target = 1, .bit_offset = 5, .width = 3, .kind = BPFCANON_BTF_ITEM_KIND_MEMBER },
};

static bpfcanon_answer decoded(uint32_t types_count, size_t items_count)
{
	return (bpfcanon_answer){ .status = BPFCANON_STATUS_DONE, .types = types_count, .written = items_count };
}

static bpfcanon_answer needs_records(uint32_t types_count, size_t items_count)
{
	return (bpfcanon_answer){ .status = BPFCANON_STATUS_ROOM, .types = types_count, .needed = items_count };
}

static void instructions_are_decoded(void)
{
	bpfcanon_insn out[INSNS + 1];

	memset(out, 0xaa, sizeof out);
	CHECK(is(bpfcanon_insn_decode(BPFCANON_ORDER_LITTLE, program, sizeof program, out, INSNS - 1), needs(INSNS)));
	CHECK(is(bpfcanon_insn_decode(BPFCANON_ORDER_LITTLE, program, sizeof program - 1, out, INSNS), fault(BPFCANON_INSN_CAUSE_TRUNCATED, 40)));
	CHECK(is(bpfcanon_insn_decode(2, program, sizeof program, out, INSNS), ended(BPFCANON_STATUS_ORDER)));
	CHECK(is_filled(out, out + INSNS + 1));
	CHECK(is(bpfcanon_insn_decode(BPFCANON_ORDER_LITTLE, program, sizeof program, out, INSNS + 1), written(INSNS)));
	CHECK(!memcmp(out, insns, sizeof insns) && is_filled(out + INSNS, out + INSNS + 1));
}

/* The number of a wide load has the bits of both immediates, whose signs don't matter. */
static void wide_loads_have_numbers(void)
{
	static const uint64_t numbers[] = { 0x7fffffff80000000, 0x80000000, UINT64_MAX };

	for (size_t k = 0; k < COUNT(numbers); k++) {
		uint8_t code[16] = { 0x18 };
		bpfcanon_insn insn;

		for (size_t byte = 0; byte < 4; byte++) {
			code[4 + byte] = numbers[k] >> 8 * byte;
			code[12 + byte] = numbers[k] >> (32 + 8 * byte);
		}
		CHECK(is(bpfcanon_insn_decode(BPFCANON_ORDER_LITTLE, code, sizeof code, &insn, 1), written(1)));
		CHECK(bpfcanon_insn_number(&insn) == numbers[k]);
	}
}

/* The fields that aren't read have other values here. */
static void instructions_are_encoded(void)
{
	bpfcanon_insn given[INSNS], other[INSNS];
	uint8_t out[sizeof program + 1];

	memcpy(given, insns, sizeof insns);
	for (size_t k = 0; k < INSNS; k++) {
		given[k].len = given[k].zero = k;
		given[k].group = 0xffff;
		given[k].offset = UINT64_MAX;
	}
	memset(out, 0xaa, sizeof out);
	CHECK(is(bpfcanon_insn_encode(BPFCANON_ORDER_LITTLE, given, INSNS, out, sizeof program - 1), needs(sizeof program)));
	CHECK(is(bpfcanon_insn_encode(2, given, INSNS, out, sizeof out), ended(BPFCANON_STATUS_ORDER)));
	CHECK(is_filled(out, out + sizeof out));
	CHECK(is(bpfcanon_insn_encode(BPFCANON_ORDER_LITTLE, given, INSNS, out, sizeof out), written(sizeof program)));
	CHECK(!memcmp(out, program, sizeof program) && is_filled(out + sizeof program, out + sizeof out));
	CHECK(is(bpfcanon_insn_encode(BPFCANON_ORDER_BIG, given, INSNS, out, sizeof out), written(sizeof program)));
	CHECK(is(bpfcanon_insn_decode(BPFCANON_ORDER_BIG, out, sizeof program, other, INSNS), written(INSNS)));
	CHECK(!memcmp(other, insns, sizeof insns));
	given[2].form = 200;
	CHECK(is(bpfcanon_insn_encode(BPFCANON_ORDER_LITTLE, given, INSNS, out, sizeof out), fault(0, 2)));
}

static void types_are_decoded(void)
{
	bpfcanon_btf_type out[3];
	bpfcanon_btf_item out_items[2];

	memset(out, 0xaa, sizeof out);
	memset(out_items, 0xaa, sizeof out_items);
	CHECK(is(bpfcanon_btf_decode(file, sizeof file, out, 1, out_items, 2), needs_records(2, 1)));
	CHECK(is(bpfcanon_btf_decode(file, sizeof file, out, 3, out_items, 0), needs_records(2, 1)));
	CHECK(is(bpfcanon_btf_decode(file, sizeof file - 1, out, 3, out_items, 2), fault(BPFCANON_BTF_CAUSE_FILE_LENGTH, sizeof file - 1)));
	CHECK(is_filled(out, out + 3) && is_filled(out_items, out_items + 2));
	CHECK(is(bpfcanon_btf_decode(file, sizeof file, out, 3, out_items, 2), decoded(2, 1)));
	CHECK(!memcmp(out, types, sizeof types) && is_filled(out + 2, out + 3));
	CHECK(!memcmp(out_items, items, sizeof items) && is_filled(out_items + 1, out_items + 2));
}

static void loops_go_over_types_and_items(void)
{
	const bpfcanon_btf_type *type, *no_types = NULL;
	const bpfcanon_btf_item *item, *no_items = NULL;
	char names[64] = "";

	bpfcanon_each_type(type, types, COUNT(types)) {
		strcat(names, bpfcanon_btf_name(file, type->name));
		strcat(names, " ");
		bpfcanon_each_item(item, type, items)
			strcat(names, bpfcanon_btf_name(file, item->name));
	}
	CHECK(!strcmp(names, "int s int"));
	/* Nothing is added to a null pointer. */
	bpfcanon_each_type(type, no_types, 0)
		CHECK(!"there are no types");
	bpfcanon_each_item(item, types, no_items)
		CHECK(!"an INT has no items");
}

/* Type 1 is an INT, 2 a const of void, 3 a volatile of 1, 4 a typedef of 3, 5 a const of itself, 6 to 8 lead to 7, 9 to a type that there isn't. */
static const bpfcanon_btf_type chains[] = {
	{ .kind = BPFCANON_BTF_KIND_INT },
	{ .kind = BPFCANON_BTF_KIND_CONST },
	{ .kind = BPFCANON_BTF_KIND_VOLATILE, .target = 1 },
	{ .kind = BPFCANON_BTF_KIND_TYPEDEF, .target = 3 },
	{ .kind = BPFCANON_BTF_KIND_CONST, .target = 5 },
	{ .kind = BPFCANON_BTF_KIND_RESTRICT, .target = 7 },
	{ .kind = BPFCANON_BTF_KIND_TYPE_TAG, .target = 8 },
	{ .kind = BPFCANON_BTF_KIND_CONST, .target = 7 },
	{ .kind = BPFCANON_BTF_KIND_CONST, .target = 10 },
};

static void chains_of_types_are_followed(void)
{
	static const int64_t ends[] = { 0, 1, 0, 1, 1, BPFCANON_BTF_CYCLE, BPFCANON_BTF_CYCLE, BPFCANON_BTF_CYCLE, BPFCANON_BTF_CYCLE,
	                                BPFCANON_BTF_NO_SUCH_TYPE, BPFCANON_BTF_NO_SUCH_TYPE };

	for (uint32_t id = 0; id < COUNT(ends); id++)
		CHECK(bpfcanon_btf_resolve(chains, COUNT(chains), id) == ends[id]);
	CHECK(bpfcanon_btf_resolve(chains, COUNT(chains), UINT32_MAX) == BPFCANON_BTF_NO_SUCH_TYPE);
	CHECK(bpfcanon_btf_resolve(NULL, 0, 0) == 0 && bpfcanon_btf_resolve(NULL, 0, 1) == BPFCANON_BTF_NO_SUCH_TYPE);
}

static void types_are_found_by_name(void)
{
	static const uint8_t names[] = "\0int\0s\0inter";
	static const bpfcanon_btf_type named[] = {
		{ .name = 1, .name_len = 3 }, { .name = 5, .name_len = 1 }, { .name = 0, .name_len = 0 }, { .name = 1, .name_len = 3 },
		{ .name = 7, .name_len = 5 },
	};
	static const struct { const char *name; uint32_t after, id; } rows[] = {
		{ "int", 0, 1 }, { "int", 1, 4 }, { "int", 4, 0 }, { "s", 0, 2 }, { "s", 2, 0 }, { "inter", 0, 5 }, { "in", 0, 0 }, { "", 0, 0 },
		{ "int", 5, 0 }, { "int", UINT32_MAX, 0 },
	};

	for (size_t k = 0; k < COUNT(rows); k++)
		CHECK(bpfcanon_btf_by_name(names, named, COUNT(named), rows[k].name, rows[k].after) == rows[k].id);
	CHECK(bpfcanon_btf_by_name(NULL, NULL, 0, "int", 0) == 0);
}

/* An address that isn't aligned is refused before anything else, even with no capacity. Types need 4 bytes, the others 8. */
static void arrays_are_aligned(void)
{
	_Alignas(8) uint8_t bytes[4 * sizeof(bpfcanon_btf_type)];
	bpfcanon_btf_item few[1];
	uint8_t out[8];

	memset(bytes, 0xaa, sizeof bytes);
	memset(out, 0xaa, sizeof out);
	for (size_t k = 1; k < 8; k++) {
		void *odd = bytes + k;

		CHECK(is(bpfcanon_insn_decode(2, program, sizeof program, odd, 1), ended(BPFCANON_STATUS_ALIGNMENT)));
		CHECK(is(bpfcanon_insn_encode(2, odd, 1, out, sizeof out), ended(BPFCANON_STATUS_ALIGNMENT)));
		CHECK(is(bpfcanon_btf_decode(file, 0, odd, 2, few, 1),
		         k == 4 ? fault(BPFCANON_BTF_CAUSE_SHORT_HEADER, 0) : ended(BPFCANON_STATUS_ALIGNMENT)));
		CHECK(is(bpfcanon_btf_decode(file, sizeof file, NULL, 0, odd, 0), ended(BPFCANON_STATUS_ALIGNMENT)));
	}
	CHECK(is_filled(bytes, bytes + sizeof bytes) && is_filled(out, out + sizeof out));
}

_Static_assert(sizeof(bpfcanon_insn) == 32 && sizeof(bpfcanon_btf_type) == 40 && sizeof(bpfcanon_btf_item) == 40, "the sizes of records");

int main(void)
{
	instructions_are_decoded();
	wide_loads_have_numbers();
	instructions_are_encoded();
	types_are_decoded();
	loops_go_over_types_and_items();
	chains_of_types_are_followed();
	types_are_found_by_name();
	arrays_are_aligned();
	return end("records");
}
