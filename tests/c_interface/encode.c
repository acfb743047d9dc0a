/* Types that are encoded from records: by hand, as they were decoded, and records that no BTF has. usage: encode TESTDATA */
#include "checks.h"

#include <time.h>

/* INT "int" of 32 bits, signed; STRUCT "s" of 4 bytes with the bit-field "int" of 3 bits at 5; canonical, with its names at 65 and 69. */
static const uint8_t file[] =
	"\x9f\xeb\1\0\x18\0\0\0" "\0\0\0\0\x28\0\0\0\x28\0\0\0\7\0\0\0" "\1\0\0\0\0\0\0\1\4\0\0\0\x20\0\0\1"
	"\5\0\0\0\1\0\0\x84\4\0\0\0" "\1\0\0\0\1\0\0\0\5\0\0\3" "\0int\0s";
static const char strings[] = "s\0int";
#define STRINGS strings, sizeof strings

struct records {
	bpfcanon_btf_type types[2];
	bpfcanon_btf_item items[1];
};
static const struct records right = {
	{ { .kind = BPFCANON_BTF_KIND_INT, .encoding = BPFCANON_BTF_ENCODING_SIGNED, .bits = 32, .name = 2, .name_len = 3, .size = 4 },
	  { .kind = BPFCANON_BTF_KIND_STRUCT, .items = 1, .name = 0, .name_len = 1, .size = 4 } },
	{ { .name = 2, .name_len = 3, .target = 1, .bit_offset = 5, .width = 3, .kind = BPFCANON_BTF_ITEM_KIND_MEMBER } },
};

static bpfcanon_answer encode(const struct records *given, uint8_t *out, size_t capacity)
{
	return bpfcanon_btf_encode(BPFCANON_ORDER_LITTLE, given->types, 2, given->items, 1, STRINGS, out, capacity);
}

static void types_are_encoded(void)
{
	uint8_t out[sizeof file + 1];

	memset(out, 0xaa, sizeof out);
	CHECK(is(encode(&right, out, sizeof file - 1), needs(sizeof file)));
	CHECK(is(encode(&right, NULL, 0), needs(sizeof file)));
	CHECK(is_filled(out, out + sizeof out));
	CHECK(is(encode(&right, out, sizeof out), written(sizeof file)));
	CHECK(!memcmp(out, file, sizeof file) && is_filled(out + sizeof file, out + sizeof out));
	CHECK(is(bpfcanon_btf_encode(2, right.types, 2, right.items, 1, STRINGS, out, sizeof out), ended(BPFCANON_STATUS_ORDER)));
	for (size_t k = 1; k < 8; k++) {
		const uint8_t *odd = (const uint8_t *)&right + k;

		CHECK(is(bpfcanon_btf_encode(2, (const void *)odd, 1, right.items, 1, STRINGS, out, sizeof out),
		         ended(k == 4 ? BPFCANON_STATUS_ORDER : BPFCANON_STATUS_ALIGNMENT)));
		CHECK(is(bpfcanon_btf_encode(2, right.types, 1, (const void *)odd, 0, STRINGS, out, sizeof out), ended(BPFCANON_STATUS_ALIGNMENT)));
	}
}

/* Wherever C places a type: here at 4 bytes after a multiple of 8. */
static void types_are_placed_anywhere(void)
{
	static const _Alignas(8) struct {
		uint32_t before;
		bpfcanon_btf_type type;
	} odd = { 0, { .kind = BPFCANON_BTF_KIND_PTR } };
	uint8_t out[24 + 12 + 1];

	CHECK(is(bpfcanon_btf_encode(BPFCANON_ORDER_LITTLE, &odd.type, 1, NULL, 0, NULL, 0, out, sizeof out), written(sizeof out)));
}

/* A STRUCT without a name and items, of which `name` and `first` are uninitialised: valgrind shows if a branch depends on them. */
static void fields_without_a_meaning_are_not_read(void)
{
	const size_t name_len = offsetof(bpfcanon_btf_type, name_len);
	const bpfcanon_btf_type empty = { .kind = BPFCANON_BTF_KIND_STRUCT };
	uint8_t *block = allocate(sizeof empty), out[24 + 12 + 1];

	memcpy(block, &empty, offsetof(bpfcanon_btf_type, name));
	memcpy(block + name_len, (const uint8_t *)&empty + name_len, offsetof(bpfcanon_btf_type, first) - name_len);
	CHECK(is(bpfcanon_btf_encode(BPFCANON_ORDER_LITTLE, (const void *)block, 1, NULL, 0, NULL, 0, out, sizeof out), written(sizeof out)));
	free(block);
}

/* Each compiled file, to both byte orders: decoded and encoded it is canonical. Its names stay where they are. */
static void decoded_types_are_encoded(const char *folder)
{
	static const char *const names[] = { "flow_table.little.btf", "flow_table.big.btf" };

	for (size_t k = 0; k < COUNT(names); k++) {
		size_t len;
		uint8_t *bytes = load(folder, names[k], &len);

		for (uint32_t to = 0; to < 2; to++) {
			bpfcanon_btf_type *types;
			bpfcanon_btf_item *items;
			uint8_t *canonical, *encoded;
			bpfcanon_answer all = bpfcanon_btf_decode_new(bytes, len, &types, &items), made = bpfcanon_btf_canon_new(to, bytes, len, &canonical);

			CHECK(is(bpfcanon_btf_encode_new(to, types, all.types, items, all.written, (char *)bytes, len, &encoded), made));
			CHECK(encoded && !memcmp(encoded, canonical, made.written));
			bpfcanon_free(types);
			bpfcanon_free(items);
			bpfcanon_free(canonical);
			bpfcanon_free(encoded);
		}
		free(bytes);
	}
}

/* Encodes records after a change of `given`. They are refused for the type with an index, and nothing is written. */
#define REFUSED_AFTER(index, cause, change) \
	do { \
		struct records given = right; \
		uint8_t out[sizeof file], *block = out; \
		memset(out, 0xaa, sizeof out); \
		change; \
		CHECK(is(encode(&given, out, sizeof out), fault(cause, index)) && is_filled(out, out + sizeof out)); \
		CHECK(is(bpfcanon_btf_encode_new(0, given.types, 2, given.items, 1, STRINGS, &block), fault(cause, index)) && !block); \
	} while (0)

/* Likewise if one field of the type, or of the item, has another value. */
#define REFUSED(index, cause, field, value) REFUSED_AFTER(index, cause, given.field = (value))

static void what_no_btf_has_is_refused(void)
{
	/* kinds, and fields that a kind doesn't have */
	REFUSED(0, BPFCANON_BTF_CAUSE_KIND_NUMBER, types[0].kind, 0);
	REFUSED(1, BPFCANON_BTF_CAUSE_KIND_NUMBER, types[1].kind, 20);
	REFUSED(0, 0, types[0].target, 1);
	REFUSED(1, 0, types[1].flag, 1);
	REFUSED(1, 0, types[1].component, -1);
	REFUSED(1, 0, items[0].offset, 1);
	/* items of another kind, and items that run past the array, also if their end has more than 32 bits */
	REFUSED(1, 0, items[0].kind, BPFCANON_BTF_ITEM_KIND_PARAM);
	REFUSED(1, 0, items[0].kind, 0);
	REFUSED(1, BPFCANON_BTF_CAUSE_TAIL_CUT, types[1].items, 2);
	REFUSED(1, BPFCANON_BTF_CAUSE_TAIL_CUT, types[1].items, 0xffff);
	REFUSED(1, BPFCANON_BTF_CAUSE_TAIL_CUT, types[1].first, 1);
	REFUSED(1, BPFCANON_BTF_CAUSE_TAIL_CUT, types[1].first, UINT32_MAX);
	/* names past the strings, also if their end has more than 32 bits, without a NUL, and with one */
	REFUSED(0, BPFCANON_BTF_CAUSE_NAME_RANGE, types[0].name, sizeof strings);
	REFUSED(0, BPFCANON_BTF_CAUSE_NAME_RANGE, types[0].name, UINT32_MAX);
	REFUSED(0, BPFCANON_BTF_CAUSE_NAME_RANGE, types[0].name_len, UINT32_MAX);
	REFUSED(0, BPFCANON_BTF_CAUSE_NAME_RANGE, types[0].name_len, 2);
	REFUSED(0, BPFCANON_BTF_CAUSE_NAME_RANGE, types[0].name_len, 4);
	REFUSED(1, 0, types[1].name_len, 5);
	REFUSED(1, BPFCANON_BTF_CAUSE_NAME_RANGE, items[0].name, 3);
	/* numbers that their fields can't hold, and what BTF refuses */
	REFUSED(1, 0, items[0].width, 256);
	REFUSED(1, 0, items[0].bit_offset, 1 << 24);
	REFUSED(1, BPFCANON_BTF_CAUSE_REFERENCE, items[0].target, 3);
	REFUSED(1, BPFCANON_BTF_CAUSE_REFERENCE, items[0].target, UINT32_MAX);
	REFUSED(0, BPFCANON_BTF_CAUSE_INT_WORD, types[0].bits, 33);
	REFUSED(1, BPFCANON_BTF_CAUSE_MEMBER_PLACE, items[0].bit_offset, 30);
}

/* Of two faults that which is first in the order of the header. */
static void the_first_fault_is_reported(void)
{
	/* type by type, what a record needs to be written: kind, items, its name, those of its items */
	REFUSED_AFTER(0, BPFCANON_BTF_CAUSE_NAME_RANGE, (given.types[1].kind = 0, given.types[0].name = 7));
	REFUSED_AFTER(1, BPFCANON_BTF_CAUSE_KIND_NUMBER, (given.types[1].kind = 20, given.types[1].name = 7));
	REFUSED_AFTER(1, BPFCANON_BTF_CAUSE_TAIL_CUT, (given.types[1].items = 2, given.types[1].name = 7));
	/* then the BTF */
	REFUSED_AFTER(1, BPFCANON_BTF_CAUSE_TAIL_CUT, (given.types[1].items = 2, given.types[0].bits = 33));
	REFUSED_AFTER(0, BPFCANON_BTF_CAUSE_VLEN, (given.types[0].items = 1));
	REFUSED_AFTER(1, BPFCANON_BTF_CAUSE_REFERENCE, (given.items[0].target = 3, given.types[0].target = 1));
	REFUSED_AFTER(1, BPFCANON_BTF_CAUSE_MEMBER_PLACE, (given.items[0].width = 256 + 3, given.items[0].bit_offset = 30));
}

/* Names that extend over 16 MiB, with the NUL of the last: the section begins with a NUL too, and may have no more. */
static void names_that_are_far_apart_are_refused(void)
{
	static const uint32_t far = (1 << 24) - 2;
	static const struct {
		uint32_t name, item_name, cause; /* of the second type, and of its item */
	} rows[] = {
		{ far, 1, BPFCANON_BTF_CAUSE_STRING_LENGTH },
		{ 1, far, BPFCANON_BTF_CAUSE_STRING_LENGTH },
		/* its own name comes first; there is no NUL after the n at 0 */
		{ far, 0, BPFCANON_BTF_CAUSE_STRING_LENGTH },
		{ 0, far, BPFCANON_BTF_CAUSE_NAME_RANGE },
	};
	char *names = (char *)allocate(far + 2);
	struct records given = right;
	uint8_t *out;

	memset(names, 0, far + 2);
	names[0] = names[1] = names[far] = 'n';
	given.types[0].name = 0;
	given.types[0].name_len = 2;
	given.types[1].name_len = given.items[0].name_len = 1;
	for (size_t k = 0; k < COUNT(rows); k++) {
		given.types[1].name = rows[k].name;
		given.items[0].name = rows[k].item_name;
		CHECK(is(bpfcanon_btf_encode_new(0, given.types, 2, given.items, 1, names, far + 2, &out), fault(rows[k].cause, 1)) && !out);
	}
	given.types[0].name = given.types[0].name_len = given.items[0].name = 1;
	given.types[1].name = far;
	CHECK(bpfcanon_btf_encode_new(0, given.types, 2, given.items, 1, names, far + 2, &out).status == BPFCANON_STATUS_DONE);
	bpfcanon_free(out);
	free(names);
}

/* Types whose names are ends of one long name, as a file may have them: the time doesn't grow with the sum of the lengths of names. */
static void ends_of_one_name_take_little_time(void)
{
	enum { TYPES = 4000, LETTERS = (1 << 24) - 2, TIMES_THE_TIME = 20 };
	char *names = (char *)repeat("n", 1, LETTERS + 1);
	bpfcanon_btf_type *types = (void *)allocate(TYPES * sizeof *types);
	uint8_t *out, *canonical;
	clock_t start, encoding;
	bpfcanon_answer answer;

	names[LETTERS] = 0;
	for (uint32_t k = 0; k < TYPES; k++)
		types[k] = (bpfcanon_btf_type){ .kind = BPFCANON_BTF_KIND_STRUCT, .name = k, .name_len = LETTERS - k };
	start = clock();
	answer = bpfcanon_btf_encode_new(BPFCANON_ORDER_LITTLE, types, TYPES, NULL, 0, names, LETTERS + 1, &out);
	encoding = clock() - start;
	start = clock();
	CHECK(is(answer, written(24 + 12 * TYPES + 1 + LETTERS + 1)));
	CHECK(is(bpfcanon_btf_canon_new(BPFCANON_ORDER_LITTLE, out, answer.written, &canonical), answer));
	CHECK(encoding < TIMES_THE_TIME * (clock() - start));
	bpfcanon_free(out);
	bpfcanon_free(canonical);
	free(types);
	free(names);
}

int main(int argc, char **argv)
{
	if (argc != 2)
		return 2;
	types_are_encoded();
	decoded_types_are_encoded(argv[1]);
	types_are_placed_anywhere();
	fields_without_a_meaning_are_not_read();
	what_no_btf_has_is_refused();
	the_first_fault_is_reported();
	names_that_are_far_apart_are_refused();
	ends_of_one_name_take_little_time();
	return end("encode");
}
