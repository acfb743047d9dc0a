/*
 * What the C part passes for a null pointer to the proved calls, which are others here: if its length is 0 an address, aligned for its
 * records, since a slice of Rattle has one; and NULL if it has a length, so that the call faults and touches no memory of the library.
 */
#include "checks.h"
#include "proved.h"

#define LONG 4096

static long proved_calls;
static int has_block; /* whether the output is a block of the library */

static int is_right(const void *at, size_t len, size_t alignment)
{
	return len ? !at : at && (uintptr_t)at % alignment == 0;
}

#define IN(at, len) CHECK(is_right(at, len, __alignof__(*(at))));
#define OUT(at, len) CHECK(has_block ? !!(at) : is_right(at, len, __alignof__(*(at))));

/* Defines a proved call that checks its pointers, and finds a fault. */
#define PROVED(call, parameters, pointers) \
	bpfcanon_answer bpfcanon_proved_##call parameters      \
	{                                                      \
		pointers                                       \
		proved_calls++;                                \
		return ended(BPFCANON_STATUS_FAULT);           \
	}
#define BYTES_IN const uint8_t *in, size_t len
#define BYTES_OUT uint8_t *out, size_t capacity
#define TWO BYTES_IN, const uint8_t *second, size_t second_len
#define NUMBER __attribute__((unused)) uint32_t

PROVED(btf_canon, (NUMBER to, BYTES_IN, BYTES_OUT), IN(in, len) OUT(out, capacity))
PROVED(btf_check, (BYTES_IN), IN(in, len))
PROVED(btf_decode, (BYTES_IN, bpfcanon_btf_type *types, size_t count, bpfcanon_btf_item *items, size_t items_count),
       IN(in, len) OUT(types, count) OUT(items, items_count))
PROVED(btf_encode, (NUMBER to, const bpfcanon_btf_type *types, size_t count, const bpfcanon_btf_item *items, size_t items_count, BYTES_IN, BYTES_OUT),
       IN(types, count) IN(items, items_count) IN(in, len) OUT(out, capacity))
PROVED(btf_same, (TWO), IN(in, len) IN(second, second_len))
PROVED(btf_show, (BYTES_IN, BYTES_OUT), IN(in, len) OUT(out, capacity))
PROVED(insn_canon, (NUMBER order, NUMBER to, BYTES_IN, BYTES_OUT), IN(in, len) OUT(out, capacity))
PROVED(insn_decode, (NUMBER order, BYTES_IN, bpfcanon_insn *insns, size_t count), IN(in, len) OUT(insns, count))
PROVED(insn_encode, (NUMBER to, const bpfcanon_insn *insns, size_t count, BYTES_OUT), IN(insns, count) OUT(out, capacity))
PROVED(insn_front, (NUMBER order, NUMBER to, BYTES_IN, BYTES_OUT), IN(in, len) OUT(out, capacity))
PROVED(insn_groups, (NUMBER order, BYTES_IN), IN(in, len))
PROVED(insn_read, (NUMBER to, BYTES_IN, BYTES_OUT), IN(in, len) OUT(out, capacity))
PROVED(insn_same, (NUMBER order, BYTES_IN, NUMBER other, const uint8_t *second, size_t second_len), IN(in, len) IN(second, second_len))
PROVED(insn_show, (NUMBER order, BYTES_IN, BYTES_OUT), IN(in, len) OUT(out, capacity))
PROVED(object_canon, (BYTES_IN, BYTES_OUT), IN(in, len) OUT(out, capacity))
PROVED(object_check, (BYTES_IN), IN(in, len))
PROVED(object_key, (BYTES_IN, BYTES_OUT), IN(in, len) OUT(out, capacity))
PROVED(object_same, (TWO), IN(in, len) IN(second, second_len))

/* Makes each call with null pointers of these lengths. */
static void make_calls(size_t a, size_t b, size_t c, size_t d)
{
	uint8_t *block;
	char *text;
	bpfcanon_insn *insns;
	bpfcanon_btf_type *types;
	bpfcanon_btf_item *items;

	has_block = 0;
	bpfcanon_btf_canon(0, NULL, a, NULL, b);
	bpfcanon_btf_check(NULL, a);
	bpfcanon_btf_decode(NULL, a, NULL, b, NULL, c);
	bpfcanon_btf_encode(0, NULL, a, NULL, b, NULL, c, NULL, d);
	bpfcanon_btf_same(NULL, a, NULL, b);
	bpfcanon_btf_show(NULL, a, NULL, b);
	bpfcanon_insn_canon(0, 1, NULL, a, NULL, b);
	bpfcanon_insn_decode(0, NULL, a, NULL, b);
	bpfcanon_insn_encode(0, NULL, a, NULL, b);
	bpfcanon_insn_front(0, 1, NULL, a, NULL, b);
	bpfcanon_insn_groups(0, NULL, a);
	bpfcanon_insn_read(0, NULL, a, NULL, b);
	bpfcanon_insn_same(0, NULL, a, 1, NULL, b);
	bpfcanon_insn_show(0, NULL, a, NULL, b);
	bpfcanon_object_canon(NULL, a, NULL, b);
	bpfcanon_object_check(NULL, a);
	bpfcanon_object_key(NULL, a, NULL, b);
	bpfcanon_object_same(NULL, a, NULL, b);
	has_block = 1;
	bpfcanon_btf_canon_new(0, NULL, a, &block);
	bpfcanon_btf_decode_new(NULL, a, &types, &items);
	bpfcanon_btf_encode_new(0, NULL, a, NULL, b, NULL, c, &block);
	bpfcanon_btf_show_new(NULL, a, &text);
	bpfcanon_insn_canon_new(0, 1, NULL, a, &block);
	bpfcanon_insn_decode_new(0, NULL, a, &insns);
	bpfcanon_insn_read_new(0, NULL, a, &block);
	bpfcanon_insn_show_new(0, NULL, a, &text);
	bpfcanon_object_canon_new(NULL, a, &block);
}

int main(void)
{
	for (int mask = 0; mask < 16; mask++)
		make_calls(mask & 1 ? LONG : 0, mask & 2 ? LONG : 0, mask & 4 ? LONG : 0, mask & 8 ? LONG : 0);
	CHECK(proved_calls == 16 * 27);
	return end("pointers");
}
