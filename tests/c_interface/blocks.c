/*
 * Each call that allocates, on files with and without a fault: it answers as the call that writes into a buffer, its blocks are its own,
 * a NUL follows bytes and text, and with each allocation refused, by itself and with all that follow, nothing stays allocated. The pointers
 * that it sets hold something else beforehand. usage: blocks TESTDATA
 */
#include "checks.h"
#include "allocations.h"
#include "object_file.h"

#define ROOM (8 << 20)

struct input {
	const uint8_t *bytes;
	size_t len;
	uint32_t order, to;
};

struct made {
	bpfcanon_answer answer;
	void *first, *second;
};

static _Alignas(8) uint8_t room[2][ROOM], marker;

/* The records that are encoded, of which the input has the names. */
static bpfcanon_btf_type types[64];
static bpfcanon_btf_item items[64];
static bpfcanon_answer records;

/* A call in both of its shapes. */
#define CALL(name, type, call_new, call) \
	static struct made name(struct input in, int is_new) \
	{ \
		type *block = (type *)&marker; \
		bpfcanon_answer answer = is_new ? call_new : call; \
		return (struct made){ answer, block, NULL }; \
	}

CALL(btf_canon, uint8_t, bpfcanon_btf_canon_new(in.to, in.bytes, in.len, &block), bpfcanon_btf_canon(in.to, in.bytes, in.len, room[0], ROOM))
CALL(btf_show, char, bpfcanon_btf_show_new(in.bytes, in.len, &block), bpfcanon_btf_show(in.bytes, in.len, (char *)room[0], ROOM))
CALL(insn_canon, uint8_t, bpfcanon_insn_canon_new(in.order, in.to, in.bytes, in.len, &block),
     bpfcanon_insn_canon(in.order, in.to, in.bytes, in.len, room[0], ROOM))
CALL(insn_show, char, bpfcanon_insn_show_new(in.order, in.bytes, in.len, &block),
     bpfcanon_insn_show(in.order, in.bytes, in.len, (char *)room[0], ROOM))
CALL(insn_read, uint8_t, bpfcanon_insn_read_new(in.to, (const char *)in.bytes, in.len, &block),
     bpfcanon_insn_read(in.to, (const char *)in.bytes, in.len, room[0], ROOM))
CALL(object_canon, uint8_t, bpfcanon_object_canon_new(in.bytes, in.len, &block), bpfcanon_object_canon(in.bytes, in.len, room[0], ROOM))
CALL(insn_decode, bpfcanon_insn, bpfcanon_insn_decode_new(in.order, in.bytes, in.len, &block),
     bpfcanon_insn_decode(in.order, in.bytes, in.len, (bpfcanon_insn *)room[0], ROOM / sizeof(bpfcanon_insn)))

CALL(btf_encode, uint8_t,
     bpfcanon_btf_encode_new(in.to, types, records.types, items, records.written, (const char *)in.bytes, in.len, &block),
     bpfcanon_btf_encode(in.to, types, records.types, items, records.written, (const char *)in.bytes, in.len, room[0], ROOM))

static struct made btf_decode(struct input in, int is_new)
{
	const size_t most = ROOM / sizeof(bpfcanon_btf_type);
	bpfcanon_btf_type *types = (bpfcanon_btf_type *)&marker;
	bpfcanon_btf_item *items = (bpfcanon_btf_item *)&marker;
	bpfcanon_answer answer = is_new ? bpfcanon_btf_decode_new(in.bytes, in.len, &types, &items)
		: bpfcanon_btf_decode(in.bytes, in.len, (bpfcanon_btf_type *)room[0], most, (bpfcanon_btf_item *)room[1], most);

	return (struct made){ answer, types, items };
}

static const struct call {
	struct made (*run)(struct input in, int is_new);
	size_t size; /* of a record, or 1 */
	int needs_memory; /* to find a fault */
} BTF_CALLS[] = { { btf_canon, 1, 1 }, { btf_show, 1, 1 }, { btf_decode, sizeof(bpfcanon_btf_type), 1 } },
  INSN_CALLS[] = { { insn_canon, 1, 0 }, { insn_show, 1, 0 }, { insn_decode, sizeof(bpfcanon_insn), 0 } },
  ENCODE_CALLS[] = { { btf_encode, 1, 1 } }, READ_CALLS[] = { { insn_read, 1, 1 } }, OBJECT_CALLS[] = { { object_canon, 1, 1 } };

/* A block with what the call without one has written in the room, or none if that isn't done. */
static int is_block(const uint8_t *block, const uint8_t *wanted, size_t count, size_t size)
{
	return block && block != &marker && !memcmp(block, wanted, count * size) && (size > 1 || !block[count]);
}

static int is_right(const struct call *call, struct made made, bpfcanon_answer right)
{
	if (!is(made.answer, right))
		return 0;
	if (right.status != BPFCANON_STATUS_DONE)
		return !made.first && !made.second;
	return is_block(made.first, room[0], call->run == btf_decode ? right.types : right.written, call->size)
		&& (call->run != btf_decode || is_block(made.second, room[1], right.written, call->size));
}

/* Without memory a fault is reported if it is found, and nothing is handed out. */
static int is_refusal(const struct call *call, struct made made, bpfcanon_answer right)
{
	int is_fault = right.status == BPFCANON_STATUS_FAULT || right.status == BPFCANON_STATUS_ORDER;
	int has_to_be_found = is_fault && (refuses_one || !call->needs_memory);

	if (made.first || made.second)
		return 0;
	return (is_fault && is(made.answer, right)) || (!has_to_be_found && is(made.answer, ended(BPFCANON_STATUS_OUT_OF_MEMORY)));
}

/* A canonical object file is right too if the call does without an allocation, such as room for a list that it grows later. */
static int does_without(const struct call *call, struct made made, bpfcanon_answer right)
{
	return call->run == object_canon && refuses_one && is_right(call, made, right);
}

/* The call with 0, 1, 2 .. allocations, until that is enough. A block that can't be made smaller is handed out as it is. */
static void refuse_each(const struct call *call, struct input in, bpfcanon_answer right)
{
	long blocks = live;

	for (long n = 0; n < 10000; n++) {
		struct made made;

		refused = shrinks = 0;
		allowed = n;
		made = call->run(in, 1);
		allowed = -1;
		CHECK(refused ? is_refusal(call, made, right) || does_without(call, made, right) : is_right(call, made, right));
		bpfcanon_free(made.first);
		bpfcanon_free(made.second);
		CHECK(live == blocks);
		if (!refused && !shrinks)
			return;
	}
	CHECK(!"10,000 allocations are enough for a call");
}

static void try_input(const struct call *calls, size_t count, struct input in)
{
	for (size_t k = 0; k < count; k++) {
		bpfcanon_answer right = calls[k].run(in, 0).answer;

		for (refuses_one = 0; refuses_one < 2; refuses_one++)
			refuse_each(&calls[k], in, right);
	}
}

#define TRY(calls, ...) try_input(calls, COUNT(calls), (struct input){ __VA_ARGS__ })

/* Each file to both orders, and without its last byte, which is a fault. */
static void try_files(const char *folder)
{
	static const char *const names[] = { "little", "big" };

	for (uint32_t order = 0; order < 2; order++) {
		char name[64];
		size_t types_len, insns_len;
		uint8_t *btf, *insns;

		snprintf(name, sizeof name, "flow_table.%s.btf", names[order]);
		btf = load(folder, name, &types_len);
		records = bpfcanon_btf_decode(btf, types_len, types, COUNT(types), items, COUNT(items));
		CHECK(records.status == BPFCANON_STATUS_DONE);
		snprintf(name, sizeof name, "packet_filter.%s.bin", names[order]);
		insns = load(folder, name, &insns_len);
		for (uint32_t to = 0; to < 2; to++) {
			TRY(BTF_CALLS, btf, types_len, order, to);
			TRY(BTF_CALLS, btf, types_len - 1, order, to);
			TRY(ENCODE_CALLS, btf, types_len, order, to);
			TRY(ENCODE_CALLS, btf, types_len - 1, order, to);
			TRY(INSN_CALLS, insns, insns_len, order, to);
			TRY(INSN_CALLS, insns, insns_len - 1, order, to);
			TRY(READ_CALLS, BYTES("mov r1, r2\nexit\n"), order, to);
			TRY(READ_CALLS, BYTES("exit\nleave\n"), order, to);
		}
		free(btf);
		free(insns);
	}
}

/* FLOATs with one long name, so that the listing doesn't fit into the first block, which has 4 times the length of the file. */
static void try_long_name(uint32_t floats, uint32_t letters)
{
	const uint32_t types = floats * 12, len = 24 + types + letters + 2;
	const uint32_t header[] = { 0x0001eb9f, 24, 0, types, types, letters + 2 }, record[] = { 1, 0x10000000, 8 };
	uint8_t *file = allocate(len);

	memcpy(file, header, 24);
	for (size_t at = 24; at < 24 + types; at += 12)
		memcpy(file + at, record, 12);
	memset(file + 24 + types, 'n', letters + 2);
	file[24 + types] = file[len - 1] = 0;
	TRY(BTF_CALLS, file, len, 0, 0);
	free(file);
}

/* Records that aren't aligned are refused as such, also if there is no memory. */
static void try_odd_addresses(void)
{
	const void *odd = room[0] + 1;
	uint8_t *block = &marker;

	allowed = refuses_one = 0;
	CHECK(is(bpfcanon_btf_encode_new(0, odd, 1, NULL, 0, NULL, 0, &block), ended(BPFCANON_STATUS_ALIGNMENT)) && !block);
	CHECK(is(bpfcanon_btf_encode_new(0, types, 1, odd, 1, NULL, 0, &block), ended(BPFCANON_STATUS_ALIGNMENT)) && !block);
	allowed = -1;
}

int main(int argc, char **argv)
{
	if (argc != 2)
		return 2;
	TRY(INSN_CALLS, NULL, 0, 0, 1);
	TRY(READ_CALLS, NULL, 0, 0, 1);
	TRY(BTF_CALLS, NULL, 0, 0, 1);
	TRY(INSN_CALLS, NULL, 0, 2, 2);
	TRY(OBJECT_CALLS, (const uint8_t *)&OBJECT, sizeof OBJECT, 0, 0);
	TRY(OBJECT_CALLS, (const uint8_t *)&OBJECT, sizeof OBJECT - 1, 0, 0);
	try_files(argv[1]);
	try_long_name(40, 100000);
	/* A listing of 1,325 bytes of a file of 331: one more than the first block. */
	try_long_name(5, 245);
	try_odd_addresses();
	return end("blocks");
}
