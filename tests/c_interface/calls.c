/*
 * What the C part of the library has of its own besides blocks: names, versions, streams over several calls, and the room of the calls on
 * object files. usage: calls TESTDATA
 */
#include "checks.h"
#include "object_file.h"

/* A stream in pieces of one length, with what is left kept before the next. */
static void stream_in_pieces_of(size_t piece, const uint8_t *big, size_t len, const uint8_t *little, size_t little_len)
{
	uint8_t held[16 + 64], whole[512];
	size_t kept = 0, done = 0;

	for (size_t i = 0; i < len; i += piece) {
		size_t more = len - i < piece ? len - i : piece;
		bpfcanon_answer front;

		memcpy(held + kept, big + i, more);
		front = bpfcanon_insn_front(BPFCANON_ORDER_BIG, BPFCANON_ORDER_LITTLE, held, kept + more, whole + done, sizeof whole - done);
		CHECK(is(front, front_of(front.read)) && kept + more - front.read < 16);
		kept += more - front.read;
		memmove(held, held + front.read, kept);
		done += front.written;
	}
	CHECK(kept == 0 && done == little_len && !memcmp(whole, little, done));
}

static void streams_may_be_cut_anywhere(const char *folder)
{
	static const char exit_and_fault[] = "\x95\0\0\0\0\0\0\0\x04\x10\0\0\x05\0\0\0";
	size_t len, little_len;
	uint8_t out[16], *big = load(folder, "packet_filter.big.bin", &len), *little = load(folder, "packet_filter.little.bin", &little_len);

	for (size_t piece = 1; piece < 60; piece++)
		stream_in_pieces_of(piece, big, len, little, little_len);
	CHECK(is(bpfcanon_insn_front(BPFCANON_ORDER_LITTLE, BPFCANON_ORDER_BIG, BYTES(exit_and_fault), out, sizeof out), front_before(8, 4, 9)));
	CHECK(is(bpfcanon_insn_front(BPFCANON_ORDER_LITTLE, BPFCANON_ORDER_BIG, BYTES(exit_and_fault), out, 7), needs(8)));
	free(big);
	free(little);
}

/* Nothing is written where an output doesn't fit, and nothing behind one that does. The file is its own canonical file. */
static void objects_fit_their_room(void)
{
	const uint8_t *file = (const uint8_t *)&OBJECT;
	uint8_t out[sizeof OBJECT + 1], key[33];

	memset(out, 0xaa, sizeof out);
	memset(key, 0xaa, sizeof key);
	CHECK(is(bpfcanon_object_canon(file, sizeof OBJECT, out, sizeof OBJECT - 1), needs(sizeof OBJECT)));
	CHECK(is(bpfcanon_object_key(file, sizeof OBJECT, key, 31), needs(32)));
	CHECK(is_filled(out, out + sizeof out) && is_filled(key, key + 33));
	CHECK(is(bpfcanon_object_canon(file, sizeof OBJECT, out, sizeof OBJECT), written(sizeof OBJECT)));
	CHECK(is(bpfcanon_object_key(file, sizeof OBJECT, key, 32), written(32)));
	CHECK(!memcmp(out, file, sizeof OBJECT) && is_filled(out + sizeof OBJECT, out + sizeof out) && is_filled(key + 32, key + 33));
}

/* tools/from_causes writes the names and sentences of causes; those of the first show that each call has its own. */
static void numbers_have_names(void)
{
	static const struct {
		const char *(*name)(uint32_t), *(*text)(uint32_t);
		uint32_t first, last;
		const char *first_name, *first_text;
	} rows[] = {
		{ bpfcanon_status_name, bpfcanon_status_text, BPFCANON_STATUS_DONE, BPFCANON_STATUS_ALIGNMENT, "Done",
		  "the call is done, or the two inputs are the same" },
		/* A fault of a call that encodes may have the cause 0. */
		{ bpfcanon_insn_cause_name, bpfcanon_insn_cause_text, 0, BPFCANON_INSN_CAUSE_MAX, "Record",
		  "the record is not that of an instruction" },
		{ bpfcanon_line_cause_name, bpfcanon_line_cause_text, 1, BPFCANON_LINE_CAUSE_MAX, "Char",
		  "a character that is neither blank nor part of a token" },
		{ bpfcanon_btf_cause_name, bpfcanon_btf_cause_text, 0, BPFCANON_BTF_CAUSE_MAX, "Record",
		  "the record is not that of a type" },
		/* Those of BTF are below it. */
		{ bpfcanon_object_cause_name, bpfcanon_object_cause_text, BPFCANON_OBJECT_CAUSE_FILE_TOO_LARGE, BPFCANON_OBJECT_CAUSE_MAX,
		  "FileTooLarge", "the file is longer than 64 MiB" },
	};

	for (size_t k = 0; k < COUNT(rows); k++) {
		CHECK(!strcmp(rows[k].name(rows[k].first), rows[k].first_name) && !strcmp(rows[k].text(rows[k].first), rows[k].first_text));
		for (uint32_t number = rows[k].first; number <= rows[k].last; number++)
			CHECK(*rows[k].name(number) && *rows[k].text(number));
		CHECK(rows[k].first == 0 || !rows[k].name(rows[k].first - 1));
		CHECK(!rows[k].name(rows[k].last + 1) && !rows[k].text(rows[k].last + 1));
		CHECK(!rows[k].name(0x80000001) && !rows[k].text(0xffffffff));
	}
	CHECK(!strcmp(bpfcanon_object_cause_name(BPFCANON_BTF_CAUSE_COMPONENT), "Component") && !bpfcanon_object_cause_name(0));
}

static void statuses_have_these_names(void)
{
	static const char *const names[] = { "Done", "Different", "Fault", "FaultSecond", "OutOfMemory", "Room", "Order", "Alignment" };
	static const char *const texts[] = {
		"the call is done, or the two inputs are the same", "the two inputs are different", "the input, or the first of two, has a fault",
		"the second of two inputs has a fault, and the first has none", "out of memory", "the output is longer than the capacity of its buffer",
		"a number is not that of a byte order", "an array of records is not aligned as C aligns its type",
	};

	_Static_assert(COUNT(names) == BPFCANON_STATUS_ALIGNMENT + 1 && COUNT(texts) == COUNT(names), "a row for each status");
	for (uint32_t status = 0; status < COUNT(names); status++)
		CHECK(!strcmp(bpfcanon_status_name(status), names[status]) && !strcmp(bpfcanon_status_text(status), texts[status]));
}

static void versions_agree(void)
{
	char version[64];

	snprintf(version, sizeof version, "%d.%d.%d", BPFCANON_VERSION_MAJOR, BPFCANON_VERSION_MINOR, BPFCANON_VERSION_PATCH);
	CHECK(!strcmp(version, BPFCANON_VERSION) && !strcmp(version, bpfcanon_version()));
}

int main(int argc, char **argv)
{
	if (argc != 2)
		return 2;
	streams_may_be_cut_anywhere(argv[1]);
	objects_fit_their_room();
	numbers_have_names();
	statuses_have_these_names();
	versions_agree();
	bpfcanon_free(NULL);
	return end("calls");
}

/* The number of version 1.2.3, which the header states as an example. That of this version may have parts that are 0. */
#undef BPFCANON_VERSION_MAJOR
#undef BPFCANON_VERSION_MINOR
#undef BPFCANON_VERSION_PATCH
#define BPFCANON_VERSION_MAJOR 1
#define BPFCANON_VERSION_MINOR 2
#define BPFCANON_VERSION_PATCH 3
_Static_assert(BPFCANON_VERSION_NUMBER == 1002003, "the number of 1.2.3");
