/*
 * Each row of testdata/vectors.tsv by each call that reads it, with a buffer of each length that matters: 0, one byte too
 * few, and the needed length followed by bytes that must not change. testdata/README.md lists the columns. A line is
 * printed for each row that is wrong, and each kind has a row.
 * usage: vectors FILE
 */
#include "checks.h"

#define FIELDS 7
#define SPARE 3

struct bytes {
	uint8_t *at;
	size_t len;
};

static char *fields[FIELDS];
static int line_number;
static uint8_t *kept[2 * FIELDS]; /* the bytes of a row, each in a block of their own, so that a sanitizer sees where a call reads */
static size_t kept_count;

static uint8_t *keep(size_t size)
{
	return kept[kept_count++] = allocate(size);
}

static int digit(char c)
{
	return c <= '9' ? c - '0' : c - 'a' + 10;
}

/* The bytes of a field of hexadecimal digits. */
static struct bytes data(const char *field)
{
	struct bytes bytes = { keep(*field == '-' ? 0 : strlen(field) / 2), 0 };

	for (; *field && *field != '-'; field += 2)
		bytes.at[bytes.len++] = digit(field[0]) * 16 + digit(field[1]);
	return bytes;
}

/* The bytes of a field with a listing, and space for a newline; in the field \n, \t, \r, \", \\ and \xHH are escapes. */
static struct bytes text(const char *field)
{
	struct bytes bytes = { keep(strlen(field) + 1), 0 };

	if (!strcmp(field, "-"))
		return bytes;
	while (*field) {
		char c = *field++;

		if (c == '\\') {
			c = *field++;
			if (c == 'x') {
				c = digit(field[0]) * 16 + digit(field[1]);
				field += 2;
			} else
				c = c == 'n' ? '\n' : c == 't' ? '\t' : c == 'r' ? '\r' : c;
		}
		bytes.at[bytes.len++] = c;
	}
	return bytes;
}

/* The number of a cause by its name. */
static uint32_t number_of(const char *(*name)(uint32_t), const char *cause)
{
	uint32_t number = 1;

	while (name(number) && strcmp(name(number), cause))
		number++;
	return number;
}

/* --- Calls in one shape --- */

struct call {
	bpfcanon_answer (*run)(const struct call *call, uint8_t *out, size_t capacity);
	uint32_t order, to;
	struct bytes given;
};

static bpfcanon_answer insn_canon(const struct call *c, uint8_t *out, size_t capacity) { return bpfcanon_insn_canon(c->order, c->to, c->given.at, c->given.len, out, capacity); }
static bpfcanon_answer insn_show(const struct call *c, uint8_t *out, size_t capacity) { return bpfcanon_insn_show(c->order, c->given.at, c->given.len, (char *)out, capacity); }
static bpfcanon_answer insn_read(const struct call *c, uint8_t *out, size_t capacity) { return bpfcanon_insn_read(c->to, (char *)c->given.at, c->given.len, out, capacity); }
static bpfcanon_answer btf_canon(const struct call *c, uint8_t *out, size_t capacity) { return bpfcanon_btf_canon(c->to, c->given.at, c->given.len, out, capacity); }
static bpfcanon_answer btf_show(const struct call *c, uint8_t *out, size_t capacity) { return bpfcanon_btf_show(c->given.at, c->given.len, (char *)out, capacity); }

/* The call writes this output, and nothing after it or if the buffer is too short. */
static void writes(struct call call, struct bytes right)
{
	uint8_t *out = allocate(right.len + SPARE);

	for (size_t capacity = 0; capacity < right.len + SPARE; capacity = capacity + 1 < right.len ? right.len - 1 : capacity + 1) {
		bpfcanon_answer answer;

		memset(out, 0xaa, right.len + SPARE);
		answer = call.run(&call, out, capacity);
		if (capacity < right.len)
			CHECK(is(answer, needs(right.len)) && is_filled(out, out + right.len + SPARE));
		else
			CHECK(is(answer, written(right.len)) && !memcmp(out, right.at, right.len) && is_filled(out + right.len, out + right.len + SPARE));
	}
	free(out);
}

/* The call has this answer, and writes nothing. */
static void ends(struct call call, bpfcanon_answer right)
{
	uint8_t out[64];

	memset(out, 0xaa, sizeof out);
	CHECK(is(call.run(&call, out, sizeof out), right) && is_filled(out, out + sizeof out));
}

/* --- Rows --- */

static uint32_t mask_of(const char *group)
{
	static const char *const names[] = { "base32", "base64", "atomic32", "atomic64", "divmul32", "divmul64", "packet" };
	uint32_t bit = 0;

	while (strcmp(names[bit], group))
		bit++;
	return 1u << bit | (bit < 6 && bit % 2 ? 1u << (bit - 1) : 0);
}

static void try_insn(void)
{
	struct bytes line = text(fields[1]), program[2] = { data(fields[2]), data(fields[3]) };

	line.at[line.len++] = '\n';
	for (uint32_t order = 0; order < 2; order++) {
		const uint8_t *at = program[order].at;
		size_t len = program[order].len;

		for (uint32_t to = 0; to < 2; to++) {
			writes((struct call){ insn_canon, order, to, program[order] }, program[to]);
			CHECK(is(bpfcanon_insn_same(order, at, len, to, program[to].at, len), ended(BPFCANON_STATUS_DONE)));
		}
		writes((struct call){ insn_show, order, 0, program[order] }, line);
		writes((struct call){ insn_read, 0, order, line }, program[order]);
		CHECK(is(bpfcanon_insn_groups(order, at, len), with_groups(mask_of(fields[4]))));
		CHECK(is(bpfcanon_insn_same(order, at, len, order, at, 0), ended(BPFCANON_STATUS_DIFFERENT)));
	}
}

static void try_insn_fault(void)
{
	uint32_t cause = number_of(bpfcanon_insn_cause_name, fields[5]);
	uint64_t offset = strtoull(fields[4], NULL, 10);

	for (uint32_t order = 0; order < 2; order++) {
		struct bytes given = data(fields[2 + order]);

		ends((struct call){ insn_canon, order, 0, given }, fault(cause, offset));
		ends((struct call){ insn_show, order, 0, given }, fault(cause, offset));
		CHECK(is(bpfcanon_insn_groups(order, given.at, given.len), fault(cause, offset)));
		CHECK(is(bpfcanon_insn_same(order, given.at, given.len, 0, given.at, 0), fault(cause, offset)));
		CHECK(is(bpfcanon_insn_same(0, given.at, 0, order, given.at, given.len), second_fault(cause, offset)));
	}
}

static void try_listing(void)
{
	struct bytes given = text(fields[2]), shown = text(fields[3]);
	uint8_t program[256];
	bpfcanon_answer read = bpfcanon_insn_read(0, (char *)given.at, given.len, program, sizeof program);

	CHECK(read.status == BPFCANON_STATUS_DONE);
	writes((struct call){ insn_read, 0, 0, shown }, (struct bytes){ program, read.written });
	writes((struct call){ insn_show, 0, 0, { program, read.written } }, shown);
}

static void try_listing_fault(void)
{
	uint32_t cause = number_of(bpfcanon_line_cause_name, fields[4]);

	ends((struct call){ insn_read, 0, 0, text(fields[2]) }, line_fault(cause, strtoull(fields[3], NULL, 10)));
}

static void try_btf(void)
{
	struct bytes shown = text(fields[6]), files[3] = { data(fields[3]), data(fields[4]), data(fields[2]) };

	for (size_t k = 0; k < 3; k++) {
		for (uint32_t to = 0; to < 2; to++)
			writes((struct call){ btf_canon, 0, to, files[k] }, files[to]);
		writes((struct call){ btf_show, 0, 0, files[k] }, shown);
		CHECK(is(bpfcanon_btf_check(files[k].at, files[k].len), with_types(strtoul(fields[5], NULL, 10))));
		CHECK(is(bpfcanon_btf_same(files[k].at, files[k].len, files[0].at, files[0].len), ended(BPFCANON_STATUS_DONE)));
	}
}

static void try_btf_fault(void)
{
	static const char good[] = "\x9f\xeb\x01\0\x18\0\0\0\0\0\0\0\0\0\0\0\0\0\0\0\x01\0\0\0\0";
	uint32_t cause = number_of(bpfcanon_btf_cause_name, fields[5]);
	uint64_t offset = strtoull(fields[4], NULL, 10);

	for (size_t k = 2; k < 4; k++) {
		struct bytes given = data(fields[k]);

		ends((struct call){ btf_canon, 0, 0, given }, fault(cause, offset));
		ends((struct call){ btf_show, 0, 0, given }, fault(cause, offset));
		CHECK(is(bpfcanon_btf_check(given.at, given.len), fault(cause, offset)));
		CHECK(is(bpfcanon_btf_same(given.at, given.len, given.at, 0), fault(cause, offset)));
		CHECK(is(bpfcanon_btf_same(BYTES(good), given.at, given.len), second_fault(cause, offset)));
	}
}

static const struct {
	const char *kind;
	void (*run)(void);
} kinds[] = {
	{ "insn", try_insn }, { "insn-fault", try_insn_fault }, { "listing", try_listing },
	{ "listing-fault", try_listing_fault }, { "btf", try_btf }, { "btf-fault", try_btf_fault },
};

int main(int argc, char **argv)
{
	static char line[1 << 16];
	FILE *file = argc == 2 ? fopen(argv[1], "r") : NULL;
	size_t rows[COUNT(kinds)] = { 0 };

	if (!file)
		return 2;
	while (fgets(line, sizeof line, file)) {
		size_t count = 0;
		long before = failed;

		line_number++;
		for (char *field = strtok(line, "\t\n"); field && count < FIELDS; field = strtok(NULL, "\t\n"))
			fields[count++] = field;
		for (size_t k = 0; count && k < COUNT(kinds); k++) {
			if (strcmp(fields[0], kinds[k].kind))
				continue;
			kinds[k].run();
			rows[k]++;
		}
		if (failed > before)
			printf("%s:%d: %s\n", argv[1], line_number, fields[1]);
		while (kept_count)
			free(kept[--kept_count]);
	}
	fclose(file);
	for (size_t k = 0; k < COUNT(kinds); k++)
		CHECK(rows[k] > 0);
	return end("vectors");
}
