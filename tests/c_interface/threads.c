/*
 * Eight threads make each call that allocates, one with a fault, and ask for names. They compare what is made with what one thread has made
 * before, and free the block that another thread has made. usage: threads TESTDATA
 */
#include "checks.h"
#include "object_file.h"

#include <pthread.h>
#include <stdatomic.h>

#define THREADS 8
#define ROUNDS 1000

static const struct file {
	const char *name;
	uint32_t order;
} FILES[] = { { "flow_table.little.btf", 0 }, { "flow_table.big.btf", 1 }, { "packet_filter.little.bin", 0 }, { "packet_filter.big.bin", 1 } };

static struct bytes {
	uint8_t *at;
	size_t len;
} files[COUNT(FILES)];

/* A call on a file: its block, whose length is set. */
typedef void *call(size_t file, size_t *len);

#define CALL(name, type, size, call) \
	static void *name(size_t file, size_t *len) \
	{ \
		const uint32_t order = FILES[file].order; \
		const uint8_t *bytes = files[file].at; \
		const size_t given = files[file].len; \
		type *block; \
		bpfcanon_answer answer = call; \
		(void)order; \
		(void)bytes; \
		(void)given; \
		*len = answer.written * (size); \
		return block; \
	}

CALL(btf_canon, uint8_t, 1, bpfcanon_btf_canon_new(1 - order, bytes, given, &block))
CALL(btf_show, char, 1, bpfcanon_btf_show_new(bytes, given, &block))
CALL(insn_canon, uint8_t, 1, bpfcanon_insn_canon_new(order, 1 - order, bytes, given, &block))
CALL(insn_show, char, 1, bpfcanon_insn_show_new(order, bytes, given, &block))
CALL(insn_decode, bpfcanon_insn, sizeof *block, bpfcanon_insn_decode_new(order, bytes, given, &block))
CALL(insn_read, uint8_t, 1, bpfcanon_insn_read_new(order, TEXT("mov r1, r2\nexit\n"), &block))
CALL(object_canon, uint8_t, 1, bpfcanon_object_canon_new((const uint8_t *)&OBJECT, sizeof OBJECT, &block))
CALL(faulty, uint8_t, 1, bpfcanon_btf_canon_new(order, bytes, 23, &block))

static void *name_of(size_t file, size_t *len)
{
	const char *name = bpfcanon_object_cause_name(101 + file);
	void *copy = malloc(*len = strlen(name));

	return copy ? memcpy(copy, name, *len) : NULL;
}

static const struct {
	call *make;
	size_t first, last;
} CALLS[] = { { btf_canon, 0, 2 }, { btf_show, 0, 2 }, { faulty, 0, 2 }, { insn_canon, 2, 4 }, { insn_show, 2, 4 }, { insn_decode, 2, 4 },
	      { insn_read, 0, 4 }, { object_canon, 0, 1 }, { name_of, 0, 4 } };

static struct bytes right[COUNT(CALLS)][COUNT(FILES)];
static void *_Atomic passed[THREADS];
static atomic_long wrong, compared;

static void *work(void *number)
{
	size_t thread = (size_t)number;

	for (size_t round = 0; round < ROUNDS; round++)
		for (size_t k = 0; k < COUNT(CALLS); k++)
			for (size_t file = CALLS[k].first; file < CALLS[k].last; file++) {
				const struct bytes *known = &right[k][file];
				size_t len;
				void *block = CALLS[k].make(file, &len);

				compared++;
				wrong += len != known->len || !block != !known->at || (len && memcmp(block, known->at, len));
				bpfcanon_free(atomic_exchange(&passed[(thread + 1) % THREADS], block));
				bpfcanon_free(atomic_exchange(&passed[thread], NULL));
			}
	return NULL;
}

int main(int argc, char **argv)
{
	pthread_t threads[THREADS];

	if (argc != 2)
		return 2;
	for (size_t file = 0; file < COUNT(FILES); file++)
		files[file].at = load(argv[1], FILES[file].name, &files[file].len);
	for (size_t k = 0; k < COUNT(CALLS); k++)
		for (size_t file = CALLS[k].first; file < CALLS[k].last; file++)
			right[k][file].at = CALLS[k].make(file, &right[k][file].len);
	for (size_t k = 0; k < THREADS; k++)
		CHECK(!pthread_create(&threads[k], NULL, work, (void *)k));
	for (size_t k = 0; k < THREADS; k++)
		CHECK(!pthread_join(threads[k], NULL));
	for (size_t k = 0; k < THREADS; k++)
		bpfcanon_free(passed[k]);
	for (size_t k = 0; k < COUNT(CALLS); k++)
		for (size_t file = 0; file < COUNT(FILES); file++)
			bpfcanon_free(right[k][file].at);
	for (size_t file = 0; file < COUNT(FILES); file++)
		free(files[file].at);
	checks += compared;
	failed += wrong;
	return end("threads");
}
