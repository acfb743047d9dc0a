/*
 * Rattle's heap over malloc, of the commands of a release (packaging/folders.py), and of the C
 * library on processors for which the kit has no object of it (meson.build). It is tested and not
 * proved.
 */
#include <stdint.h>
#include <stdlib.h>

/* A block, or that memory ran out. Rattle expects it in two registers. */
struct block {
	uint64_t is_there;
	void *start;
};

static uint8_t nothing;

static struct block block_at(void *start)
{
	const struct block block = { start != NULL, start ? start : &nothing };

	return block;
}

/* malloc aligns to 16 bytes, and Rattle never needs more. A block of no bytes has an address too. */
struct block rattle_alloc(size_t size, size_t align)
{
	return block_at(malloc(size ? size : align));
}

struct block rattle_realloc(void *start, size_t old_size, size_t size, size_t align)
{
	(void)old_size;
	return block_at(realloc(start, size ? size : align));
}

void rattle_dealloc(void *start)
{
	free(start);
}
