/* Counts the blocks of a test and refuses some: it is linked with -Wl,--wrap=malloc,--wrap=realloc,--wrap=free, and has one thread. */
#ifndef ALLOCATIONS_H
#define ALLOCATIONS_H

#include <stddef.h>

void *__real_malloc(size_t size);
void *__real_realloc(void *block, size_t size);
void __real_free(void *block);
void *__wrap_malloc(size_t size);
void *__wrap_realloc(void *block, size_t size);
void __wrap_free(void *block);

static long allowed = -1; /* the number of allocations before one is refused; if negative, none is */
static int refuses_one;   /* whether the allocations after the refused one succeed; else all of them are refused */
static long refused;      /* the number of refused allocations, without those of `shrinks` */
static long shrinks;      /* the number of refused ones that would make a block smaller, which a call can do without */
static long live;         /* blocks that weren't freed */

/* The live blocks with the sizes that were asked for. */
static struct {
	void *block;
	size_t size;
} sizes[64];

/* The place of a block, or of none; a test with too many blocks ends here. */
static size_t index_of(const void *block)
{
	size_t at = 0;

	while (sizes[at].block != block)
		if (++at == sizeof sizes / sizeof *sizes)
			__builtin_trap();
	return at;
}

static void keep(size_t at, void *block, size_t size)
{
	sizes[at].block = block;
	sizes[at].size = size;
}

static int refuse(long *count)
{
	if (allowed == 0) {
		++*count;
		if (refuses_one)
			allowed = -1;
		return 1;
	}
	if (allowed > 0)
		allowed--;
	return 0;
}

void *__wrap_malloc(size_t size)
{
	void *block = refuse(&refused) ? NULL : __real_malloc(size);

	live += block != NULL;
	if (block)
		keep(index_of(NULL), block, size);
	return block;
}

void *__wrap_realloc(void *block, size_t size)
{
	size_t at = index_of(block);
	int is_shrink = block && size <= sizes[at].size;
	void *moved = refuse(is_shrink ? &shrinks : &refused) ? NULL : __real_realloc(block, size);

	live += !block && moved;
	if (moved)
		keep(at, moved, size);
	return moved;
}

void __wrap_free(void *block)
{
	live -= block != NULL;
	if (block)
		keep(index_of(block), NULL, 0);
	__real_free(block);
}

#endif
