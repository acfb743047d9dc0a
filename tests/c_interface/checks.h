/* What the tests of the C interface share: checks, worked files, and malloc that can be refused. */
#ifndef CHECKS_H
#define CHECKS_H

#include "bpfcanon.h"

#include <stdio.h>
#include <stdlib.h>
#include <string.h>

#define CHECK(holds) (checks++, (holds) ? 0 : (failed++, printf("%s:%d: %s\n", __FILE__, __LINE__, #holds)))
#define BYTES(text) (const uint8_t *)(text), sizeof(text) - 1
#define TEXT(text) (text), sizeof(text) - 1
#define COUNT(array) (sizeof(array) / sizeof *(array))

static long checks, failed;

/* What a call returns. A field that isn't named is 0. */
#define ANSWER(...) ((bpfcanon_answer){ __VA_ARGS__ })
#define ended(code) ANSWER(.status = (code))
#define written(len) ANSWER(.written = (len))
#define with_types(count) ANSWER(.types = (count))
#define with_groups(mask) ANSWER(.groups = (mask))
#define fault(what, at) ANSWER(.status = BPFCANON_STATUS_FAULT, .cause = (what), .offset = (at))
#define second_fault(what, at) ANSWER(.status = BPFCANON_STATUS_FAULT_SECOND, .cause = (what), .offset = (at))
#define line_fault(what, at) ANSWER(.status = BPFCANON_STATUS_FAULT, .cause = (what), .line = (at))
#define needs(len) ANSWER(.status = BPFCANON_STATUS_ROOM, .needed = (len))
/* Of the start of a stream, with complete instructions of this length, which a fault may follow. */
#define front_of(len) ANSWER(.read = (len), .written = (len))
#define front_before(len, what, at) ANSWER(.status = BPFCANON_STATUS_FAULT, .cause = (what), .offset = (at), .read = (len), .written = (len))

/* An answer has no padding. */
static inline int is(bpfcanon_answer one, bpfcanon_answer right)
{
	return !memcmp(&one, &right, sizeof one);
}

/* Whether all of these bytes are still 0xaa. */
static inline int is_filled(const void *from, const void *to)
{
	for (const uint8_t *at = from; at < (const uint8_t *)to; at++)
		if (*at != 0xaa)
			return 0;
	return 1;
}

/* A block that has to be there for the test to go on. */
static inline uint8_t *allocate(size_t size)
{
	uint8_t *block = malloc(size ? size : 1);

	if (!block) {
		perror("malloc");
		exit(2);
	}
	return block;
}

/* Concatenated copies of a string or of bytes. */
static inline uint8_t *repeat(const void *bytes, size_t len, size_t times)
{
	uint8_t *all = allocate(len * times);

	for (size_t i = 0; i < times; i++)
		memcpy(all + i * len, bytes, len);
	return all;
}

static inline uint8_t *load_file(const char *path, size_t *len)
{
	FILE *file = fopen(path, "rb");
	size_t capacity = 1 << 20;
	uint8_t *bytes = allocate(capacity);

	if (!file) {
		perror(path);
		exit(2);
	}
	*len = 0;
	for (size_t more; (more = fread(bytes + *len, 1, capacity - *len, file)) > 0;) {
		*len += more;
		if (*len == capacity && !(bytes = realloc(bytes, capacity *= 2)))
			exit(2);
	}
	fclose(file);
	return bytes;
}

static inline uint8_t *load(const char *folder, const char *name, size_t *len)
{
	char path[4096];

	snprintf(path, sizeof path, "%s/%s", folder, name);
	return load_file(path, len);
}

/* Prints the last line of a test and returns its exit status. */
static inline int end(const char *name)
{
	printf("C interface, %s: %ld checks, %ld failed\n", name, checks, failed);
	return failed != 0 || checks == 0;
}

#endif
