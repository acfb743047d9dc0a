/* Reads all of standard input, and writes all bytes to standard output. */
#include <errno.h>
#include <stdint.h>
#include <stdio.h>
#include <stdlib.h>
#include <string.h>
#include <unistd.h>

static void refuse(const char *cause, size_t pos)
{
	fprintf(stderr, "fault %zu %s\n", pos, cause);
	exit(1);
}

__attribute__((unused)) static uint8_t *read_whole(size_t *len)
{
	size_t capacity = 1 << 20;
	uint8_t *bytes = malloc(capacity);

	for (*len = 0; bytes; ) {
		ssize_t n;

		if (*len == capacity)
			bytes = realloc(bytes, capacity *= 2);
		if (!bytes)
			break;
		n = read(0, bytes + *len, capacity - *len);
		if (n == 0)
			return bytes;
		if (n > 0)
			*len += n;
		else if (errno != EINTR)
			break;
	}
	exit(3);
}

static void write_whole(const void *bytes, size_t len)
{
	const uint8_t *at = bytes;

	while (len) {
		ssize_t n = write(1, at, len);

		if (n < 0 && errno != EINTR)
			exit(3);
		if (n > 0) {
			at += n;
			len -= n;
		}
	}
}
