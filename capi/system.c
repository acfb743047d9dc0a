/*
 * What a program calls of the system beside the C library: its arguments and environment, errno, and
 * folders. Rattle's kit has these for x86-64 alone. docs/TRUST.md says what the proofs assume of
 * them. They are tested and not proved.
 */
#define _GNU_SOURCE
#include <errno.h>
#include <fcntl.h>
#include <stdlib.h>
#include <string.h>
#include <unistd.h>

enum { MISSING = -1, TOO_LONG = -2 };

static size_t argument_count;
static char **arguments;

/* glibc passes what it passes main. */
__attribute__((constructor)) static void keep_arguments(int count, char **values)
{
	argument_count = (size_t)count;
	arguments = values;
}

/* Copies a text without its NUL, as far as there is room, and returns its length, or why it isn't there. */
static ssize_t copy(const char *text, char *to, size_t room)
{
	size_t length;

	if (!text)
		return MISSING;
	length = strlen(text);
	memcpy(to, text, length < room ? length : room);
	return length <= room ? (ssize_t)length : TOO_LONG;
}

ssize_t rattle_arg(size_t index, char *to, size_t room)
{
	return copy(index < argument_count ? arguments[index] : NULL, to, room);
}

ssize_t rattle_env(const char *name, char *to, size_t room)
{
	return copy(getenv(name), to, room);
}

ssize_t rattle_env_at(size_t index, char *to, size_t room)
{
	char **it = environ;

	while (it && *it && index--)
		it++;
	return copy(it ? *it : NULL, to, room);
}

int rattle_errno(void)
{
	return errno;
}

void rattle_set_errno(int error)
{
	errno = error;
}

/* A link isn't followed, and what isn't a folder is refused. */
int rattle_open_dir_at(int folder, const char *name)
{
	return openat(folder, name, O_RDONLY | O_DIRECTORY | O_NOFOLLOW | O_CLOEXEC);
}
