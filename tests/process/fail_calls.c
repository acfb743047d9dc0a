/*
 * Lets a process's calls on its standard streams move few bytes, and makes one of them fail. It is preloaded
 * (LD_PRELOAD), and counts the calls on each stream from 1:
 *
 *   MOVE_AT_MOST   how many bytes a call moves at most
 *   FAIL_READ      the number of the read of standard input that fails
 *   FAIL_WRITE     the number of the write to standard output that fails
 *   FAIL_MESSAGE   the number of the write to standard error that fails
 *
 * A call that fails moves nothing. Unset variables change nothing.
 */
#define _GNU_SOURCE
#include <dlfcn.h>
#include <errno.h>
#include <stddef.h>
#include <stdlib.h>
#include <unistd.h>

static ssize_t (*next_read)(int, void *, size_t);
static ssize_t (*next_write)(int, const void *, size_t);

static size_t most = (size_t)-1;
static const char *const names[] = { "FAIL_READ", "FAIL_WRITE", "FAIL_MESSAGE" };
static unsigned long failing[3];
static unsigned long calls[3];

/* Runs before main. */
__attribute__((constructor)) static void begin(void)
{
    const char *text = getenv("MOVE_AT_MOST");
    if (text)
        most = strtoul(text, NULL, 10);
    for (int stream = 0; stream < 3; stream++) {
        text = getenv(names[stream]);
        failing[stream] = text ? strtoul(text, NULL, 10) : 0;
    }
    next_read = dlsym(RTLD_NEXT, "read");
    next_write = dlsym(RTLD_NEXT, "write");
}

/* How many bytes a call on a stream moves, or -1 if it fails. */
static ssize_t moved(int stream, size_t count)
{
    if (stream < 0 || stream > 2)
        return (ssize_t)count;
    calls[stream] += 1;
    if (calls[stream] == failing[stream]) {
        errno = EIO;
        return -1;
    }
    return (ssize_t)(count < most ? count : most);
}

ssize_t read(int stream, void *bytes, size_t count)
{
    ssize_t most_of_it = moved(stream, count);
    return most_of_it < 0 ? -1 : next_read(stream, bytes, (size_t)most_of_it);
}

ssize_t write(int stream, const void *bytes, size_t count)
{
    ssize_t most_of_it = moved(stream, count);
    return most_of_it < 0 ? -1 : next_write(stream, bytes, (size_t)most_of_it);
}
