/*
 * Refuses allocations of a process. It is preloaded (LD_PRELOAD), and counts the calls of malloc, calloc and
 * realloc from 1:
 *
 *   REFUSE_FROM   the number of the first call that is refused
 *   REFUSE_TO     the number of the last one
 *   REFUSE_REPORT   a file descriptor: a byte is written there at each refusal
 *
 * Where REFUSE_FROM isn't set, nothing is refused.
 */
#define _GNU_SOURCE
#include <dlfcn.h>
#include <errno.h>
#include <stddef.h>
#include <stdlib.h>
#include <unistd.h>

static void *(*next_malloc)(size_t);
static void *(*next_calloc)(size_t, size_t);
static void *(*next_realloc)(void *, size_t);

static unsigned long calls;
static unsigned long refuse_from = (unsigned long)-1;
static unsigned long refuse_to;
static int report = -1;

/* The loader may allocate before the next functions are known: such a call fails, and isn't counted. */
static void *none(void)
{
    errno = ENOMEM;
    return NULL;
}

static unsigned long number_in(const char *name, unsigned long otherwise)
{
    const char *text = getenv(name);
    return text ? strtoul(text, NULL, 10) : otherwise;
}

/* Runs before main. */
__attribute__((constructor)) static void begin(void)
{
    next_malloc = dlsym(RTLD_NEXT, "malloc");
    next_calloc = dlsym(RTLD_NEXT, "calloc");
    next_realloc = dlsym(RTLD_NEXT, "realloc");
    report = (int)number_in("REFUSE_REPORT", (unsigned long)-1);
    refuse_from = number_in("REFUSE_FROM", (unsigned long)-1);
    refuse_to = number_in("REFUSE_TO", 0);
    calls = 0;
}

static int is_refused(void)
{
    calls += 1;
    if (calls < refuse_from || calls > refuse_to)
        return 0;
    if (report >= 0 && write(report, "r", 1) < 0)
        _exit(99);
    return 1;
}

void *malloc(size_t size)
{
    return next_malloc && !is_refused() ? next_malloc(size) : none();
}

void *calloc(size_t count, size_t size)
{
    return next_calloc && !is_refused() ? next_calloc(count, size) : none();
}

void *realloc(void *block, size_t size)
{
    return next_realloc && !is_refused() ? next_realloc(block, size) : none();
}
