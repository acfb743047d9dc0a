/*
 * The proved code is compiled for x86-64-v2 processors, whose POPCNT and PSHUFB make canonical BTF
 * and a change of byte order faster. An older processor would stop the process at the first of these
 * instructions without a word, so before any other code of the library or the command runs, this
 * ends it with a sentence and status 3. It is tested and not proved.
 */
#if defined(__x86_64__)
#include <cpuid.h>
#include <unistd.h>

/* What x86-64-v2 adds to the first x86-64 processors, in ECX of leaf 1. */
static const unsigned int needed =
	bit_SSE3 | bit_SSSE3 | bit_CMPXCHG16B | bit_SSE4_1 | bit_SSE4_2 | bit_POPCNT;

static const char refused[] = "bpfcanon: needs an x86-64-v2 processor (SSE4.2 and POPCNT)\n";

__attribute__((constructor)) static void check_processor(void)
{
	unsigned int eax, ebx, ecx, edx;

	if (__get_cpuid(1, &eax, &ebx, &ecx, &edx) && (ecx & needed) == needed)
		return;
	/* If the write fails, only the status says so. */
	(void)!write(STDERR_FILENO, refused, sizeof refused - 1);
	_exit(3);
}
#endif
