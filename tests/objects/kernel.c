#include "loaded.h"

#include <bpf/btf.h>
#include <errno.h>
#include <stdarg.h>
#include <stdint.h>
#include <stdio.h>
#include <stdlib.h>
#include <string.h>
#include <sys/syscall.h>

const char KERNEL_OPTIONS[] = "CONFIG_HZ=250\nCONFIG_BPF_SYSCALL=y\nCONFIG_MODULE_SIG=m\nCONFIG_DEFAULT_HOSTNAME=\"(none)\"\n";
static char symbols[] = "ffffffff81000010 T bpf_fentry_test1\nffffffff81000020 D bpf_prog_active\nffffffff81000030 T schedule\n";

/* Raw BTF. */
static void *types;
static uint32_t types_size;

/* The linker replaces what libbpf calls by these (--wrap). */
long __real_syscall(long number, ...);
long __wrap_syscall(long number, ...);
FILE *__wrap_fopen64(const char *path, const char *mode);
void *__wrap_gzopen64(const char *path, const char *mode);
void *__real_gzopen64(const char *path, const char *mode);
struct btf *__wrap_btf__load_vmlinux_btf(void);
int __wrap_mkdir(const char *path, unsigned mode);

/* libbpf 1.5 and later reserve the descriptors of maps, and move there those of the maps that are created. */
static long reserve(const char *name, unsigned flags)
{
	return __real_syscall(SYS_memfd_create, name, flags);
}

static long move(int from, int to, int flags)
{
	record_copy(from, to);
	return __real_syscall(SYS_dup3, from, to, flags);
}

long __wrap_syscall(long number, ...)
{
	va_list arguments;
	long words[3];
	unsigned i;

	va_start(arguments, number);
	for (i = 0; i < sizeof words / sizeof *words; i++)
		words[i] = va_arg(arguments, long);
	va_end(arguments);
	switch (number) {
	case SYS_bpf:
		return record_call((int)words[0], (const union bpf_attr *)words[1], (unsigned)words[2]);
	case SYS_memfd_create:
		return reserve((const char *)words[0], (unsigned)words[1]);
	case SYS_dup3:
		return move((int)words[0], (int)words[1], (int)words[2]);
	default:
		errno = ENOSYS;
		return -1;
	}
}

FILE *__wrap_fopen64(const char *path, const char *mode)
{
	if (strcmp(path, "/proc/kallsyms") == 0)
		return fmemopen(symbols, sizeof symbols - 1, mode);
	errno = ENOENT;
	return NULL;
}

/* There are no options but those above. */
void *__wrap_gzopen64(const char *path, const char *mode)
{
	(void)path;
	return __real_gzopen64("/dev/null", mode);
}

struct btf *__wrap_btf__load_vmlinux_btf(void)
{
	return btf__new(types, types_size);
}

int __wrap_mkdir(const char *path, unsigned mode)
{
	(void)path, (void)mode;
	errno = EPERM;
	return -1;
}

bool read_kernel(const char *path)
{
	struct btf *btf = btf__parse_elf(path, NULL);
	const void *raw = btf ? btf__raw_data(btf, &types_size) : NULL;

	types = raw ? malloc(types_size) : NULL;
	if (types)
		memcpy(types, raw, types_size);
	btf__free(btf);
	return types;
}
