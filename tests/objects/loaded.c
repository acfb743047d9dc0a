/* Prints what libbpf would load from object files, which it reads from standard input.
 *
 * usage: loaded KERNEL [-v]
 *
 * KERNEL is an object file with the types of the kernel that objects are relocated against. Each object is its length, as four bytes with
 * the lowest first, and its bytes. So is each answer on standard output: the text of a view. An object is read in a process of its own,
 * because libbpf crashes on some files. With -v the messages of libbpf go to standard error.
 *
 * There is no kernel: syscall and the files in which libbpf looks for the kernel's symbols, options and types are replaced when this
 * program is linked with the static libbpf. */
#include <bpf/libbpf.h>
#include <stdarg.h>
#include <stdbool.h>
#include <stdio.h>
#include <stdlib.h>
#include <sys/resource.h>
#include <sys/wait.h>
#include <unistd.h>

#include "loaded.h"

enum { MAX_SECONDS = 4, MAX_MEMORY = 256 << 20 };

static void limit(void)
{
	struct rlimit memory = { MAX_MEMORY, MAX_MEMORY }, time = { MAX_SECONDS, MAX_SECONDS }, core = { 0, 0 };

	setrlimit(RLIMIT_AS, &memory);
	setrlimit(RLIMIT_CPU, &time);
	setrlimit(RLIMIT_CORE, &core);
}

/* A crash is part of the view. */
static void view_in_process(const struct file *file)
{
	pid_t child = fork();
	int status = 0;

	if (child == 0) {
		limit();
		view_file(file);
		_exit(0);
	}
	if (child < 0 || waitpid(child, &status, 0) != child)
		view_text("no process\n");
	else if (WIFSIGNALED(status))
		view_text("crashes with signal %d\n", WTERMSIG(status));
}

static bool read_bytes(void *bytes, size_t length)
{
	return fread(bytes, 1, length, stdin) == length;
}

static bool read_file(struct file *file)
{
	unsigned char length[4];

	if (!read_bytes(length, sizeof length))
		return false;
	file->size = length[0] | length[1] << 8 | length[2] << 16 | (size_t)length[3] << 24;
	file->bytes = malloc(file->size ? file->size : 1);
	return file->bytes && read_bytes(file->bytes, file->size);
}

static bool write_view(const struct view *view)
{
	unsigned char length[4] = { view->length, view->length >> 8, view->length >> 16, view->length >> 24 };

	return fwrite(length, 1, sizeof length, stdout) == sizeof length && fwrite(view->text, 1, view->length, stdout) == view->length &&
	       fflush(stdout) == 0;
}

static int print(enum libbpf_print_level level, const char *format, va_list arguments)
{
	(void)level;
	return vfprintf(stderr, format, arguments);
}

int main(int count, char **words)
{
	struct view *view = view_make();
	struct file file;

	if (count < 2 || !view) {
		fprintf(stderr, "usage: loaded KERNEL [-v]\n");
		return 2;
	}
	libbpf_set_print(count > 2 ? print : NULL);
	if (!read_kernel(words[1])) {
		fprintf(stderr, "loaded: %s has no types\n", words[1]);
		return 2;
	}
	while (read_file(&file)) {
		view->length = 0;
		view_in_process(&file);
		free(file.bytes);
		if (!write_view(view))
			return 1;
	}
	return 0;
}
