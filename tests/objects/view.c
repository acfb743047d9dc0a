#include "loaded.h"

#include <ctype.h>
#include <stdarg.h>
#include <stdint.h>
#include <stdio.h>
#include <string.h>
#include <sys/mman.h>

/* The calls that libbpf makes are recorded from functions that it calls, so that the view can't be an argument of them. */
static struct view *view;

struct view *view_make(void)
{
	void *memory = mmap(NULL, sizeof *view, PROT_READ | PROT_WRITE, MAP_SHARED | MAP_ANONYMOUS | MAP_NORESERVE, -1, 0);

	view = memory == MAP_FAILED ? NULL : memory;
	return view;
}

void view_text(const char *format, ...)
{
	size_t room = sizeof view->text - view->length;
	va_list arguments;
	int length;

	va_start(arguments, format);
	length = vsnprintf(view->text + view->length, room, format, arguments);
	va_end(arguments);
	if (length > 0)
		view->length += (size_t)length < room ? (size_t)length : room - 1;
}

void view_characters(const char *label, const char *characters, size_t length)
{
	size_t i;

	view_text(" %s=\"", label);
	for (i = 0; i < length; i++) {
		unsigned char c = characters[i];

		if (isprint(c) && c != '"' && c != '\\')
			view_text("%c", c);
		else
			view_text("\\%02x", c);
	}
	view_text("\"");
}

void view_string(const char *label, const char *string)
{
	if (string)
		view_characters(label, string, strlen(string));
	else
		view_text(" %s=none", label);
}

/* Two of FNV-1a with different bases: nobody attacks a digest that is only compared within a test. */
static void view_digest(const void *bytes, size_t length)
{
	uint64_t first = 0xcbf29ce484222325u, second = 0x84222325cbf29ce4u;
	const unsigned char *byte = bytes;
	size_t i;

	for (i = 0; i < length; i++) {
		first = (first ^ byte[i]) * 0x100000001b3u;
		second = (second ^ byte[i] ^ (second >> 29)) * 0x100000001b3u;
	}
	view_text("%zu bytes with digest %016llx%016llx", length, (unsigned long long)first, (unsigned long long)second);
}

void view_bytes(const char *label, const void *bytes, size_t length)
{
	static const char digits[] = "0123456789abcdef";
	const unsigned char *byte = bytes;
	size_t i;

	view_text(" %s=", label);
	if (length > 4096 || sizeof view->text - view->length < 3 * length + 1) {
		view_digest(bytes, length);
		return;
	}
	for (i = 0; i < length; i++) {
		if (i && i % 8 == 0)
			view->text[view->length++] = ' ';
		view->text[view->length++] = digits[byte[i] >> 4];
		view->text[view->length++] = digits[byte[i] & 15];
	}
}

size_t view_length(void)
{
	return view->length;
}

void view_shorten(size_t length)
{
	size_t added = view->length - length;

	view->length = length;
	view_digest(view->text + length, added);
	view_text("\n");
}
