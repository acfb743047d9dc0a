/* Parts of `loaded`, which prints what libbpf would load from object files. */
#ifndef LOADED_H
#define LOADED_H

#include <linux/bpf.h>
#include <stdbool.h>
#include <stddef.h>
#include <stdint.h>

/* --- The view of an object file: what libbpf makes of it. */

struct file {
	char *bytes;
	size_t size;
};

/* Adds what the object is after bpf_object__open, and what bpf_object__load loads. If not all programs are loaded so, each of them is loaded
 * by itself, too. What libbpf allocates isn't freed: the process ends after it. */
void view_file(const struct file *file);

/* --- A stand-in for the kernel: its options, symbols and types, and the calls of libbpf that would reach it. */

/* Options that objects may ask for, in the form of the kernel's configuration. */
extern const char KERNEL_OPTIONS[];

/* Takes the types of the kernel from an object file. */
bool read_kernel(const char *path);

/* --- A stand-in for bpf(2): it records each call and what it points to, and lets it succeed. */

/* Records a call. Returns what bpf(2) would, with errno if that is -1. */
int record_call(int command, const union bpf_attr *given, unsigned size);

/* Another descriptor of a map. */
void record_copy(int from, int to);

/* --- The types of raw BTF as text, which depends neither on the layout of its strings nor on the numbers of types: a name is the characters at
 * its offset, and a type that another one refers to is a digest of what it is. That libbpf takes a parameter with an empty name for one
 * without a name if its offset is 0 shows in the name that it then gives it. */

struct types;

/* Raw BTF, which libbpf has accepted, is copied. The result is NULL if there is none. */
struct types *types_read(const void *btf, size_t size);
void types_free(struct types *types);

/* What a type is: its kind, its name and fields, and what it refers to. A number past the last type is its own digest. */
uint64_t types_digest(const struct types *types, uint32_t number);

/* Adds a line for each type: VAR, DATASEC, FWD and TYPE_TAG after the others, by their digests. */
void view_types(const struct types *types);

/* Adds the digest of these lines. */
void view_types_digest(const struct types *types);

/* A string, or NULL if there is none at this offset. */
const char *types_string(const struct types *types, unsigned offset);

/* --- The text of one view: what libbpf makes of one object file. It is in memory that a process shares with its parent, so that what was
 * written before a crash isn't lost. */

struct view {
	size_t length;
	char text[64 << 20];
};

/* Makes the view that the functions below write. */
struct view *view_make(void);

/* Adds formatted text; what doesn't fit is dropped. */
void view_text(const char *format, ...) __attribute__((format(printf, 1, 2)));

/* Adds a label and a string, with what isn't printable as hexadecimal digits. */
void view_string(const char *label, const char *string);

/* The same for a string of a known length. */
void view_characters(const char *label, const char *characters, size_t length);

/* Adds a label and bytes as hexadecimal digits, or the digest of many. */
void view_bytes(const char *label, const void *bytes, size_t length);

/* The length of what was added by now, and what replaces all that is added after it by its digest. */
size_t view_length(void);
void view_shorten(size_t length);

#endif
