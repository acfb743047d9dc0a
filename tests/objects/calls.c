#define _GNU_SOURCE
#include "loaded.h"

#include <errno.h>
#include <fcntl.h>
#include <stdint.h>
#include <stdlib.h>
#include <string.h>
#include <sys/mman.h>
#include <unistd.h>

enum { FIRST_DESCRIPTOR = 16, MAX_DESCRIPTORS = 1024, MAPPED = 1 << 20 };

/* The sizes of a map's keys and values, by the descriptor of the map: an update has only pointers. */
static struct {
	unsigned key, value;
} maps[MAX_DESCRIPTORS];

/* The BTF that was loaded, by its descriptor: programs and maps have numbers of its types. */
static struct types *types[MAX_DESCRIPTORS];

static const void *pointer(uint64_t address)
{
	return (const void *)(uintptr_t)address;
}

/* libbpf replaces descriptors below 3, of which it may have closed some, by others, and maps the memory of data. */
static int new_descriptor(void)
{
	int opened = memfd_create("map", MFD_CLOEXEC);
	int descriptor = opened < 0 || ftruncate(opened, MAPPED) ? -1 : fcntl(opened, F_DUPFD_CLOEXEC, FIRST_DESCRIPTOR);

	if (opened >= 0)
		close(opened);
	return descriptor;
}

static const struct types *types_of(unsigned descriptor)
{
	return descriptor < MAX_DESCRIPTORS ? types[descriptor] : NULL;
}

static int load_btf(const union bpf_attr *attr)
{
	struct types *loaded = types_read(pointer(attr->btf), attr->btf_size);
	int descriptor = new_descriptor();

	view_text("btf_load ");
	view_types_digest(loaded);
	if (descriptor < 0 || descriptor >= MAX_DESCRIPTORS) {
		types_free(loaded);
		return descriptor;
	}
	types_free(types[descriptor]);
	types[descriptor] = loaded;
	return descriptor;
}

static void view_digest_of(const char *label, unsigned descriptor, uint32_t number)
{
	view_text(" %s #%016llx", label, (unsigned long long)types_digest(types_of(descriptor), number));
}

/* A map's attributes have no pointers, so that all of them but the numbers of types are compared as they are. */
static int create_map(union bpf_attr *attr, unsigned size)
{
	int descriptor = new_descriptor();

	view_text("map_create -> %d", descriptor);
	view_characters("name", attr->map_name, strnlen(attr->map_name, sizeof attr->map_name));
	view_text(" type %u key %u value %u entries %u flags %#x", attr->map_type, attr->key_size, attr->value_size, attr->max_entries,
		  attr->map_flags);
	view_digest_of("key", attr->btf_fd, attr->btf_key_type_id);
	view_digest_of("value", attr->btf_fd, attr->btf_value_type_id);
	attr->btf_key_type_id = attr->btf_value_type_id = 0;
	view_bytes("attributes", attr, size);
	view_text("\n");
	if (descriptor >= 0 && descriptor < MAX_DESCRIPTORS) {
		maps[descriptor].key = attr->key_size;
		maps[descriptor].value = attr->value_size;
	}
	return descriptor;
}

void record_copy(int from, int to)
{
	if (from >= 0 && from < MAX_DESCRIPTORS && to >= 0 && to < MAX_DESCRIPTORS)
		maps[to] = maps[from];
}

static int update_element(const union bpf_attr *attr)
{
	if (attr->map_fd >= MAX_DESCRIPTORS) {
		errno = EBADF;
		return -1;
	}
	view_text("map_update %u flags %llu", attr->map_fd, (unsigned long long)attr->flags);
	view_bytes("key", pointer(attr->key), maps[attr->map_fd].key);
	view_bytes("value", pointer(attr->value), maps[attr->map_fd].value);
	view_text("\n");
	return 0;
}

static void view_core_records(const union bpf_attr *attr)
{
	const char *record = pointer(attr->core_relos);
	unsigned i;

	for (i = 0; i < attr->core_relo_cnt; i++, record += attr->core_relo_rec_size) {
		struct bpf_core_relo core;

		memcpy(&core, record, sizeof core);
		view_text("core %u kind %u", core.insn_off, core.kind);
		view_digest_of("type", attr->prog_btf_fd, core.type_id);
		view_string("access", types_string(types_of(attr->prog_btf_fd), core.access_str_off));
		view_text("\n");
	}
}

static void view_functions(const union bpf_attr *attr)
{
	const char *record = pointer(attr->func_info);
	unsigned i;

	view_text(" functions of %u:", attr->func_info_rec_size);
	for (i = 0; i < attr->func_info_cnt; i++, record += attr->func_info_rec_size) {
		struct bpf_func_info function;

		memcpy(&function, record, sizeof function);
		view_text(" %u", function.insn_off);
		view_digest_of("type", attr->prog_btf_fd, function.type_id);
		view_bytes("more", record + sizeof function, attr->func_info_rec_size - sizeof function);
	}
}

/* line_info and the three fields of the log are left out: lines of the source are shown in the verifier's log and by bpftool, and
 * nothing that runs depends on them. Instructions, functions and CO-RE records are compared whole. */
static int load_program(const union bpf_attr *attr)
{
	view_text("prog_load type %u attach %u flags %#x ifindex %u version %u", attr->prog_type, attr->expected_attach_type,
		  attr->prog_flags, attr->prog_ifindex, attr->kern_version);
	view_text(" btf %u attach_btf %u of %u", attr->prog_btf_fd, attr->attach_btf_id, attr->attach_btf_obj_fd);
	view_characters("name", attr->prog_name, strnlen(attr->prog_name, sizeof attr->prog_name));
	view_string("license", pointer(attr->license));
	view_bytes("insns", pointer(attr->insns), (size_t)attr->insn_cnt * sizeof(struct bpf_insn));
	view_functions(attr);
	view_text("\n");
	view_core_records(attr);
	return new_descriptor();
}

static int refuse(int command, int error)
{
	view_text("call %d refused\n", command);
	errno = error;
	return -1;
}

int record_call(int command, const union bpf_attr *given, unsigned size)
{
	union bpf_attr attr = { 0 };

	memcpy(&attr, given, size < sizeof attr ? size : sizeof attr);
	switch (command) {
	case BPF_BTF_LOAD:
		return load_btf(&attr);
	case BPF_MAP_CREATE:
		return create_map(&attr, size);
	case BPF_MAP_UPDATE_ELEM:
		return update_element(&attr);
	case BPF_PROG_LOAD:
		return load_program(&attr);
	case BPF_MAP_FREEZE:
		view_text("map_freeze %u\n", attr.map_fd);
		return 0;
	case BPF_PROG_BIND_MAP:
		view_text("prog_bind_map %u %u\n", attr.prog_bind_map.prog_fd, attr.prog_bind_map.map_fd);
		return 0;
	default:
		return refuse(command, ENOENT);
	}
}
