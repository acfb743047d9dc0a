#include "loaded.h"

#include <bpf/btf.h>
#include <bpf/libbpf.h>
#include <errno.h>
#include <stdbool.h>
#include <stdint.h>

enum { MAX_PROGRAMS = 16 };

static struct bpf_object *open_object(const struct file *file)
{
	LIBBPF_OPTS(bpf_object_open_opts, options, .object_name = "object", .kconfig = KERNEL_OPTIONS);

	return bpf_object__open_mem(file->bytes, file->size, &options);
}

static void view_program(const struct bpf_program *program)
{
	view_text("program");
	view_string("name", bpf_program__name(program));
	view_string("section", bpf_program__section_name(program));
	view_text(" type %d attach %d flags %#x autoload %d", bpf_program__type(program), bpf_program__expected_attach_type(program),
		  bpf_program__flags(program), bpf_program__autoload(program));
	view_bytes("insns", bpf_program__insns(program), bpf_program__insn_cnt(program) * sizeof(struct bpf_insn));
	view_text("\n");
}

static void view_map(struct bpf_map *map, const struct types *types)
{
	size_t size = 0;
	bool has_addresses = bpf_map__type(map) == BPF_MAP_TYPE_STRUCT_OPS; /* in libbpf 1.5 and later, those of its programs */
	const void *value = has_addresses ? NULL : bpf_map__initial_value(map, &size);

	view_text("map");
	view_string("name", bpf_map__name(map));
	view_text(" type %d key %u value %u entries %u flags %#x", bpf_map__type(map), bpf_map__key_size(map), bpf_map__value_size(map),
		  bpf_map__max_entries(map), bpf_map__map_flags(map));
	view_text(" ifindex %u node %u extra %llu internal %d", bpf_map__ifindex(map), bpf_map__numa_node(map),
		  (unsigned long long)bpf_map__map_extra(map), bpf_map__is_internal(map));
	view_text(" types #%016llx #%016llx", (unsigned long long)types_digest(types, bpf_map__btf_key_type_id(map)),
		  (unsigned long long)types_digest(types, bpf_map__btf_value_type_id(map)));
	view_string("pin", bpf_map__pin_path(map));
	if (value)
		view_bytes("initial", value, size);
	view_text("\n");
	if (bpf_map__inner_map(map)) {
		view_text("inner ");
		view_map(bpf_map__inner_map(map), types);
	}
}

static void view_programs(const struct bpf_object *object)
{
	struct bpf_program *program;

	bpf_object__for_each_program(program, object)
		view_program(program);
}

static void view_opened(const struct bpf_object *object)
{
	struct bpf_map *map;
	struct types *types;
	uint32_t size = 0;
	const void *raw = bpf_object__btf(object) ? btf__raw_data(bpf_object__btf(object), &size) : NULL;

	types = types_read(raw, size);
	view_text("opened, version %u\n", bpf_object__kversion(object));
	view_programs(object);
	bpf_object__for_each_map(map, object)
		view_map(map, types);
	view_types(types);
	types_free(types);
}

/* Maps aren't pinned: that would make files of names that a hostile object chooses. */
static void forget_pins(struct bpf_object *object)
{
	struct bpf_map *map;

	bpf_object__for_each_map(map, object)
		bpf_map__set_pin_path(map, NULL);
}

/* Leaves one program to load. It needs a type, which the user of a section that libbpf doesn't know has to set. */
static void choose(struct bpf_object *object, unsigned chosen)
{
	struct bpf_program *program;
	unsigned number = 0;

	bpf_object__for_each_program(program, object) {
		bpf_program__set_autoload(program, number == chosen);
		if (bpf_program__type(program) == BPF_PROG_TYPE_UNSPEC)
			bpf_program__set_type(program, BPF_PROG_TYPE_SOCKET_FILTER);
		number++;
	}
}

static bool view_load(struct bpf_object *object)
{
	struct bpf_map *map;
	int error;

	forget_pins(object);
	error = bpf_object__load(object);
	view_text("load %d\n", error);
	view_programs(object);
	if (error)
		return false;
	bpf_object__for_each_map(map, object)
		if (bpf_map__type(map) == BPF_MAP_TYPE_STRUCT_OPS)
			bpf_map__attach_struct_ops(map);
	return true;
}

static bool loads_all(const struct bpf_object *object)
{
	struct bpf_program *program;

	bpf_object__for_each_program(program, object)
		if (!bpf_program__autoload(program))
			return false;
	return true;
}

static unsigned count_programs(const struct bpf_object *object)
{
	struct bpf_program *program;
	unsigned count = 0;

	bpf_object__for_each_program(program, object)
		count++;
	return count < MAX_PROGRAMS ? count : MAX_PROGRAMS;
}

/* If not all programs are loaded, each is loaded by itself: users of libbpf do so, and one that can't be loaded would hide the others. */
void view_file(const struct file *file)
{
	struct bpf_object *object = open_object(file);
	bool is_whole;
	unsigned count, chosen;

	if (!object) {
		view_text("open fails with %d\n", errno);
		return;
	}
	view_opened(object);
	count = count_programs(object);
	is_whole = loads_all(object);
	if (view_load(object) && is_whole)
		return;
	for (chosen = 0; chosen < count; chosen++) {
		object = open_object(file);
		view_text("program %u by itself\n", chosen);
		choose(object, chosen);
		view_load(object);
	}
}
