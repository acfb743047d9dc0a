/*
 * Compares each field of the records of BTF files with what libbpf reads from the same bytes. usage: libbpf_fields FILE.., BTF files in
 * the byte order of the machine or the other one
 */
#include "checks.h"

#include <bpf/btf.h>

/* A file as both libraries decode it. */
struct file {
	uint8_t *bytes;
	size_t len;
	bpfcanon_btf_type *types;
	bpfcanon_btf_item *items;
	struct btf *btf;
};

/* Whether the name of a record is that at an offset of libbpf's string section. */
static int is_name(const struct file *file, uint32_t name, uint32_t name_len, uint32_t offset)
{
	const char *theirs = btf__name_by_offset(file->btf, offset);

	return theirs && strlen(theirs) == name_len && !strcmp(bpfcanon_btf_name(file->bytes, name), theirs);
}

static int has_size(uint32_t kind)
{
	return kind == BTF_KIND_INT || kind == BTF_KIND_STRUCT || kind == BTF_KIND_UNION || kind == BTF_KIND_ENUM
		|| kind == BTF_KIND_DATASEC || kind == BTF_KIND_FLOAT || kind == BTF_KIND_ENUM64;
}

static int has_items(const struct btf_type *theirs)
{
	return btf_is_composite(theirs) || btf_is_any_enum(theirs) || btf_is_func_proto(theirs) || btf_is_datasec(theirs);
}

static int has_target(uint32_t kind)
{
	return !has_size(kind) && kind != BTF_KIND_ARRAY && kind != BTF_KIND_FWD;
}

static int has_flag(uint32_t kind)
{
	return kind == BTF_KIND_ENUM || kind == BTF_KIND_ENUM64 || kind == BTF_KIND_FWD || kind == BTF_KIND_DECL_TAG
		|| kind == BTF_KIND_TYPE_TAG;
}

static uint32_t linkage_of(const struct btf_type *theirs)
{
	return btf_is_var(theirs) ? btf_var(theirs)->linkage : btf_is_func(theirs) ? btf_vlen(theirs) : 0;
}

/* The record of a type that libbpf's fields make. Where its name is isn't a field of libbpf. */
static bpfcanon_btf_type right_type(const struct file *file, const struct btf_type *theirs, uint32_t name, uint32_t first)
{
	bpfcanon_btf_type right = { .kind = btf_kind(theirs), .name = name, .first = first };

	right.name_len = strlen(btf__name_by_offset(file->btf, theirs->name_off));
	right.flag = has_flag(right.kind) && btf_kflag(theirs);
	right.items = has_items(theirs) ? btf_vlen(theirs) : 0;
	right.size = has_size(right.kind) ? theirs->size : 0;
	right.target = has_target(right.kind) ? theirs->type : 0;
	right.linkage = linkage_of(theirs);
	if (btf_is_int(theirs)) {
		right.encoding = btf_int_encoding(theirs);
		right.bit_offset = btf_int_offset(theirs);
		right.bits = btf_int_bits(theirs);
	}
	if (btf_is_array(theirs)) {
		right.target = btf_array(theirs)->type;
		right.index_type = btf_array(theirs)->index_type;
		right.elements = btf_array(theirs)->nelems;
	}
	if (btf_is_decl_tag(theirs))
		right.component = btf_decl_tag(theirs)->component_idx;
	return right;
}

/* The record of an item, and where its name is in libbpf's string section. */
static bpfcanon_btf_item right_item(const struct btf_type *theirs, uint32_t k, uint32_t name, uint32_t *offset)
{
	bpfcanon_btf_item right = { .name = name };

	*offset = 0;
	if (btf_is_composite(theirs)) {
		right.kind = BPFCANON_BTF_ITEM_KIND_MEMBER;
		right.target = btf_members(theirs)[k].type;
		right.bit_offset = btf_member_bit_offset(theirs, k);
		right.width = btf_member_bitfield_size(theirs, k);
		*offset = btf_members(theirs)[k].name_off;
	} else if (btf_is_enum(theirs)) {
		right.kind = BPFCANON_BTF_ITEM_KIND_ENUM_VALUE;
		right.value = (uint32_t)btf_enum(theirs)[k].val;
		*offset = btf_enum(theirs)[k].name_off;
	} else if (btf_is_enum64(theirs)) {
		right.kind = BPFCANON_BTF_ITEM_KIND_ENUM64_VALUE;
		right.value = btf_enum64_value(&btf_enum64(theirs)[k]);
		*offset = btf_enum64(theirs)[k].name_off;
	} else if (btf_is_func_proto(theirs)) {
		right.kind = BPFCANON_BTF_ITEM_KIND_PARAM;
		right.target = btf_params(theirs)[k].type;
		*offset = btf_params(theirs)[k].name_off;
	} else {
		right.kind = BPFCANON_BTF_ITEM_KIND_ENTRY;
		right.target = btf_var_secinfos(theirs)[k].type;
		right.offset = btf_var_secinfos(theirs)[k].offset;
		right.size = btf_var_secinfos(theirs)[k].size;
	}
	return right;
}

/* Records have no padding, so all their fields are compared at once. */
static void compare_items(const struct file *file, const bpfcanon_btf_type *type, const struct btf_type *theirs)
{
	const bpfcanon_btf_item *item;
	uint32_t k = 0;

	bpfcanon_each_item(item, type, file->items) {
		uint32_t offset;
		bpfcanon_btf_item right = right_item(theirs, k++, item->name, &offset);

		CHECK(is_name(file, item->name, item->name_len, offset));
		right.name_len = item->name_len;
		CHECK(!memcmp(item, &right, sizeof right));
	}
}

static void compare_types(const struct file *file, uint32_t count, size_t total)
{
	const bpfcanon_btf_type *type;
	uint32_t id = 0, first = 0;

	CHECK(btf__type_cnt(file->btf) == count + 1);
	bpfcanon_each_type(type, file->types, count) {
		const struct btf_type *theirs = btf__type_by_id(file->btf, ++id);
		bpfcanon_btf_type right = right_type(file, theirs, type->name, first);

		CHECK(is_name(file, type->name, type->name_len, theirs->name_off));
		CHECK(!memcmp(type, &right, sizeof right));
		compare_items(file, type, theirs);
		first += right.items;
	}
	CHECK(first == total);
}

/* What was decoded is encoded as the canonical BTF. */
static void encode_again(const struct file *file, uint32_t count, size_t total)
{
	uint8_t *encoded, *canonical;
	bpfcanon_answer right = bpfcanon_btf_canon_new(BPFCANON_ORDER_LITTLE, file->bytes, file->len, &canonical);

	CHECK(is(bpfcanon_btf_encode_new(0, file->types, count, file->items, total, (char *)file->bytes, file->len, &encoded), right));
	CHECK(encoded && !memcmp(encoded, canonical, right.written));
	bpfcanon_free(encoded);
	bpfcanon_free(canonical);
}

static void compare_file(const char *path)
{
	struct file file;
	bpfcanon_answer answer;

	file.bytes = load_file(path, &file.len);
	file.btf = btf__new(file.bytes, file.len);
	answer = bpfcanon_btf_decode_new(file.bytes, file.len, &file.types, &file.items);
	CHECK(answer.status == BPFCANON_STATUS_DONE && file.btf);
	if (answer.status == BPFCANON_STATUS_DONE && file.btf)
		compare_types(&file, answer.types, answer.written);
	if (answer.status == BPFCANON_STATUS_DONE)
		encode_again(&file, answer.types, answer.written);
	btf__free(file.btf);
	bpfcanon_free(file.types);
	bpfcanon_free(file.items);
	free(file.bytes);
}

int main(int argc, char **argv)
{
	for (int k = 1; k < argc; k++) {
		long before = failed;

		compare_file(argv[k]);
		if (failed != before)
			printf("%s\n", argv[k]);
	}
	return end("records and libbpf's fields");
}
