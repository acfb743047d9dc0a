/* Prints the members of each struct of a section .BTF, with their offset in bits and the name of their type. */
#include <bpfcanon.h>
#include <stdio.h>

static uint8_t file[1 << 26];

static const char *name_of(const bpfcanon_btf_type *types, uint32_t id)
{
	if (id == 0)
		return "void";
	return types[id - 1].name_len ? bpfcanon_btf_name(file, types[id - 1].name) : "-";
}

int main(void)
{
	size_t len = fread(file, 1, sizeof file, stdin);
	bpfcanon_btf_type *types;
	bpfcanon_btf_item *items;
	bpfcanon_answer answer = bpfcanon_btf_decode_new(file, len, &types, &items);
	const bpfcanon_btf_type *type;
	const bpfcanon_btf_item *member;

	bpfcanon_each_type(type, types, answer.types)
		if (type->kind == BPFCANON_BTF_KIND_STRUCT)
			bpfcanon_each_item(member, type, items)
				printf("%s.%s %u %s\n", bpfcanon_btf_name(file, type->name),
				       bpfcanon_btf_name(file, member->name), member->bit_offset,
				       name_of(types, member->target));
	bpfcanon_free(types);
	bpfcanon_free(items);
	return answer.status != BPFCANON_STATUS_DONE;
}
