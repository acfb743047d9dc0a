#define _GNU_SOURCE
#include "loaded.h"

#include <linux/btf.h>
#include <stdbool.h>
#include <stdlib.h>
#include <string.h>

/* Later versions of the header have more fields. */
enum { NO_NAME = -1, NO_TYPE = 0, ROUNDS = 40, SHORTEST_HEADER = 24 };

/* The words of a type: those after its name and info, and those of each item, one of which may be a name. The bits of `types` and
 * `types_of_item` are set for the words that are numbers of types. */
struct kind {
	unsigned words, types;
	unsigned words_of_item, types_of_item;
	int name_of_item;
};

static const struct kind kinds[] = {
	[BTF_KIND_INT] = { 2, NO_TYPE, 0, NO_TYPE, NO_NAME },
	[BTF_KIND_PTR] = { 1, 1, 0, NO_TYPE, NO_NAME },
	[BTF_KIND_ARRAY] = { 4, 6, 0, NO_TYPE, NO_NAME },
	[BTF_KIND_STRUCT] = { 1, NO_TYPE, 3, 2, 0 },
	[BTF_KIND_UNION] = { 1, NO_TYPE, 3, 2, 0 },
	[BTF_KIND_ENUM] = { 1, NO_TYPE, 2, NO_TYPE, 0 },
	[BTF_KIND_FWD] = { 1, NO_TYPE, 0, NO_TYPE, NO_NAME },
	[BTF_KIND_TYPEDEF] = { 1, 1, 0, NO_TYPE, NO_NAME },
	[BTF_KIND_VOLATILE] = { 1, 1, 0, NO_TYPE, NO_NAME },
	[BTF_KIND_CONST] = { 1, 1, 0, NO_TYPE, NO_NAME },
	[BTF_KIND_RESTRICT] = { 1, 1, 0, NO_TYPE, NO_NAME },
	[BTF_KIND_FUNC] = { 1, 1, 0, NO_TYPE, NO_NAME },
	[BTF_KIND_FUNC_PROTO] = { 1, 1, 2, 2, 0 },
	[BTF_KIND_VAR] = { 2, 1, 0, NO_TYPE, NO_NAME },
	[BTF_KIND_DATASEC] = { 1, NO_TYPE, 3, 1, NO_NAME },
	[BTF_KIND_FLOAT] = { 1, NO_TYPE, 0, NO_TYPE, NO_NAME },
	[BTF_KIND_DECL_TAG] = { 2, 1, 0, NO_TYPE, NO_NAME },
	[BTF_KIND_TYPE_TAG] = { 1, 1, 0, NO_TYPE, NO_NAME },
	[BTF_KIND_ENUM64] = { 1, NO_TYPE, 3, NO_TYPE, 0 },
};

struct types {
	char *btf;
	size_t size;
	uint32_t count; /* of types with void, which is number 0 */
	const struct btf_type **type;
	uint64_t *digest;
};

const char *types_string(const struct types *types, unsigned offset)
{
	const struct btf_header *header;
	size_t start;

	if (!types)
		return NULL;
	header = (const struct btf_header *)types->btf;
	start = (size_t)header->hdr_len + header->str_off + offset;
	if (offset >= header->str_len || start >= types->size || !memchr(types->btf + start, 0, types->size - start))
		return NULL;
	return types->btf + start;
}

/* A kind that this table doesn't have has one word, as libbpf's btf_type_size says of each other kind. */
static struct kind kind_of(const struct btf_type *type)
{
	unsigned number = BTF_INFO_KIND(type->info);

	return number < sizeof kinds / sizeof *kinds && kinds[number].words ? kinds[number] : (struct kind){ 1, NO_TYPE, 0, NO_TYPE, NO_NAME };
}

static unsigned items_of(const struct btf_type *type)
{
	return kind_of(type).words_of_item ? BTF_INFO_VLEN(type->info) : 0;
}

static size_t size_of(const struct btf_type *type)
{
	return 4 * (2 + kind_of(type).words + (size_t)items_of(type) * kind_of(type).words_of_item);
}

uint64_t types_digest(const struct types *types, uint32_t number)
{
	return types && number < types->count ? types->digest[number] : number;
}

static uint64_t mixed(uint64_t digest, uint64_t word)
{
	digest = (digest ^ word) * 0x9e3779b97f4a7c15u;
	return digest ^ digest >> 29;
}

static uint64_t mixed_string(uint64_t digest, const char *string)
{
	for (; string && *string; string++)
		digest = mixed(digest, (unsigned char)*string);
	return mixed(digest, string ? 256 : 257);
}

/* Words as they are, but for those that are types. */
static uint64_t mixed_words(const struct types *types, uint64_t digest, const uint32_t *word, unsigned count, unsigned which, int name)
{
	unsigned i;

	for (i = 0; i < count; i++)
		if ((int)i == name)
			digest = mixed_string(digest, types_string(types, word[i]));
		else
			digest = mixed(digest, which >> i & 1 ? types_digest(types, word[i]) : word[i]);
	return digest;
}

static uint64_t next_digest(const struct types *types, const struct btf_type *type)
{
	struct kind kind = kind_of(type);
	const uint32_t *word = &type->size;
	uint64_t digest = mixed_string(mixed(0x84222325cbf29ce4u, type->info), types_string(types, type->name_off));
	unsigned i;

	digest = mixed_words(types, digest, word, kind.words, kind.types, NO_NAME);
	for (word += kind.words, i = items_of(type); i--; word += kind.words_of_item)
		digest = mixed_words(types, digest, word, kind.words_of_item, kind.types_of_item, kind.name_of_item);
	return digest;
}

/* Each round tells types apart by what is one reference farther away. */
static void compute_digests(struct types *types)
{
	uint64_t *next = calloc(types->count, sizeof *next);
	unsigned round;
	uint32_t i;

	for (round = 0; next && round < ROUNDS; round++) {
		for (i = 1; i < types->count; i++)
			next[i] = next_digest(types, types->type[i]);
		memcpy(types->digest, next, types->count * sizeof *next);
	}
	free(next);
}

static void find_types(struct types *types)
{
	const struct btf_header *header = (const struct btf_header *)types->btf;
	const char *place = types->btf + header->hdr_len + header->type_off, *end;

	types->count = 1;
	for (end = place + header->type_len; place < end; place += size_of((const struct btf_type *)place))
		types->type[types->count++] = (const struct btf_type *)place;
}

struct types *types_read(const void *btf, size_t size)
{
	struct types *types = btf && size >= SHORTEST_HEADER ? calloc(1, sizeof *types) : NULL;

	if (!types)
		return NULL;
	types->size = size;
	types->btf = malloc(size);
	types->type = calloc(1 + size / sizeof(struct btf_type), sizeof *types->type);
	types->digest = calloc(1 + size / sizeof(struct btf_type), sizeof *types->digest);
	if (!types->btf || !types->type || !types->digest) {
		types_free(types);
		return NULL;
	}
	memcpy(types->btf, btf, size);
	find_types(types);
	compute_digests(types);
	return types;
}

void types_free(struct types *types)
{
	if (types) {
		free(types->btf);
		free(types->type);
		free(types->digest);
	}
	free(types);
}

static const uint32_t *view_words(const struct types *types, const uint32_t *word, unsigned count, unsigned which, int name)
{
	unsigned i;

	for (i = 0; i < count; i++, word++)
		if ((int)i == name)
			view_string("item", types_string(types, *word));
		else if (which >> i & 1)
			view_text(" #%016llx", (unsigned long long)types_digest(types, *word));
		else
			view_text(" %u", *word);
	return word;
}

static void view_type(const struct types *types, const struct btf_type *type)
{
	struct kind kind = kind_of(type);
	unsigned count = items_of(type);
	const uint32_t *word;

	view_text("type %u", type->info);
	view_string("name", types_string(types, type->name_off));
	word = view_words(types, &type->size, kind.words, kind.types, NO_NAME);
	while (count--)
		word = view_words(types, word, kind.words_of_item, kind.types_of_item, kind.name_of_item);
	view_text("\n");
}

/* Whether an object's file of one form has the type in another place than that of the other form. */
static bool is_moved(const struct btf_type *type)
{
	unsigned kind = BTF_INFO_KIND(type->info);

	return kind == BTF_KIND_VAR || kind == BTF_KIND_DATASEC || kind == BTF_KIND_FWD || kind == BTF_KIND_TYPE_TAG;
}

static int by_digest(const void *one, const void *other, void *types)
{
	uint64_t a = types_digest(types, *(const uint32_t *)one), b = types_digest(types, *(const uint32_t *)other);

	return (a > b) - (a < b);
}

void view_types(const struct types *types)
{
	uint32_t *moved = types ? calloc(types->count, sizeof *moved) : NULL, count = 0, i;

	if (!moved) {
		view_text("no types\n");
		return;
	}
	for (i = 1; i < types->count; i++)
		if (is_moved(types->type[i]))
			moved[count++] = i;
		else
			view_type(types, types->type[i]);
	qsort_r(moved, count, sizeof *moved, by_digest, (void *)types);
	for (i = 0; i < count; i++)
		view_type(types, types->type[moved[i]]);
	free(moved);
}

void view_types_digest(const struct types *types)
{
	size_t length = view_length();

	view_types(types);
	view_shorten(length);
}
