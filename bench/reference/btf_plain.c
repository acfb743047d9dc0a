/*
 * What a C programmer would write by hand for btf-canon: read all, walk the records once (btf.rst section 2) and note each name in a
 * hash table, sort the names by their bytes from the end so that they share tails, and write little-endian.
 *
 * It checks only the framing and the ranges of names and of type IDs.
 *
 * usage: btf_plain < file > file
 */
#include "whole_io.h"

enum { INT = 1, ARRAY = 3, STRUCT = 4, UNION = 5, ENUM = 6, FUNC_PROTO = 13, VAR = 14, DATASEC = 15, DECL_TAG = 17, ENUM64 = 19 };

/* 32-bit fields after the third, and those of an item, by kind */
static const uint8_t tail_words[20] = { [INT] = 1, [ARRAY] = 3, [VAR] = 1, [DECL_TAG] = 1 };
static const uint8_t item_words[20] = { [STRUCT] = 3, [UNION] = 3, [ENUM] = 2, [FUNC_PROTO] = 2, [DATASEC] = 3, [ENUM64] = 3 };
/* kinds with a type in the third field: PTR, TYPEDEF to FUNC_PROTO, VAR, DECL_TAG, TYPE_TAG */
static const uint32_t typed_kinds = 1 << 2 | 1 << 8 | 1 << 9 | 1 << 10 | 1 << 11 | 1 << 12 | 1 << 13 | 1 << 14 | 1 << 17 | 1 << 18;

struct name { uint32_t off, len, hash; };
static struct name *names;
static uint32_t name_count, name_capacity;
static uint32_t *buckets, bucket_mask; /* 1 + the index of a name, or 0 */
static uint32_t *name_at;              /* by offset, the same */
static const uint8_t *strings;
static uint32_t strings_len;
static int is_big;

static uint32_t word(const uint8_t *at)
{
	uint32_t w;

	memcpy(&w, at, 4);
	return is_big ? __builtin_bswap32(w) : w;
}

static uint32_t hash_of(const uint8_t *text, uint32_t len)
{
	uint64_t hash = len * 0x9e3779b97f4a7c15u, part;

	for (; len >= 8; len -= 8, text += 8) {
		memcpy(&part, text, 8);
		hash = (hash ^ part) * 0xbf58476d1ce4e5b9u;
		hash ^= hash >> 29;
	}
	for (part = 0; len; len--)
		part = part << 8 | *text++;
	return ((hash ^ part) * 0x94d049bb133111ebu) >> 32;
}

static void grow_buckets(void)
{
	uint32_t mask = bucket_mask * 2 + 1, *grown = calloc((size_t)mask + 1, 4);

	for (uint32_t i = 0; i < name_count; i++) {
		uint32_t k = names[i].hash & mask;

		while (grown[k])
			k = (k + 1) & mask;
		grown[k] = i + 1;
	}
	free(buckets);
	buckets = grown;
	bucket_mask = mask;
}

/* 1 + the index of the name at an offset, or 0 of the empty one */
static uint32_t note_name(uint32_t off, size_t pos)
{
	uint32_t len, hash, k;

	if (off >= strings_len)
		refuse("NameRange", pos);
	if (!strings[off])
		return 0;
	if (name_at[off])
		return name_at[off];
	len = strlen((const char *)strings + off);
	hash = hash_of(strings + off, len);
	if ((name_count + 1) * 2 > bucket_mask)
		grow_buckets();
	for (k = hash & bucket_mask; buckets[k]; k = (k + 1) & bucket_mask) {
		struct name *other = &names[buckets[k] - 1];

		if (other->hash == hash && other->len == len && !memcmp(strings + other->off, strings + off, len))
			return name_at[off] = buckets[k];
	}
	if (name_count == name_capacity)
		names = realloc(names, (name_capacity *= 2) * sizeof *names);
	names[name_count] = (struct name){ off, len, hash };
	buckets[k] = ++name_count;
	return name_at[off] = name_count;
}

/* a name to sort: its last 8 bytes as a number, the last one highest, padded with zeros */
struct tail { uint64_t key; uint32_t index; };

static struct tail tail_of(uint32_t index)
{
	const struct name *name = &names[index];
	struct tail tail = { 0, index };

	for (uint32_t j = 1; j <= name->len && j <= 8; j++)
		tail.key |= (uint64_t)strings[name->off + name->len - j] << (64 - 8 * j);
	return tail;
}

static int compare_tails(const void *a, const void *b)
{
	const struct tail *x = a, *y = b;
	const struct name *p = &names[x->index], *q = &names[y->index];
	uint32_t i = p->len, j = q->len;

	if (x->key != y->key)
		return x->key < y->key ? -1 : 1;
	while (i && j) {
		uint8_t c = strings[p->off + --i], d = strings[q->off + --j];

		if (c != d)
			return c < d ? -1 : 1;
	}
	return i ? 1 : j ? -1 : 0;
}

/* three radix passes of 11 bits over the top of the keys, then qsort if the tops are equal */
static struct tail *sort_tails(struct tail *from, struct tail *to, uint32_t count)
{
	for (int shift = 31; shift < 64; shift += 11) {
		uint32_t starts[2048] = { 0 }, start = 0;
		struct tail *sorted = to;

		for (uint32_t i = 0; i < count; i++)
			starts[from[i].key >> shift & 2047]++;
		for (int k = 0; k < 2048; k++) {
			uint32_t n = starts[k];

			starts[k] = start;
			start += n;
		}
		for (uint32_t i = 0; i < count; i++)
			to[starts[from[i].key >> shift & 2047]++] = from[i];
		to = from;
		from = sorted;
	}
	for (uint32_t i = 0, j; i < count; i = j) {
		for (j = i + 1; j < count && from[j].key >> 31 == from[i].key >> 31; j++)
			;
		if (j - i > 1)
			qsort(from + i, j - i, sizeof *from, compare_tails);
	}
	return from;
}

static int ends_with(const struct name *name, const struct name *tail)
{
	return name->len > tail->len
		&& !memcmp(strings + name->off + name->len - tail->len, strings + tail->off, tail->len);
}

/* Lays out the names that end no other, and returns the offset of each name by 1 + its index. */
static uint32_t *share_tails(uint8_t *table, uint32_t *table_len)
{
	struct tail *tails = malloc((name_count + 1) * sizeof *tails), *scratch = malloc((name_count + 1) * sizeof *scratch), *sorted;
	uint32_t *host = malloc((name_count + 1) * 4), *offset = malloc((name_count + 1) * 4), end = 1;

	for (uint32_t i = 0; i < name_count; i++)
		tails[i] = tail_of(i);
	sorted = sort_tails(tails, scratch, name_count);
	for (uint32_t k = name_count; k-- > 0; ) {
		uint32_t i = sorted[k].index;

		host[i] = i;
		if (k + 1 < name_count && ends_with(&names[sorted[k + 1].index], &names[i]))
			host[i] = host[sorted[k + 1].index];
	}
	table[0] = 0;
	offset[0] = 0;
	for (uint32_t i = 0; i < name_count; i++)
		if (host[i] == i) {
			offset[i + 1] = end;
			memcpy(table + end, strings + names[i].off, names[i].len + 1);
			end += names[i].len + 1;
		}
	for (uint32_t i = 0; i < name_count; i++)
		if (host[i] != i)
			offset[i + 1] = offset[host[i] + 1] + names[host[i]].len - names[i].len;
	*table_len = end;
	return offset;
}

/* Copies the 32-bit fields of all records, with 1 + the index of a name instead of its offset. */
static void walk_records(const uint8_t *types, size_t types_len, uint32_t *words)
{
	uint32_t top = 0, count = 0;

	for (size_t pos = 0; pos < types_len; ) {
		uint32_t info, kind, third;
		size_t after, i = 0;

		if (types_len - pos < 12)
			refuse("RecordCut", pos);
		info = word(types + pos + 4);
		kind = info >> 24 & 31;
		third = word(types + pos + 8);
		if (kind == 0 || kind > 19 || info & 0x60ff0000)
			refuse("InfoBits", pos + 4);
		after = tail_words[kind] + (size_t)item_words[kind] * (info & 0xffff);
		if ((types_len - pos - 12) / 4 < after)
			refuse("TailCut", pos + 12);
		*words++ = note_name(word(types + pos), pos);
		*words++ = info;
		*words++ = third;
		pos += 12;
		count++;
		if (typed_kinds >> kind & 1 && third > top)
			top = third;
		if (item_words[kind] && kind != DATASEC)
			for (; i < after; i += item_words[kind], pos += 4 * item_words[kind]) {
				*words++ = note_name(word(types + pos), pos);
				for (int j = 1; j < item_words[kind]; j++)
					*words++ = word(types + pos + 4 * j);
				if ((kind == STRUCT || kind == UNION || kind == FUNC_PROTO) && word(types + pos + 4) > top)
					top = word(types + pos + 4);
			}
		for (; i < after; i++, pos += 4)
			*words++ = word(types + pos);
	}
	if (top > count)
		refuse("Reference", 0);
}

/* Inserts the offsets of the names, and clears the kind_flag of a STRUCT or UNION without bit-fields. */
static void put_offsets(uint32_t *words, size_t count, const uint32_t *offset)
{
	for (size_t k = 0; k < count; ) {
		uint32_t info = words[k + 1], kind = info >> 24 & 31, widths = 0;
		size_t end = k + 3 + tail_words[kind] + (size_t)item_words[kind] * (info & 0xffff);

		words[k] = offset[words[k]];
		if ((kind == STRUCT || kind == UNION) && info >> 31) {
			for (size_t i = k + 3; i < end; i += 3)
				widths |= words[i + 2] >> 24;
			if (!widths)
				words[k + 1] = info & 0x7fffffff;
		}
		if (item_words[kind] && kind != DATASEC)
			for (k += 3; k < end; k += item_words[kind])
				words[k] = offset[words[k]];
		k = end;
	}
}

int main(void)
{
	size_t len;
	uint8_t *file = read_whole(&len), *out;
	uint32_t header_len, type_off, types_len, str_off, table_len, *offset, *words;

	if (len < 24)
		refuse("ShortHeader", len);
	is_big = file[0] == 0xeb;
	if (file[is_big] != 0x9f || file[!is_big] != 0xeb)
		refuse("Magic", 0);
	header_len = word(file + 4);
	type_off = word(file + 8);
	types_len = word(file + 12);
	str_off = word(file + 16);
	strings_len = word(file + 20);
	if ((uint64_t)header_len + types_len + strings_len != len || !strings_len
	    || !((type_off == 0 && str_off == types_len) || (str_off == 0 && type_off == strings_len)))
		refuse("Sections", 8);
	strings = file + header_len + str_off;
	if (strings[0] || strings[strings_len - 1])
		refuse("FirstString", 0);

	name_at = calloc(strings_len, 4);
	name_capacity = strings_len / 12 + 16;
	names = malloc(name_capacity * sizeof *names);
	for (bucket_mask = 1023; bucket_mask < strings_len / 10; )
		bucket_mask = bucket_mask * 2 + 1;
	buckets = calloc((size_t)bucket_mask + 1, 4);
	out = malloc(24 + (size_t)types_len + strings_len);
	words = (uint32_t *)(out + 24);

	walk_records(file + header_len + type_off, types_len, words);
	offset = share_tails(out + 24 + types_len, &table_len);
	put_offsets(words, types_len / 4, offset);
	memcpy(out, (uint32_t[]){ 0x0001eb9f, 24, 0, types_len, types_len, table_len }, 24);
	write_whole(out, 24 + (size_t)types_len + table_len);
	return 0;
}
