/* Maps: two with types, one of maps with values, and one with neither, which only old loaders read. */
typedef unsigned int u32;
typedef unsigned long long u64;

struct value {
	u64 packets, bytes;
};

struct inner {
	u32 (*type)[2]; /* BPF_MAP_TYPE_ARRAY */
	u32 (*max_entries)[4];
	u32 *key;
	struct value *value;
} first __attribute__((section(".maps"), used)), second __attribute__((section(".maps"), used));

struct {
	u32 (*type)[12]; /* BPF_MAP_TYPE_ARRAY_OF_MAPS */
	u32 (*max_entries)[2];
	u32 *key;
	u32 (*value_size)[4];
	struct inner *values[];
} outer __attribute__((section(".maps"), used)) = {.values = {&first, &second}};

struct {
	u32 type, key_size, value_size, max_entries, flags;
} old __attribute__((section("maps"), used)) = {1, 4, 8, 32, 0};

static void *(*const lookup)(void *map, const void *key) = (void *)1;

__attribute__((section("xdp"), used)) int count(u32 *packet)
{
	u32 key = packet[0] & 1;
	void *inner = lookup(&outer, &key);
	struct value *value = inner ? lookup(inner, &key) : lookup(&first, &key);
	u64 *other = lookup(&old, &key);

	if (!value || !other)
		return 1;
	value->packets += 1;
	*other += packet[1] - packet[0];
	return 2;
}

char _license[] __attribute__((section("license"), used)) = "GPL";
