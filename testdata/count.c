/* Counts its calls in the map MAP, which is packets or errors. */
struct map {
	int (*type)[1];
	unsigned int *key;
	unsigned long long *value;
	int (*max_entries)[16];
};

struct map packets __attribute__((section(".maps"), used));
struct map errors __attribute__((section(".maps"), used));
char _license[] __attribute__((section("license"), used)) = "GPL";

static void *(*lookup)(void *map, const void *key) = (void *)1;

__attribute__((section("socket"), used)) int count(void *context)
{
	unsigned int key = 0;
	unsigned long long *value = lookup(&MAP, &key);

	if (value)
		__sync_fetch_and_add(value, 1);
	return 0;
}
