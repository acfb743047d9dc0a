/* Counts flows: what listings show by name, a map, a constant, an array of addresses, a function, a CO-RE access and externs. */
typedef unsigned int u32;
typedef unsigned long long u64;

enum state { NEW = 1, OLD = 2 };

struct flow {
	u32 source;
	u32 target;
};

struct host {
	u32 id;
	u32 counts[4];
} __attribute__((preserve_access_index));

struct {
	int (*type)[1];
	int (*max_entries)[ENTRIES];
	struct flow *key;
	u64 *value;
} flows __attribute__((section(".maps"), used));

const volatile u32 limit = LIMIT;
const volatile enum state first = NEW;
char label[] = "flows";
u64 total;
void *known[2] = {label, &total};
char _license[] __attribute__((section("license"), used)) = "GPL";
extern int report(u32 id) __attribute__((section(".ksyms")));

static void *(*map_lookup_elem)(void *map, const void *key) = (void *)1;

static __attribute__((noinline)) int over(const struct flow *flow)
{
	return flow->source > limit || first == OLD;
}

__attribute__((section("xdp"), used)) int count_flows(struct host *host)
{
	struct flow flow = {host->id, host->counts[2]};
	u64 *value = map_lookup_elem(&flows, &flow);

	if (value)
		__sync_fetch_and_add(value, 1);
	else if (over(&flow))
		return report(flow.source);
	total++;
	return RETURNS;
}
