/* Types of many kinds, in a table of flows. Only its BTF is used. */
enum direction { OUTBOUND = -1, INBOUND = 1 };

struct host;

union address {
	unsigned int v4;
	unsigned char v6[16];
};

struct flow {
	union address source;
	enum direction direction;
	unsigned int closed : 1;
	unsigned int retries : 7;
	float load;
	struct host *host;
	const char *name __attribute__((btf_decl_tag("user")));
};

struct flow flows[8] __attribute__((btf_decl_tag("table")));
static volatile int misses;

__attribute__((section("socket"), used)) int find_flow(struct flow *restrict first, _Bool any)
{
	misses += !any;
	return flows[0].retries + (first == flows);
}
