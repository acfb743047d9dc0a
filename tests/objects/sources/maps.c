/* Maps of several types, maps in maps, an array of programs, and what pins a map. */
#include <linux/bpf.h>

#include <bpf/bpf_helpers.h>

struct flow {
	__u32 source, destination;
	__u16 ports[2];
};

struct count {
	__u64 packets, bytes;
};

struct {
	__uint(type, BPF_MAP_TYPE_HASH);
	__uint(max_entries, 1024);
	__type(key, struct flow);
	__type(value, struct count);
} flows SEC(".maps");

struct {
	__uint(type, BPF_MAP_TYPE_PERCPU_ARRAY);
	__uint(max_entries, 4);
	__uint(map_flags, BPF_F_NUMA_NODE);
	__uint(numa_node, 1);
	__type(key, __u32);
	__type(value, struct count);
} totals SEC(".maps");

struct {
	__uint(type, BPF_MAP_TYPE_RINGBUF);
	__uint(max_entries, 8192);
} events SEC(".maps");

struct {
	__uint(type, BPF_MAP_TYPE_LRU_HASH);
	__uint(max_entries, 16);
	__uint(key_size, 4);
	__uint(value_size, 8);
	__uint(pinning, LIBBPF_PIN_BY_NAME);
} pinned SEC(".maps");

struct inner {
	__uint(type, BPF_MAP_TYPE_ARRAY);
	__uint(max_entries, 1);
	__type(key, int);
	__type(value, int);
} first SEC(".maps"), second SEC(".maps");

struct {
	__uint(type, BPF_MAP_TYPE_ARRAY_OF_MAPS);
	__uint(max_entries, 3);
	__type(key, int);
	__array(values, struct inner);
} outer SEC(".maps") = { .values = { &first, 0, &second } };

struct {
	__uint(type, BPF_MAP_TYPE_BLOOM_FILTER);
	__uint(max_entries, 100);
	__uint(map_extra, 3);
	__type(value, int);
} seen SEC(".maps");

SEC("xdp")
int count_flows(struct xdp_md *context)
{
	struct flow flow = { .source = context->ingress_ifindex };
	struct count *count = bpf_map_lookup_elem(&flows, &flow);
	int zero = 0;
	void *inner;

	if (count)
		__sync_fetch_and_add(&count->packets, 1);
	count = bpf_map_lookup_elem(&totals, &zero);
	if (count)
		count->bytes += context->data_end - context->data;
	inner = bpf_map_lookup_elem(&outer, &zero);
	if (inner)
		bpf_map_lookup_elem(inner, &zero);
	bpf_map_push_elem(&seen, &zero, 0);
	return XDP_PASS;
}

SEC("xdp")
int pass_on(struct xdp_md *context)
{
	__u32 key = context->rx_queue_index;
	__u64 *value = bpf_map_lookup_elem(&pinned, &key);

	bpf_ringbuf_output(&events, &key, sizeof key, 0);
	return value && *value ? XDP_DROP : XDP_PASS;
}

char _license[] SEC("license") = "GPL";
