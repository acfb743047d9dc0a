/* Counts the packets that a device receives. */
#include <linux/bpf.h>
#include <bpf/bpf_helpers.h>

struct {
	__uint(type, BPF_MAP_TYPE_ARRAY);
	__type(key, __u32);
	__type(value, __u64);
	__uint(max_entries, 1);
} packets SEC(".maps");

/* It is in the canonical file, so it is signed. The loader refuses an object with a lower one than its own. */
const volatile __u32 version SEC(".rodata.version") = VERSION;
char _license[] SEC("license") = "GPL";

SEC("xdp") int count(struct xdp_md *context)
{
	__u32 key = 0;
	__u64 *value = bpf_map_lookup_elem(&packets, &key);

	if (value)
		__sync_fetch_and_add(value, 1);
	return XDP_PASS;
}
