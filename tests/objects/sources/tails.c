/* An array of programs that is filled by the file, and a section with several programs. */
#include <linux/bpf.h>

#include <bpf/bpf_helpers.h>

int first(struct __sk_buff *packet);
int second(struct __sk_buff *packet);

struct {
	__uint(type, BPF_MAP_TYPE_PROG_ARRAY);
	__uint(max_entries, 4);
	__uint(key_size, sizeof(__u32));
	__array(values, int(void *));
} programs SEC(".maps") = { .values = { [0] = (void *)&first, [2] = (void *)&second } };

SEC("tc")
int first(struct __sk_buff *packet)
{
	return packet->len > 100;
}

SEC("tc")
int second(struct __sk_buff *packet)
{
	return packet->mark == 7 ? 2 : 0;
}

SEC("tc")
int begin(struct __sk_buff *packet)
{
	bpf_tail_call(packet, &programs, packet->protocol & 3);
	return 0;
}

SEC("?tc")
int optional(struct __sk_buff *packet)
{
	return packet->priority;
}

char _license[] SEC("license") = "Dual BSD/GPL";
int _version SEC("version") = 0x60100;
