/* Variables in each kind of section for them. */
#include <linux/bpf.h>

#include <bpf/bpf_helpers.h>

const volatile int limit = 10;
const volatile char label[8] = "packets";
const volatile long long table[4] SEC(".rodata.tables") = { 1, 2, 3, 5 };
int threshold = 3;
static volatile int hidden_threshold = 4;
int __attribute__((visibility("hidden"))) internal_threshold = 5;
long total;
static volatile long seen;
int custom SEC(".data.custom") = 77;
int cleared SEC(".bss.cleared");
int __attribute__((weak)) weak_value = 9;

SEC("socket")
int sum(struct __sk_buff *packet)
{
	total += packet->len;
	seen++;
	cleared++;
	if (packet->len > limit)
		return threshold + hidden_threshold + internal_threshold + weak_value;
	return custom + label[packet->len & 7] + table[packet->mark & 3];
}

SEC("socket/second")
int print(struct __sk_buff *packet)
{
	static const char format[] = "%d packets";

	bpf_trace_printk(format, sizeof format, packet->len);
	return limit;
}

char _license[] SEC("license") = "GPL";
