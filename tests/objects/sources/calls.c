/* Functions of each linkage and visibility, a callback, and programs that share them. */
#include <linux/bpf.h>

#include <bpf/bpf_helpers.h>

static __attribute__((noinline)) int twice(int value)
{
	return value * 2 + (value >> 3);
}

__attribute__((noinline)) int global_half(int value)
{
	return (value >> 1) + twice(value);
}

__hidden __attribute__((noinline)) int hidden_sum(int a, int b)
{
	return a + b + twice(a);
}

__weak __attribute__((noinline)) int weak_choice(int value)
{
	return value & 1 ? twice(value) : value;
}

static __attribute__((noinline)) int each(unsigned index, void *context)
{
	*(int *)context += twice(index);
	return 0;
}

SEC("xdp")
int first_program(struct xdp_md *context)
{
	return hidden_sum(context->rx_queue_index, 3) + global_half(context->ingress_ifindex);
}

SEC("xdp")
int second_program(struct xdp_md *context)
{
	int sum = weak_choice(context->rx_queue_index);

	bpf_loop(4, each, &sum, 0);
	return sum;
}

SEC("tc")
int third_program(struct __sk_buff *packet)
{
	return global_half(packet->len) + twice(packet->mark);
}

char _license[] SEC("license") = "GPL";
