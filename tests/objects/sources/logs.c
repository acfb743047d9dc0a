/* Programs of which the verifier refuses one, and functions that they call: static, global and a callback. Their names are in another sequence
 * than their calls: loaders differ in where they put them. */
#include <linux/bpf.h>

#include <bpf/bpf_helpers.h>

static __attribute__((noinline)) int twice(int value)
{
	return value * 2 +
	       (value >> 3);
}

__attribute__((noinline)) int scale(int value)
{
	if (value > 10)
		return twice(value);
	return value * 3;
}

static int each(unsigned index, void *context)
{
	*(int *)context += twice(index);
	return 0;
}

SEC("xdp")
int accepted(struct xdp_md *context)
{
	int sum = twice(context->rx_queue_index);

	if (sum > 7)
		return XDP_DROP;
	bpf_loop(4, each, &sum, 0);
	sum += scale(context->ingress_ifindex);
	return sum > 3 ? XDP_PASS : XDP_DROP;
}

SEC("socket")
int refused(struct __sk_buff *packet)
{
	int number = scale(packet->len);

	if (packet->mark)
		number++;
	return number < 4 ? twice(number) : *(int *)(long)number;
}

char _license[] SEC("license") = "GPL";
