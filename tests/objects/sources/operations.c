/* Operations of the kernel (struct_ops), some of which are programs. */
#include <linux/bpf.h>

#include <bpf/bpf_helpers.h>

struct list_head {
	struct list_head *next, *prev;
};

struct sock;

struct tcp_congestion_ops {
	__u32 key;
	__u32 flags;
	void (*init)(struct sock *sk);
	__u32 (*ssthresh)(struct sock *sk);
	void (*cong_avoid)(struct sock *sk, __u32 ack, __u32 acked);
	__u32 (*undo_cwnd)(struct sock *sk);
	char name[16];
};

int started;

SEC("struct_ops/start")
void start(unsigned long long *context)
{
	started++;
}

SEC("struct_ops/threshold")
__u32 threshold(unsigned long long *context)
{
	return started ? 2 : 10;
}

SEC("struct_ops/undo")
__u32 undo(unsigned long long *context)
{
	return 5;
}

SEC(".struct_ops")
struct tcp_congestion_ops slow = {
	.flags = 2,
	.init = (void *)start,
	.ssthresh = (void *)threshold,
	.undo_cwnd = (void *)undo,
	.name = "bpf_slow",
};

SEC(".struct_ops")
struct tcp_congestion_ops fast = {
	.key = 7,
	.ssthresh = (void *)threshold,
	.name = "bpf_fast",
};

char _license[] SEC("license") = "GPL";
