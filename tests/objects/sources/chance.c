/* Types of the kernel, of which most are only pointed to: a compiler declares them in an order that it leaves to chance. */
#include "vmlinux.h"

#define tag(name) __attribute__((btf_type_tag(name)))

struct seen {
	struct task_struct tag("kptr") *task;
	struct only_declared tag("kptr") *other;
	struct cgroup tag("rcu") *group;
};

struct seen last;
static struct net *(*const net_of)(struct sk_buff *skb) = (void *)1;

__attribute__((section("tc"), used)) int count(struct __sk_buff *context)
{
	struct sk_buff *skb = (void *)context;
	struct sock *sk = skb->sk;

	return last.task && sk && sk->sk_socket && net_of(skb)->ns.inum + skb->dev->ifindex;
}

char _license[] __attribute__((section("license"), used)) = "GPL";
