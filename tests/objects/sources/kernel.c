/* The types of the kernel that the objects of the other files are relocated against. */

typedef unsigned char u8;
typedef unsigned int u32;
typedef unsigned long long u64;

struct list_head {
	struct list_head *next, *prev;
};

enum scope { SCOPE_NONE, SCOPE_HOST = 4, SCOPE_WORLD };

struct task_struct {
	u64 state;
	struct list_head tasks;
	int tgid;
	int pid;
	struct task_struct *parent;
	char comm[16];
	u32 flags : 5, in_use : 3;
	enum scope scope;
};

struct sock {
	u64 state;
	u32 rate;
};

struct module;

struct tcp_congestion_ops {
	struct list_head list;
	u32 key;
	u32 flags;
	void (*init)(struct sock *sk);
	void (*release)(struct sock *sk);
	u32 (*ssthresh)(struct sock *sk);
	void (*cong_avoid)(struct sock *sk, u32 ack, u32 acked);
	u32 (*undo_cwnd)(struct sock *sk);
	char name[16];
	struct module *owner;
};

struct bpf_struct_ops_tcp_congestion_ops {
	u32 refcnt;
	u32 state;
	struct tcp_congestion_ops data;
};

typedef void (*btf_trace_sched_switch)(void *data, int preempt, struct task_struct *from, struct task_struct *to);

struct task_struct init_task;
int bpf_prog_active;
struct bpf_struct_ops_tcp_congestion_ops operations;
btf_trace_sched_switch trace;

int bpf_fentry_test1(int a)
{
	return a;
}

int bpf_fentry_test2(int a, u64 b)
{
	return a + (int)b;
}

int bpf_lsm_file_open(void *file)
{
	return !!file;
}

u64 bpf_kfunc_call_test(struct sock *sk, u32 a, u64 b)
{
	return sk->state + a + b;
}
