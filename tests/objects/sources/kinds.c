/* Programs of the usual kinds. The macro that is defined chooses one: -DTIMER compiles the one with a timer. */
#define __TARGET_ARCH_x86 /* for the registers of probes */
#include <linux/bpf.h>
#include <linux/ptrace.h>

#include <bpf/bpf_endian.h>
#include <bpf/bpf_helpers.h>
#include <bpf/bpf_tracing.h>

/* A map of a type, with its other fields; one with a number of keys and values; and storage of objects of the kernel. */
#define MAP(name, kind, ...) struct { __uint(type, BPF_MAP_TYPE_##kind); __VA_ARGS__; } name SEC(".maps")
#define TABLE(name, kind, count, k, v) MAP(name, kind, __uint(max_entries, count); __type(key, k); __type(value, v))
#define STORAGE(name, kind) MAP(name, kind, __uint(map_flags, BPF_F_NO_PREALLOC); __type(key, int); __type(value, __u64))

struct bpf_map;
struct task_struct;

char _license[] SEC("license") = "GPL";

#if defined(ALIAS) /* One function with two names. */
SEC("tc") int first(struct __sk_buff *packet) { return packet->len > 100; }
int second(struct __sk_buff *packet) __attribute__((alias("first")));
#elif defined(ANNOTATED) /* Tags of a function, its parameter, a member and a pointer. */
#define tag(text) __attribute__((btf_decl_tag(text)))
struct node { struct node __attribute__((btf_type_tag("owned"))) *next; int value tag("guarded"); };
__noinline tag("exported") int value_of(struct node *node tag("nullable")) { return node ? node->value : 0; }
SEC("syscall") int annotated(struct node *node) { return value_of(node); }
#elif defined(ATOMICS) /* Atomic operations with and without the former value, which need -mcpu=v3. */
__u64 count, owner;
SEC("raw_tp/sys_enter") int atomic(void *context)
{
	__u64 former = __sync_fetch_and_add(&count, 1);

	__sync_fetch_and_or(&count, 4);
	__sync_fetch_and_xor(&count, former);
	return __sync_val_compare_and_swap(&owner, 0, former) + __sync_lock_test_and_set(&count, 0);
}
#elif defined(CGROUP) /* Hooks of a control group, and its storage. */
MAP(bytes, CGROUP_STORAGE, __type(key, struct bpf_cgroup_storage_key); __type(value, __u64));
SEC("cgroup_skb/egress") int egress(struct __sk_buff *packet)
{
	__u64 *total = bpf_get_local_storage(&bytes, 0);

	__sync_fetch_and_add(total, packet->len);
	return 1;
}
SEC("cgroup/connect4") int connect(struct bpf_sock_addr *address) { return address->user_port != bpf_htons(25); }
SEC("cgroup/dev") int device(struct bpf_cgroup_dev_ctx *device) { return device->major == 1; }
#elif defined(DATA) /* A file without programs: only data, of which some is in sections of its own. */
struct limits {
	unsigned low : 5, high : 27;
	union { __u64 word; struct { __u32 first, second; }; };
	char name[];
};
struct limits limits SEC(".data.limits") = { 1, 100, { 7 } };
const volatile __int128 wide = 1;
float share SEC(".bss.share");
#elif defined(DEVICES) /* Redirection to devices and processors, each with a program of its own. */
TABLE(devices, DEVMAP, 8, int, struct bpf_devmap_val);
TABLE(processors, CPUMAP, 4, int, struct bpf_cpumap_val);
SEC("xdp") int redirect(struct xdp_md *context)
{
	int queue = context->rx_queue_index;

	return queue ? bpf_redirect_map(&devices, queue, XDP_PASS) : bpf_redirect_map(&processors, 0, 0);
}
SEC("xdp/devmap") int leaving(struct xdp_md *context) { return context->egress_ifindex == 3 ? XDP_DROP : XDP_PASS; }
SEC("xdp/cpumap") int arrived(struct xdp_md *context) { return XDP_PASS; }
#elif defined(EXTENSION) /* A replacement of a function of another program. */
SEC("freplace/choose") int choose_anew(struct xdp_md *context, int limit)
{
	return context->rx_queue_index < limit ? XDP_PASS : XDP_DROP;
}
#elif defined(FOR_EACH) /* A callback for each element of a map. */
TABLE(elements, HASH, 64, __u32, __u64);
static long add(struct bpf_map *map, __u32 *key, __u64 *value, __u64 *sum)
{
	*sum += *value;
	return 0;
}
SEC("tc") int sum_up(struct __sk_buff *packet)
{
	__u64 sum = 0;

	bpf_for_each_map_elem(&elements, add, &sum, 0);
	return sum > packet->len;
}
#elif defined(HIDDEN) /* Maps and functions that only this file sees when it is linked with others. */
TABLE(state, ARRAY, 1, int, int) __hidden;
__hidden int step = 2;
__hidden __weak int next(int value) { return value + step; }
SEC("tc") int advance(struct __sk_buff *packet)
{
	int zero = 0, *value = bpf_map_lookup_elem(&state, &zero);

	return value ? *value = next(*value) : 0;
}
#elif defined(INODES) /* Programs that may sleep, with storage of files. */
struct inode;
STORAGE(opened, INODE_STORAGE);
SEC("lsm.s/inode_unlink") int BPF_PROG(unlinked, struct inode *folder)
{
	__u64 *count = bpf_inode_storage_get(&opened, folder, 0, BPF_LOCAL_STORAGE_GET_F_CREATE);

	return count && ++*count > 3 ? -1 : 0;
}
SEC("lsm_cgroup/socket_bind") int bound(unsigned long long *context) { return 1; }
#elif defined(ITERATORS) /* Iterators over tasks and over the elements of a map. */
TABLE(numbers, HASH, 8, int, int);
struct task_struct { int pid; } __attribute__((preserve_access_index));
struct meta { struct seq_file *seq; __u64 session, number; };
struct task_context { struct meta *meta; struct task_struct *task; };
struct element_context { struct meta *meta; struct bpf_map *map; int *key, *value; };
SEC("iter/task") int each_task(struct task_context *context)
{
	if (context->task)
		BPF_SEQ_PRINTF(context->meta->seq, "%d\n", context->task->pid);
	return 0;
}
SEC("iter/bpf_map_elem") int each_element(struct element_context *context)
{
	return context->value ? bpf_seq_write(context->meta->seq, context->value, 4) : 0;
}
#elif defined(KERNEL_FUNCTIONS) /* Functions of the kernel, one of which it may lack. */
struct task_struct *bpf_task_acquire(struct task_struct *task) __ksym;
void bpf_task_release(struct task_struct *task) __ksym;
int bpf_newer(int value) __ksym __weak;
SEC("tp_btf/task_newtask") int BPF_PROG(created, struct task_struct *task, __u64 flags)
{
	struct task_struct *kept = bpf_task_acquire(task);

	bpf_task_release(kept);
	return bpf_newer ? bpf_newer(flags) : 0;
}
#elif defined(KERNEL_POINTER) /* A pointer to an object of the kernel in a map. */
struct slot { struct task_struct __kptr *task; };
TABLE(slots, ARRAY, 1, int, struct slot);
SEC("tc") int is_empty(struct __sk_buff *packet)
{
	int zero = 0;
	struct slot *slot = bpf_map_lookup_elem(&slots, &zero);

	return slot && !slot->task;
}
#elif defined(LINES) /* A message that has its place in the source. */
SEC("tc") int report(struct __sk_buff *packet) { return packet->len > 1500 && bpf_printk("%s:%d: a long packet", __FILE__, __LINE__); }
#elif defined(LITERALS) /* Strings and constants in sections of their own, which linkers may merge. */
struct rule { __u64 low, high, step, weight; };
SEC("raw_tp/sched_switch") int literal(struct rule *rule)
{
	struct rule usual = { 1, 2, 3, 4 };

	*rule = rule->low ? usual : (struct rule){ 5, 6, 7, 8 };
	return bpf_trace_printk("switched", 9) + bpf_strncmp((void *)rule, 5, "abcd");
}
#elif defined(LOCKED) /* A value with a lock, and one that is changed under it. */
struct account { struct bpf_spin_lock lock; int balance; };
TABLE(accounts, HASH, 16, __u32, struct account);
SEC("tc") int pay(struct __sk_buff *packet)
{
	__u32 key = packet->mark;
	struct account *account = bpf_map_lookup_elem(&accounts, &key);

	if (!account)
		return 0;
	bpf_spin_lock(&account->lock);
	account->balance -= packet->len;
	bpf_spin_unlock(&account->lock);
	return 1;
}
#elif defined(PERCPU) /* Values of each processor, in hash tables of both kinds. */
TABLE(hits, PERCPU_HASH, 32, __u32, __u64);
TABLE(recent, LRU_PERCPU_HASH, 32, __u32, __u64);
SEC("tc") int hit(struct __sk_buff *packet)
{
	__u32 key = packet->hash;
	__u64 one = 1, *value = bpf_map_lookup_elem(&hits, &key);

	if (value)
		++*value;
	return bpf_map_update_elem(&recent, &key, &one, BPF_ANY) + bpf_get_smp_processor_id();
}
#elif defined(PERF) /* Events and stacks that perf takes. */
MAP(events, PERF_EVENT_ARRAY, __type(key, int); __type(value, int));
MAP(stacks, STACK_TRACE, __uint(max_entries, 64); __type(key, __u32); __uint(value_size, 127 * 8));
SEC("perf_event") int sample(void *context)
{
	int stack = bpf_get_stackid(context, &stacks, BPF_F_USER_STACK);

	return bpf_perf_event_output(context, &events, BPF_F_CURRENT_CPU, &stack, sizeof stack);
}
#elif defined(PROBES) /* Functions of the kernel and of programs, by registers. */
SEC("kprobe/do_unlinkat") int BPF_KPROBE(entered, int folder) { return folder < 0; }
SEC("kretprobe/do_unlinkat") int BPF_KRETPROBE(returned, long result) { return result != 0; }
SEC("uprobe//proc/self/exe:main") int started(struct pt_regs *registers) { return 0; }
SEC("ksyscall/nanosleep") int slept(struct pt_regs *registers) { return bpf_get_current_pid_tgid() >> 32; }
#elif defined(QUEUES) /* Maps without keys. */
MAP(queue, QUEUE, __uint(max_entries, 16); __type(value, __u32));
MAP(stack, STACK, __uint(max_entries, 16); __type(value, __u32));
SEC("tc") int moved(struct __sk_buff *packet)
{
	__u32 value;

	return bpf_map_pop_elem(&queue, &value) ?: bpf_map_push_elem(&stack, &value, BPF_EXIST);
}
#elif defined(RINGBUF) /* Records that are written in place. */
struct record { __u32 pid; char name[16]; };
MAP(records, RINGBUF, __uint(max_entries, 1 << 16));
SEC("tp/sched/sched_process_exec") int executed(void *context)
{
	struct record *record = bpf_ringbuf_reserve(&records, sizeof *record, 0);

	if (!record)
		return 0;
	record->pid = bpf_get_current_pid_tgid() >> 32;
	bpf_get_current_comm(record->name, sizeof record->name);
	bpf_ringbuf_submit(record, 0);
	return 0;
}
#elif defined(ROUTES) /* The longest prefix of an address, and the lightweight tunnels that use it. */
struct prefix { __u32 length; __u8 address[4]; };
MAP(routes, LPM_TRIE, __uint(max_entries, 100); __uint(map_flags, BPF_F_NO_PREALLOC); __type(key, struct prefix); __type(value, int));
SEC("lwt_in") int route(struct __sk_buff *packet)
{
	struct prefix prefix = { 32 };
	int *hop;

	bpf_skb_load_bytes(packet, 16, prefix.address, 4);
	hop = bpf_map_lookup_elem(&routes, &prefix);
	return hop ? *hop : BPF_DROP;
}
SEC("flow_dissector") int dissect(struct __sk_buff *packet) { return packet->flow_keys ? BPF_OK : BPF_DROP; }
#elif defined(SOCKETS) /* Sockets in maps, which redirect what is written to them. */
TABLE(sockets, SOCKMAP, 8, __u32, __u64);
TABLE(workers, REUSEPORT_SOCKARRAY, 4, __u32, __u64);
SEC("sk_skb/stream_verdict") int verdict(struct __sk_buff *packet)
{
	return bpf_sk_redirect_map(packet, &sockets, packet->local_port & 7, 0);
}
SEC("sk_msg") int message(struct sk_msg_md *message) { return bpf_msg_redirect_map(message, &sockets, 0, BPF_F_INGRESS); }
SEC("sockops") int established(struct bpf_sock_ops *operation)
{
	int key = operation->local_port & 7;

	return operation->op == BPF_SOCK_OPS_ACTIVE_ESTABLISHED_CB && bpf_sock_map_update(operation, &sockets, &key, 0);
}
SEC("sk_reuseport") int choose(struct sk_reuseport_md *context)
{
	__u32 key = context->hash & 3;

	return bpf_sk_select_reuseport(context, &workers, &key, 0) ? SK_DROP : SK_PASS;
}
#elif defined(SWITCH) /* A table that the compiler makes of a switch. */
SEC("socket") int weight(struct __sk_buff *packet)
{
	switch (packet->protocol) {
	case 0: return 7;
	case 1: return 100;
	case 2: return 31;
	case 3: return 5;
	default: return 0;
	}
}
#elif defined(SYSCALL) /* A program that is run as a call of the system, and makes some itself. */
struct arguments { union bpf_attr attributes; int result; };
SEC("syscall") int called(struct arguments *arguments)
{
	static const char name[] = "made";

	__builtin_memset(&arguments->attributes, 0, sizeof arguments->attributes);
	__builtin_memcpy(arguments->attributes.map_name, name, sizeof name);
	arguments->attributes.max_entries = 4;
	arguments->result = bpf_sys_bpf(BPF_MAP_CREATE, &arguments->attributes, sizeof arguments->attributes);
	return bpf_sys_close(arguments->result);
}
#elif defined(TAIL_CALLS) /* A jump through an array of programs whose index is known to the compiler. */
MAP(next, PROG_ARRAY, __uint(max_entries, 2); __uint(key_size, 4); __uint(value_size, 4));
SEC("xdp") int begin(struct xdp_md *context)
{
	bpf_tail_call_static(context, &next, 1);
	return XDP_ABORTED;
}
#elif defined(TASKS) /* Storage of tasks, entries and exits of functions of the kernel, and changed results. */
STORAGE(begun, TASK_STORAGE);
SEC("fentry.s/__x64_sys_read") int entered(void *context)
{
	__u64 *time = bpf_task_storage_get(&begun, bpf_get_current_task_btf(), 0, BPF_LOCAL_STORAGE_GET_F_CREATE);

	return time ? !(*time = bpf_ktime_get_ns()) : 0;
}
SEC("fexit/__x64_sys_read") int left(void *context) { return bpf_task_storage_delete(&begun, bpf_get_current_task_btf()); }
SEC("fmod_ret/__x64_sys_write") int refused(void *context) { return -1; }
#elif defined(TIMER) /* A timer in a value, with its callback. */
struct job { struct bpf_timer timer; int runs; };
TABLE(jobs, ARRAY, 1, int, struct job);
static int run(void *map, int *key, struct job *job)
{
	job->runs++;
	return bpf_timer_start(&job->timer, 1000000, 0);
}
SEC("tc") int start(struct __sk_buff *packet)
{
	int zero = 0;
	struct job *job = bpf_map_lookup_elem(&jobs, &zero);

	if (!job || bpf_timer_init(&job->timer, &jobs, 1))
		return 0;
	bpf_timer_set_callback(&job->timer, run);
	return bpf_timer_start(&job->timer, 0, 0);
}
#elif defined(USER_RINGBUF) /* Records that a process writes, and a callback reads. */
MAP(commands, USER_RINGBUF, __uint(max_entries, 4096));
static long command(struct bpf_dynptr *record, int *count)
{
	++*count;
	return bpf_dynptr_data(record, 0, 4) == 0;
}
SEC("tp/syscalls/sys_enter_getpgid") int drain(void *context)
{
	int count = 0;

	bpf_user_ringbuf_drain(&commands, command, &count, 0);
	return count;
}
#endif
