/* CO-RE accesses to fields, types and enumerations. */
#include <linux/bpf.h>

#include <bpf/bpf_core_read.h>
#include <bpf/bpf_helpers.h>

enum scope { SCOPE_NONE, SCOPE_HOST = 1, SCOPE_WORLD };

struct list_head {
	struct list_head *next, *prev;
} __attribute__((preserve_access_index));

struct task_struct {
	int pid;
	int tgid;
	struct task_struct *parent;
	struct list_head tasks;
	char comm[16];
	unsigned flags : 5, in_use : 3;
	enum scope scope;
} __attribute__((preserve_access_index));

struct task_struct___old {
	long missing;
} __attribute__((preserve_access_index));

int pid, level;

SEC("tp_btf/sched_switch")
int switched(unsigned long long *arguments)
{
	struct task_struct *task = (void *)arguments[1];

	pid = task->parent->tgid;
	if (bpf_core_field_exists(((struct task_struct___old *)task)->missing))
		pid = BPF_CORE_READ((struct task_struct___old *)task, missing);
	return bpf_core_type_size(struct task_struct) + bpf_core_field_offset(task->comm);
}

SEC("fentry/bpf_fentry_test1")
int entered(unsigned long long *arguments)
{
	struct task_struct *task = (void *)bpf_get_current_task();

	level = BPF_CORE_READ_BITFIELD_PROBED(task, in_use);
	if (bpf_core_enum_value_exists(enum scope, SCOPE_HOST))
		level += bpf_core_enum_value(enum scope, SCOPE_HOST);
	return bpf_core_type_exists(struct list_head) ? BPF_CORE_READ(task, tasks.next, prev) != 0 : 0;
}

SEC("kprobe/schedule")
int probed(void *context)
{
	char name[16];
	struct task_struct *task = (void *)bpf_get_current_task();

	BPF_CORE_READ_STR_INTO(&name, task, comm);
	return name[0];
}

char _license[] SEC("license") = "GPL";
