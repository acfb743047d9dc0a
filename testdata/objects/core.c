/* CO-RE relocations of fields, types and enumerations, in two sections, and a map. */
typedef unsigned int u32;
typedef unsigned long long u64;
#define relocated __attribute__((preserve_access_index))

enum state { IDLE, BUSY = 5 };

struct link {
	struct link *next;
} relocated;

struct task {
	u32 pid;
	u32 flags : 5, is_kernel : 3;
	struct task *parent;
	struct link links[2];
	enum state state;
} relocated;

struct {
	u32 (*type)[1]; /* BPF_MAP_TYPE_HASH */
	u32 *key;
	u64 *value;
	u32 (*max_entries)[16];
} counts __attribute__((section(".maps"), used));

static void *(*const lookup)(void *map, const void *key) = (void *)1;

__attribute__((section("raw_tp"), used)) int entered(struct task **arguments)
{
	struct task *task = arguments[0];
	u32 pid = task->parent->pid;
	u64 *count = lookup(&counts, &pid);

	if (count)
		*count += __builtin_preserve_enum_value(*(enum state *)BUSY, 1);
	return task->links[1].next == 0;
}

__attribute__((section("fentry"), used)) int left(struct task **arguments)
{
	u32 bits = __builtin_preserve_field_info(arguments[1]->is_kernel, 5);

	return bits + __builtin_preserve_type_info(*(struct task *)0, 1) + (arguments[1]->state == BUSY);
}

char _license[] __attribute__((section("license"), used)) = "GPL";
