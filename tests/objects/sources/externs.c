/* Options, variables and functions of the kernel. */
#include <linux/bpf.h>
#include <stdbool.h>

#include <bpf/bpf_helpers.h>

struct sock {
	__u64 state;
	__u32 rate;
};

extern int LINUX_KERNEL_VERSION __kconfig;
extern unsigned CONFIG_HZ __kconfig;
extern bool CONFIG_BPF_SYSCALL __kconfig __weak;
extern enum libbpf_tristate CONFIG_MODULE_SIG __kconfig __weak;
extern char CONFIG_DEFAULT_HOSTNAME[8] __kconfig __weak;
extern int CONFIG_MISSING __kconfig __weak;
extern const void schedule __ksym;
extern const int bpf_prog_active __ksym;
extern const void no_such_symbol __ksym __weak;
extern __u64 bpf_kfunc_call_test(struct sock *sk, __u32 a, __u64 b) __ksym;

__u64 address;

SEC("raw_tp/sys_enter")
int options(void *context)
{
	if (LINUX_KERNEL_VERSION < 0x50000 || !CONFIG_BPF_SYSCALL)
		return CONFIG_HZ + CONFIG_MISSING;
	return CONFIG_MODULE_SIG == TRI_MODULE ? CONFIG_DEFAULT_HOSTNAME[0] : 0;
}

SEC("raw_tp/sys_exit")
int variables(void *context)
{
	address = (__u64)&schedule;
	if (&no_such_symbol)
		address++;
	return *(int *)bpf_this_cpu_ptr(&bpf_prog_active);
}

SEC("tc")
int functions(struct __sk_buff *packet)
{
	return bpf_kfunc_call_test((void *)0, packet->len, 2);
}

char _license[] SEC("license") = "GPL";
