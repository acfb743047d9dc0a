/* Externs: a configuration value, a variable of the kernel and one that may be missing, and a function of the kernel. */
typedef unsigned int u32;

extern u32 CONFIG_HZ __attribute__((section(".kconfig")));
extern const int runqueues __attribute__((section(".ksyms")));
extern const int missing __attribute__((section(".ksyms"), weak));
extern int acquire(u32 number) __attribute__((section(".ksyms")));

__attribute__((section("syscall"), used)) int run(u32 *context)
{
	if (&missing)
		return CONFIG_HZ;
	return acquire(context[0]) + runqueues;
}

char _license[] __attribute__((section("license"), used)) = "GPL";
