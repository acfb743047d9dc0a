/* Functions in a section of their own and in .text, one of each linkage, a callback, and a function that two programs call. */
typedef unsigned int u32;
typedef long long s64;

static long (*const loop)(u32 count, void *callback, void *context, unsigned long long flags) = (void *)181;

static __attribute__((noinline)) s64 added(s64 *total, u32 value)
{
	*total += value;
	return *total;
}

__attribute__((weak)) s64 limited(s64 value)
{
	return value > 4096 ? 4096 : value;
}

__attribute__((visibility("hidden"), noinline)) s64 doubled(s64 value)
{
	return limited(value) + limited(value >> 1);
}

static long each(u32 index, void *total)
{
	added(total, index);
	return 0;
}

__attribute__((section("tc"), used)) int classify(u32 *packet)
{
	s64 total = packet[0];

	loop(packet[1], each, &total, 0);
	return doubled(total) != 0;
}

__attribute__((section("xdp"), used)) int drop(u32 *packet)
{
	s64 total = 1;

	return added(&total, packet[1]) & 1;
}

char _license[] __attribute__((section("license"), used)) = "GPL";
