/* Two programs in one section, which only their symbols tell apart. */
__attribute__((section("xdp"), used)) int allow(void *context)
{
	return 2;
}

__attribute__((section("xdp"), used)) int deny(void *context)
{
	return 1;
}

char _license[] __attribute__((section("license"), used)) = "GPL";
