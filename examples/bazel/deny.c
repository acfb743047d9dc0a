__attribute__((section("xdp"), used)) int deny(void *context)
{
	return 1; /* XDP_DROP */
}
