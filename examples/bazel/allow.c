__attribute__((section("xdp"), used)) int allow(void *context)
{
	return 2; /* XDP_PASS */
}
