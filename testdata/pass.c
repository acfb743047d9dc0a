/* An XDP program that passes every packet. */
struct xdp_md;

__attribute__((section("xdp"), used)) int pass(struct xdp_md *context)
{
	return 2; /* XDP_PASS */
}
