/* Counts packets by the low byte of their protocol, and keeps the length of the longest. */
typedef unsigned int u32;
typedef unsigned long long u64;

struct packet {
	u32 length;
	u32 protocol;
};

u64 counts[256];
u32 longest;

__attribute__((section("socket"), used)) int count_packet(const volatile struct packet *packet)
{
	u32 length = packet->length;

	__sync_fetch_and_add(&counts[packet->protocol % 251], 1);
	if (length > longest)
		longest = length;
	return length / 3;
}
