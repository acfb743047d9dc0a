/* One program without maps, in .text, as a socket filter was once written. */
typedef unsigned int u32;

struct packet {
	u32 length, type, queue;
};

__attribute__((section("socket1"), used)) int drop_long(struct packet *packet)
{
	return packet->length > 1500 ? 0 : packet->length;
}

int in_text(struct packet *packet)
{
	return packet->type;
}

char _license[] __attribute__((section("license"), used)) = "MIT";
