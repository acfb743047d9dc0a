/* Variables in each kind of section: data, constants, zeros, sections of their own, and addresses in data. */
typedef unsigned int u32;
typedef unsigned long long u64;

const volatile u32 limit = 100;
static volatile u32 seen = 7;
u64 total;
static u32 recent[64];
const char message[] = "too many";
u64 sizes[4] __attribute__((section(".data.sizes"))) = {1, 2, 4, 8};
static u64 kept __attribute__((section(".bss.kept"), used));
const char *volatile texts[2] = {message, message + 4};

__attribute__((section("socket"), used)) int filter(u32 *packet)
{
	static const u32 weights[8] = {1, 1, 2, 3, 5, 8, 13, 21};
	u32 length = packet[0];

	recent[seen++ & 63] = length;
	total += sizes[length & 3] + weights[length & 7];
	kept = total;
	return length > limit ? texts[0][0] : 0;
}

char _license[] __attribute__((section("license"), used)) = "Dual BSD/GPL";
