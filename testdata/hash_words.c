/* Hashes up to 63 words by a function of the program. */
typedef unsigned int u32;
typedef unsigned long long u64;

static __attribute__((noinline)) u64 mixed(u64 state, u32 word)
{
	state ^= word;
	state *= 0x9e3779b97f4a7c15ULL;
	return state ^ (state >> 29);
}

__attribute__((section("socket"), used)) u64 hash_words(const u32 *words, u32 count)
{
	u64 state = 0x123456789abcdef0ULL;

	for (u32 i = 0; i < (count & 63); i++)
		state = mixed(state, words[i]);
	return state;
}
