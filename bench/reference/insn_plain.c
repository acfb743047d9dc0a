/*
 * What a C programmer would write by hand for insn-canon: read pieces of 1 MiB, check each slot (RFC 9669 sections 3 to 5) by a
 * table of opcodes, swap it if the byte orders differ, and write.
 *
 * usage: insn_plain little|big little|big < program > program
 */
#include "whole_io.h"

/* what an opcode leaves free; RULE: more has to be checked than this */
enum { DST = 1, SRC = 2, OFFSET = 4, IMM = 8, RULE = 16, KNOWN = 128 };
static uint8_t rules[256];

static void fill_rules(void)
{
	for (int code = 0; code <= 12; code++)
		for (int reg = 0; reg < 2; reg++)
			for (int class = 4; class <= 7; class += 3) {
				int opcode = code * 16 + reg * 8 + class;
				int rule = code == 3 || code == 9 || (code == 11 && reg) ? RULE : 0;

				if (code == 8)
					rules[opcode] = reg ? 0 : KNOWN | DST;
				else
					rules[opcode] = KNOWN | DST | (reg ? SRC : IMM) | rule;
			}
	rules[0xd4] = rules[0xdc] = rules[0xd7] = KNOWN | DST | RULE;
	for (int code = 1; code <= 13; code++)
		for (int reg = 0; reg < 2; reg++)
			for (int class = 5; class <= 6; class++)
				if (code != 8 && code != 9)
					rules[code * 16 + reg * 8 + class] = KNOWN | DST | OFFSET | (reg ? SRC : IMM);
	rules[0x05] = KNOWN | OFFSET;
	rules[0x06] = KNOWN | IMM;
	rules[0x85] = KNOWN | RULE;
	rules[0x95] = KNOWN;
	for (int size = 0; size < 4; size++) {
		rules[0x61 + 8 * size] = KNOWN | DST | SRC | OFFSET;
		rules[0x62 + 8 * size] = KNOWN | DST | OFFSET | IMM;
		rules[0x63 + 8 * size] = KNOWN | DST | SRC | OFFSET;
		if (size < 3) {
			rules[0x81 + 8 * size] = KNOWN | DST | SRC | OFFSET;
			rules[0x20 + 8 * size] = KNOWN | IMM;
			rules[0x40 + 8 * size] = KNOWN | SRC | IMM;
		}
	}
	rules[0xc3] = rules[0xdb] = KNOWN | DST | SRC | OFFSET | RULE;
	rules[0x18] = KNOWN | RULE;
}

static int is_atomic(uint32_t imm)
{
	uint32_t op = imm & ~1u;

	return imm == 0xe1 || imm == 0xf1 || op == 0 || op == 0x40 || op == 0x50 || op == 0xa0;
}

static int obeys_rule(uint8_t opcode, unsigned dst, unsigned src, int offset, int imm)
{
	switch (opcode) {
	case 0xd4: case 0xdc: case 0xd7:
		return dst <= 10 && !src && !offset && (imm == 16 || imm == 32 || imm == 64);
	case 0x85:
		return !dst && src <= 2 && (src == 2 || !offset);
	case 0xc3: case 0xdb:
		return dst <= 10 && src <= 10 && is_atomic(imm);
	case 0xbc:
		return dst <= 10 && src <= 10 && (offset == 0 || offset == 8 || offset == 16) && !imm;
	case 0xbf:
		return dst <= 10 && src <= 10 && (offset == 0 || offset == 8 || offset == 16 || offset == 32) && !imm;
	case 0x18:
		return dst <= 10 && src <= 6 && !offset;
	default: /* division and remainder: offset 1 is the signed form */
		return dst <= 10 && (offset == 0 || offset == 1) && (opcode & 8 ? src <= 10 && !imm : !src);
	}
}

static int is_first_slot(uint8_t opcode, unsigned dst, unsigned src, int offset, int imm)
{
	uint8_t free = rules[opcode];

	if (free & RULE)
		return obeys_rule(opcode, dst, src, offset, imm);
	return (free & KNOWN) && dst <= (free & DST ? 10u : 0u) && src <= (free & SRC ? 10u : 0u)
		&& (free & OFFSET || !offset) && (free & IMM || !imm);
}

static uint64_t swapped(uint64_t slot)
{
	uint64_t opcode = slot & 0xff, registers = slot >> 8 & 0xff;
	uint64_t offset = __builtin_bswap16(slot >> 16), imm = __builtin_bswap32(slot >> 32);

	return opcode | (registers >> 4 | (registers & 15) << 4) << 8 | offset << 16 | imm << 32;
}

#define PIECE (1 << 20)
static uint8_t piece[PIECE];

int main(int argc, char **argv)
{
	int from_big = argc > 1 && !strcmp(argv[1], "big"), to_big = argc > 2 && !strcmp(argv[2], "big");
	int second = 0;               /* the next slot is the second of a wide load */
	unsigned wide_src = 0;
	uint64_t done = 0;
	size_t held = 0;

	fill_rules();
	for (;;) {
		ssize_t n = read(0, piece + held, PIECE - held);
		size_t whole;

		if (n < 0)
			return 3;
		if (n == 0)
			break;
		whole = (held + n) & ~(size_t)7;
		for (size_t pos = 0; pos < whole; pos += 8) {
			uint64_t bytes, slot;
			int ok;

			memcpy(&bytes, piece + pos, 8);
			slot = from_big ? swapped(bytes) : bytes;
			if (second) {
				second = 0;
				ok = !(uint32_t)slot && !((wide_src == 1 || wide_src == 4 || wide_src == 5) && slot >> 32);
			} else {
				uint8_t opcode = slot;

				wide_src = slot >> 12 & 15;
				ok = is_first_slot(opcode, slot >> 8 & 15, wide_src, (int16_t)(slot >> 16), (int32_t)(slot >> 32));
				second = opcode == 0x18;
			}
			if (!ok)
				refuse("Slot", done + pos);
			if (from_big != to_big) {
				bytes = from_big ? slot : swapped(bytes);
				memcpy(piece + pos, &bytes, 8);
			}
		}
		write_whole(piece, whole);
		done += whole;
		held = held + n - whole;
		memmove(piece, piece + whole, held);
	}
	if (held || second)
		refuse("Truncated", done);
	return 0;
}
