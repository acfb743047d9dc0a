/*
 * An object file, laid out as docs/OBJECTS.md says that a canonical one is: a function, a type, and nothing else. Sections are aligned to
 * 8 bytes, and what is kept of the contents is in the sequence of the page. Written by hand for little-endian machines.
 */
#ifndef OBJECT_FILE_H
#define OBJECT_FILE_H

#include <elf.h>
#include <stddef.h>
#include <stdint.h>

struct object_file {
	Elf64_Ehdr head;
	uint8_t code[16];
	uint8_t types[48]; /* an INT, in 45 bytes */
	Elf64_Sym symbols[2];
	char names[32]; /* in 31 bytes */
	Elf64_Shdr rows[5];
};

/* EM_BPF, which an old elf.h lacks */
#define MACHINE 247

static const struct object_file OBJECT = {
	.head = {
		.e_ident = { 0x7f, 'E', 'L', 'F', ELFCLASS64, ELFDATA2LSB, EV_CURRENT }, .e_type = ET_REL, .e_machine = MACHINE,
		.e_version = EV_CURRENT, .e_shoff = offsetof(struct object_file, rows), .e_ehsize = 64, .e_shentsize = 64, .e_shnum = 5,
		.e_shstrndx = 4,
	},
	.code = "\xb7\0\0\0\2\0\0\0\x95\0\0\0\0\0\0", /* mov r0, 2; exit */
	.types = "\x9f\xeb\1\0\x18\0\0\0\0\0\0\0\x10\0\0\0\x10\0\0\0\5\0\0\0" "\1\0\0\0\0\0\0\1\4\0\0\0 \0\0\1" "\0int",
	.symbols = { { 0 }, { .st_name = 26, .st_info = ELF64_ST_INFO(STB_GLOBAL, STT_FUNC), .st_shndx = 1, .st_size = 16 } },
	.names = "\0xdp\0.BTF\0.symtab\0.strtab\0pass",
	.rows = {
		{ 0 },
		{ .sh_name = 1, .sh_type = SHT_PROGBITS, .sh_flags = SHF_ALLOC | SHF_EXECINSTR, .sh_addralign = 8,
		  .sh_offset = offsetof(struct object_file, code), .sh_size = 16 },
		{ .sh_name = 5, .sh_type = SHT_PROGBITS, .sh_addralign = 4, .sh_offset = offsetof(struct object_file, types), .sh_size = 45 },
		{ .sh_name = 10, .sh_type = SHT_SYMTAB, .sh_link = 4, .sh_info = 1, .sh_addralign = 8, .sh_entsize = 24,
		  .sh_offset = offsetof(struct object_file, symbols), .sh_size = 48 },
		{ .sh_name = 18, .sh_type = SHT_STRTAB, .sh_addralign = 1, .sh_offset = offsetof(struct object_file, names), .sh_size = 31 },
	},
};

_Static_assert(sizeof OBJECT == 528, "nothing is between the parts");

#endif
