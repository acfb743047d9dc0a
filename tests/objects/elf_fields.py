"""The fields of ELF's rows by their names in the System V ABI, with their sizes."""

HEADER = {
    "EI_MAG": 4, "EI_CLASS": 1, "EI_DATA": 1, "EI_VERSION": 1, "EI_OSABI": 1, "EI_ABIVERSION": 1, "EI_PAD": 7, "e_type": 2,
    "e_machine": 2, "e_version": 4, "e_entry": 8, "e_phoff": 8, "e_shoff": 8, "e_flags": 4, "e_ehsize": 2, "e_phentsize": 2, "e_phnum": 2,
    "e_shentsize": 2, "e_shnum": 2, "e_shstrndx": 2,
}  # fmt: skip
SECTION = {
    "sh_name": 4, "sh_type": 4, "sh_flags": 8, "sh_addr": 8, "sh_offset": 8, "sh_size": 8, "sh_link": 4, "sh_info": 4, "sh_addralign": 8,
    "sh_entsize": 8,
}  # fmt: skip
SYMBOL = {"st_name": 4, "st_info": 1, "st_other": 1, "st_shndx": 2, "st_value": 8, "st_size": 8}
RELOCATION = {"r_offset": 8, "r_info": 8}
