"""Compares docs/FORMATS.md and docs/FAULTS.md with the vectors and with the built command, by what the pages themselves say.

insn_reference.py and btf_reference.py check bytes by the tables of the pages. Here they check each vector, and each instruction of the
vectors again with one of its fields changed, which is passed to the command too.
"""

from tests.command import Ran
from tests.reference import btf_reference, insn_reference
from tests.vector_rows import data, rows, text

# What a field of an instruction is changed to.
REGISTERS = [*range(8), 10, 11, 15]
OFFSETS = [0, 1, -1, 8, 16, 32]
IMMEDIATES = [0, 1, -1, 16, 32, 64, 0x40, 0xE0, 0xE1, 0xF0, 0xF1, 0x1_0000]


# ---- instructions


def test_insns():
    for line, little, big, group in rows("insn"):
        for order, code in ("little", data(little)), ("big", data(big)):
            read, fault = insn_reference.decoded(code, order)
            said = (insn_reference.line_of(*read), insn_reference.group_of(read[0])) if read else fault
            assert said == (line, group), f"{line} in {order}-endian order: the page says {said}"
        other = insn_reference.bytes_of(read[1], read[0].is_wide, "little") if read else None
        assert other == data(little), f"{line}, turned: the page says {other}"
    for name, little, big, pos, cause in rows("insn-fault"):
        for order, code in ("little", data(little)), ("big", data(big)):
            fault = insn_reference.decoded(code, order)[1]
            assert fault == (int(pos), cause), f"{name} in {order}-endian order: the page says {fault}"
    mnemonics = {insn_reference.mnemonic_of(form) for form in insn_reference.forms()}
    named = {mnemonic: name for mnemonic, (name, _) in insn_reference.templates().items()}
    assert mnemonics == set(named), f"the mnemonics: these differ: {sorted(mnemonics ^ set(named))}"
    for form in insn_reference.forms():
        mnemonic = insn_reference.mnemonic_of(form)
        name = named.get(mnemonic, "")
        assert form.name in name.split(", "), f"{mnemonic}: it is in the row {name}, and not {form.name}"


def changed_insns():
    """Each instruction of the vectors, and that with one field changed."""
    found = {}
    for _, little, _, _ in rows("insn"):
        form, insn = insn_reference.decoded(data(little), "little")[0]
        changes = [("opcode", insn.opcode ^ 1 << bit) for bit in range(8)]
        changes += [(field, value) for field in ("dst", "src") for value in REGISTERS]
        changes += [("offset", value) for value in OFFSETS] + [("imm", value) for value in IMMEDIATES]
        changes += [(field, value) for field in ("reserved", "next_imm") for value in (0, 1, -1) if form.is_wide]
        for field, value in changes:
            code = insn_reference.bytes_of(insn._replace(**{field: value}), form.is_wide, "little")
            found.setdefault(code)
    return list(found)


def test_changed_insns(program):
    accepted, shown = [], []
    for code in changed_insns():
        read, fault = insn_reference.decoded(code, "little")
        # a changed wide load may be two instructions: the page is asked about the first
        if read and read[0].is_wide == (len(code) == 16):
            accepted.append(code)
            shown.append(insn_reference.line_of(*read) + "\n")
        elif fault:
            right = Ran(1, b"", f"fault {fault[0]} {fault[1]}\n".encode())
            assert program.run("insn-groups", code) == right, code.hex()
    ran = program.run("insn-show", b"".join(accepted))
    lines = ran.output.decode().splitlines(keepends=True)
    assert ran.status == 0 and len(lines) == len(shown), f"insn-show: it gave {ran}"
    for code, got, right in zip(accepted, lines, shown):
        assert got == right, f"{code.hex()}: it is shown as {got!r}, and the page says {right!r}"


def test_groups(program):
    """Each form by itself, to see the groups that its group includes."""
    included = insn_reference.included()
    for _, little, _, _ in rows("insn"):
        form, _ = insn_reference.decoded(data(little), "little")[0]
        right = sorted(included[insn_reference.group_of(form)])
        ran = program.run("insn-groups", data(little))
        assert sorted(ran.output.decode().split()) == right, f"{little}: it needs {ran.output}, and the page says {right}"


# ---- BTF


def test_btf():
    for name, file, little, big, count, shown in rows("btf"):
        for given in {*map(data, (file, little, big))}:
            fault = btf_reference.first_fault(given)
            said = fault or (btf_reference.canonical(given), btf_reference.canonical(given, ">"))
            assert said == (data(little), data(big)), f"{name}: the page says {said}"
            lines = None if fault else btf_reference.lines(given)
            assert lines == text(shown), f"{name}, its text: the page says {lines}"
            types = None if fault else btf_reference.count(given)
            assert types == int(count), f"{name}, its types: the page says {types}"
    for name, little, big, pos, cause in rows("btf-fault"):
        for given in data(little), data(big):
            fault = btf_reference.first_fault(given)
            assert fault == (int(pos), cause), f"{name}: the page says {fault}"
