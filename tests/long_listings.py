"""Inputs whose listing is written in pieces: instructions, and BTF types with many names and with long ones.

A piece is the fewest lines, or chunks of a long name, that make 8,192 bytes or more. A chunk of a name is 2,048 of its bytes.
"""

from tests.samples import EXIT, btf

NEG = bytes.fromhex("87 0a 00 00 00 00 00 00")
TYPEDEF, PTR, CONST = 0x0800_0000, 0x0200_0000, 0x0A00_0000


def exits(count):
    """`count` instructions `exit`, and their listing."""
    return EXIT * count, b"exit\n" * count


def negations_and_exits():
    """The first piece is 1,024 lines of 8 bytes; the second has 8,195 bytes and needs a larger buffer."""
    return NEG * 1_024 + EXIT * 1_639, b"neg r10\n" * 1_024 + b"exit\n" * 1_639


def nameless(consts, count):
    """`count` types without names, and their listing: first CONSTs of void, then PTRs to void."""
    infos = [CONST] * consts + [PTR] * (count - consts)
    words = [word for info in infos for word in (0, info, 0)]
    kinds = {CONST: b"const", PTR: b"ptr"}
    text = b"".join(b"[%d] %s type=0\n" % (number, kinds[info]) for number, info in enumerate(infos, 1))
    return btf("little", words, b"\0"), text


def typedefs(names, strings, shown):
    """A TYPEDEF of void for each offset of a name, and their listing with these names."""
    words = [word for name in names for word in (name, TYPEDEF, 0)]
    text = b"".join(b'[%d] typedef "%s" type=0\n' % (number, name) for number, name in enumerate(shown, 1))
    return btf("little", words, strings), text


def controls(count):
    """A name of `count` control characters; each is shown by four."""
    return typedefs([1], b"\0" + b"\x01" * count + b"\0", [b"\\x01" * count])


def letters_and_controls():
    """The first piece is what precedes the name and four chunks of letters, 8,205 bytes; the second needs a larger buffer."""
    return typedefs([1], b"\0" + b"n" * 14_336 + b"\x01" * 2_048 + b"\0", [b"n" * 14_336 + b"\\x01" * 2_048])
