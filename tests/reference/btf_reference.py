"""A reference for BTF, written from docs/FORMATS.md and docs/FAULTS.md: the first fault of a file, its canonical bytes and its listing.

The kinds and causes are those of the pages themselves (btf_tables.py). All faults are listed, and the first one is returned. Nothing is
done early or fast here.
"""

import re
import struct
from typing import NamedTuple

from tests.reference import btf_tables as page
from tests.reference.btf_tables import LAYOUTS, NUMBERS

# The sort of a field of the page's layouts, for checks of all fields of one sort.
SORTS = {"name_off": "name", "index_type": "type"}


def fault_at(cause, record=None, **known):
    """A fault at the offset of the page: a number, an offset from the record, or one that is known by the page's phrase."""
    pos = page.offset_of(cause)
    if isinstance(pos, dict):
        pos = record.pos + pos[None if None in pos else record.layout.word]
    elif isinstance(pos, str):
        pos = known[re.sub(r"\W+", "_", pos)]
    return pos, cause


class Sections(NamedTuple):
    """The two sections of a file with their offsets, and its byte order as `struct` writes it."""

    mark: str
    types_pos: int
    types: bytes
    strings_pos: int
    strings: bytes


class Record:
    """The 32-bit fields of a record, and its offset in the file. If it is cut, only the first fields."""

    def __init__(self, pos, words):
        self.pos, self.words = pos, words
        info = words[1] if len(words) > 1 else 0
        self.kind, self.flag, self.vlen = (bits.of(info) for bits in (page.KIND_BITS, page.FLAG_BIT, page.VLEN_BITS))
        self.layout = LAYOUTS.get(self.kind)

    def pos_of(self, word):
        return self.pos + 4 * word

    def items(self):
        """The index of the first field of each item."""
        first, size = 3 + len(self.layout.words), len(self.layout.item)
        return range(first, first + size * self.vlen, size) if size else ()

    def fields(self):
        """The index of each field after the info, and its sort."""
        yield 2, self.layout.third
        yield from ((at, SORTS.get(name, name)) for at, name in enumerate(self.layout.words, 3))
        for first in self.items():
            yield from ((at, SORTS.get(name, name)) for at, name in enumerate(self.layout.item, first))

    def names(self):
        """The indices of the fields that are names, the record's own first."""
        return [0] + [word for word, field in self.fields() if field == "name"]

    def of_item(self, item, name):
        """The index of a field of an item, by its name."""
        return item + self.layout.item.index(name)

    def width(self, item):
        return self.words[self.of_item(item, "offset")] >> page.OFFSET_BITS if self.flag else 0

    def bit_offset(self, item):
        word = self.words[self.of_item(item, "offset")]
        return word & (1 << page.OFFSET_BITS) - 1 if self.flag else word

    def has_members(self):
        return self.layout.word in ("STRUCT", "UNION")

    def has_bit_fields(self):
        return self.has_members() and any(self.width(item) for item in self.items())


def header_of(file):
    """The fields of a header by their names. The magic states the byte order."""
    order = {"<": "little", ">": "big"}[page.MARKS[file[page.BYTES["magic"]]]]
    return {name: int.from_bytes(file[where], order) for name, where in page.BYTES.items()}


def sections_of(file):
    """The sections of a file with a valid header."""
    header = header_of(file)
    types_pos, strings_pos = header["hdr_len"] + header["type_off"], header["hdr_len"] + header["str_off"]
    types, strings = file[types_pos : types_pos + header["type_len"]], file[strings_pos : strings_pos + header["str_len"]]
    return Sections(page.MARKS[file[page.BYTES["magic"]]], types_pos, types, strings_pos, strings)


def first_by_cause(faults):
    return min((fault for fault in faults if fault), key=lambda fault: NUMBERS[fault[1]], default=None)


def first_by_offset(faults):
    return min(faults, key=lambda fault: (fault[0], NUMBERS[fault[1]]), default=None)


def header_fault(file):
    if len(file) < page.SHORTEST:
        return fault_at("ShortHeader", the_file_s_length=len(file))
    if file[page.BYTES["magic"]] not in page.MARKS:
        return fault_at("Magic")
    header = header_of(file)
    length, types, strings = header["hdr_len"], header["type_len"], header["str_len"]
    end = length + types + strings
    tail = next((pos for pos in range(page.SHORTEST, min(length, len(file))) if file[pos]), None)
    types_first = (header["type_off"], header["str_off"]) == (0, types)
    strings_first = (header["str_off"], header["type_off"]) == (0, strings)
    return first_by_cause([
        header["version"] != page.VERSION and fault_at("Version"),
        header["flags"] != page.FLAGS and fault_at("Flags"),
        not page.SHORTEST <= length <= min(page.LONGEST, len(file)) and fault_at("HeaderLength"),
        tail is not None and fault_at("HeaderTail", the_first_such_byte=tail),
        types > page.TYPES and fault_at("TypeLength"),
        not page.STRINGS[0] <= strings <= page.STRINGS[1] and fault_at("StringLength"),
        not (types_first or strings_first) and fault_at("Sections"),
        end != len(file) and fault_at("FileLength", the_smaller_of_both=min(end, len(file))),
    ])


def strings_fault(sections):
    pos, strings = sections.strings_pos, sections.strings
    return first_by_cause([
        strings[0] != 0 and fault_at("FirstString", that_byte=pos),
        strings[-1] != 0 and fault_at("LastString", that_byte=pos + len(strings) - 1),
    ])


def framing_faults(record, left):
    """The faults of a record's frame, with `left` bytes from its start to the end of the section."""
    if left < 12:
        yield fault_at("RecordCut", record)
    if len(record.words) < 2:
        return
    if record.words[1] & page.UNUSED:
        yield fault_at("InfoBits", record)
    if record.kind not in LAYOUTS:
        yield fault_at("KindNumber", record)
        return
    if record.flag and not record.layout.has_flag:
        yield fault_at("FlagSet", record)
    if record.vlen and not record.layout.item and record.layout.word != "FUNC":
        yield fault_at("Vlen", record)
    if 12 <= left < 4 * record.layout.size(record.vlen):
        yield fault_at("TailCut", record)


def framed(sections):
    """The records up to the first whose frame has a fault, and that fault."""
    records, at = [], 0
    while at < len(sections.types):
        left = len(sections.types) - at
        head = Record(sections.types_pos + at, struct.unpack_from(f"{sections.mark}{min(left // 4, 3)}I", sections.types, at))
        fault = first_by_offset(framing_faults(head, left))
        if fault:
            return records, fault
        size = head.layout.size(head.vlen)
        records.append(Record(head.pos, struct.unpack_from(f"{sections.mark}{size}I", sections.types, at)))
        at += 4 * size
    return records, None


def string_at(strings, offset):
    return strings[offset : strings.index(b"\0", offset)]


def is_utf8(text):
    try:
        text.decode()
    except UnicodeDecodeError:
        return False
    return True


def name_faults(record, word, strings):
    offset, pos = record.words[word], record.pos_of(word)
    if offset >= len(strings):
        yield fault_at("NameRange", the_name_field=pos)
        return
    text = string_at(strings, offset)
    if not is_utf8(text):
        yield fault_at("NameUtf8", the_name_field=pos)
    if word == 0 and record.layout.name == "needed" and not text:
        yield fault_at("NameMissing", the_name_field=pos)
    if word == 0 and record.layout.name == "none" and text:
        yield fault_at("NameUnwanted", the_name_field=pos)


def target_of(records, number):
    return records[number - 1] if 1 <= number <= len(records) else None


def type_faults(record, word, records):
    number, wanted = record.words[word], page.TARGETS.get(record.layout.word)
    target = target_of(records, number)
    if number > len(records):
        yield fault_at("Reference", the_ID_field=record.pos_of(word))
    elif wanted and (target is None or target.layout.word not in wanted):
        yield fault_at("TargetKind", the_ID_field=record.pos_of(word))


def int_is_wrong(record):
    word, most = record.words[3], min(page.INT_MOST, page.INT_TIMES * record.words[2])
    return word & page.INT_UNUSED or page.ENCODING_BITS.of(word) not in page.ENCODINGS or page.SIZE_IN_INT.of(word) > most


def component_is_wrong(record, records):
    target, component = target_of(records, record.words[2]), record.words[3]
    if target is None or component == page.NO_COMPONENT:
        return False
    if target.layout.word == "FUNC":
        target = target_of(records, target.words[2])
        return target is not None and target.layout.word == "FUNC_PROTO" and component >= target.vlen
    return target.layout.word in page.WITHOUT_PARTS or target.layout.word in page.WITH_PARTS and component >= target.vlen


def head_faults(record, records):
    word, size = record.layout.word, record.words[2]
    if record.layout.third == "0" and size:
        yield fault_at("NotZero", record)
    if word in page.SIZES and size not in page.SIZES[word] and not (size == 0 and record.layout.item and not record.vlen):
        yield fault_at("Size", record)
    if word == "INT" and int_is_wrong(record):
        yield fault_at("IntWord", record)
    if word == "FUNC" and record.vlen >= len(page.LINKAGES):
        yield fault_at("Linkage", record)
    if word == "VAR" and record.words[3] >= len(page.LINKAGES):
        yield fault_at("Linkage", record)
    if word == "DECL_TAG" and component_is_wrong(record, records):
        yield fault_at("Component", record)


def is_odd_int(target):
    if target is None or target.layout.word != "INT":
        return False
    return page.OFFSET_IN_INT.of(target.words[3]) or page.SIZE_IN_INT.of(target.words[3]) not in page.MEMBER_BITS


def member_faults(record, records):
    has_bit_fields = record.has_bit_fields()
    for item in record.items():
        typed, offset = record.of_item(item, "type"), record.of_item(item, "offset")
        if has_bit_fields and is_odd_int(target_of(records, record.words[typed])):
            yield fault_at("MemberInt", the_member_s_type_field=record.pos_of(typed))
        if record.bit_offset(item) + record.width(item) > 8 * record.words[2]:
            yield fault_at("MemberPlace", the_member_s_offset_field=record.pos_of(offset))


def field_faults(sections, records):
    for record in records:
        for word in record.names():
            yield from name_faults(record, word, sections.strings)
        for word, field in record.fields():
            if field == "type":
                yield from type_faults(record, word, records)
        yield from head_faults(record, records)
        if record.has_members():
            yield from member_faults(record, records)


def first_fault(file):
    """The offset of a file's first fault and the name of its cause, or None."""
    fault = header_fault(file)
    if fault:
        return fault
    sections = sections_of(file)
    fault = strings_fault(sections)
    if fault:
        return fault
    records, fault = framed(sections)
    return fault or first_by_offset(field_faults(sections, records))


# ---- canonical bytes


def string_table(names):
    """The string table of names in the order of their first use, and the offset of each."""
    used = list(dict.fromkeys(name for name in names if name))
    hosts = [name for name in used if not any(other != name and other.endswith(name) for other in used)]
    table, offsets = b"\0", {b"": 0}
    for host in hosts:
        offsets[host] = len(table)
        table += host + b"\0"
    for name in used:
        if name not in offsets:
            host = min((host for host in hosts if host.endswith(name)), key=lambda host: host[::-1])
            offsets[name] = offsets[host] + len(host) - len(name)
    return table, offsets


def canonical_words(record, strings, offsets):
    words = list(record.words)
    for word in record.names():
        words[word] = offsets[string_at(strings, words[word])]
    if record.has_members():
        flag = record.has_bit_fields()
        words[1] = words[1] & ~page.FLAG_BIT.mask | flag << page.FLAG_BIT.low
        for item in record.items():
            words[record.of_item(item, "offset")] = record.width(item) << page.OFFSET_BITS | record.bit_offset(item)
    return words


def canonical(file, mark="<"):
    """The canonical bytes of a valid file, in a byte order as `struct` writes it."""
    sections = sections_of(file)
    records, _ = framed(sections)
    names = [string_at(sections.strings, record.words[word]) for record in records for word in record.names()]
    table, offsets = string_table(names)
    words = [word for record in records for word in canonical_words(record, sections.strings, offsets)]
    size = 4 * len(words)
    start = page.MAGIC, page.VERSION, page.FLAGS, page.SHORTEST
    header = struct.pack(f"{mark}HBBIIIII", *start, 0, size, size, len(table))
    return header + struct.pack(f"{mark}{len(words)}I", *words) + table


# ---- type listings


def quoted(name):
    """A name in double quotes, with the escapes of the page."""
    marks = {0x22: b'\\"', 0x5C: b"\\\\"} | {byte: b"\\x%02x" % byte for byte in [*range(0x20), 0x7F]}
    return b'"' + b"".join(marks.get(byte, bytes([byte])) for byte in name) + b'"'


def value_of(record, item):
    """The value of an enum's item, from the fields that the page names, the low one first."""
    indices = [at for at, name in enumerate(record.layout.item) if name.startswith("val")]
    names = [record.layout.item[at] for at in indices]
    low_first = sorted(indices, key=lambda at: names[at - indices[0]] == "val_hi32")
    value = sum(record.words[item + at] << 32 * number for number, at in enumerate(low_first))
    width = page.WIDTHS[record.layout.word]
    return value - (1 << width) if record.flag and value >> width - 1 else value


def words_of_item(record, item, strings):
    """The values in the line of an item, by the names of the page."""
    known = {name: record.words[item + at] for at, name in enumerate(record.layout.item)}
    if record.has_members():
        known |= {"offset": record.bit_offset(item), "width": record.width(item)}
    if record.layout.word in page.WIDTHS:
        known["V"] = value_of(record, item)
    return known | {"NAME": quoted(string_at(strings, known["name_off"])) if "name_off" in known else None}


def words_of_head(record, strings):
    known = dict(zip(record.layout.words, record.words[3:]))
    known = {"size": record.words[2], "type": record.words[2], "items": record.vlen, "flag": record.flag} | known
    known |= {"index": known.get("index_type"), "count": known.get("nelems"), "NAME": quoted(string_at(strings, record.words[0]))}
    if record.layout.word == "INT":
        word = record.words[3]
        known |= {"encoding": page.ENCODINGS[page.ENCODING_BITS.of(word)]}
        known |= {"offset": page.OFFSET_IN_INT.of(word), "bits": page.SIZE_IN_INT.of(word)}
    if record.layout.word in page.WIDTHS:
        known["S"] = page.SIGN[record.flag]
    if record.layout.word == "FWD":
        known["F"] = page.FORWARD[record.flag]
    if record.layout.word in ("FUNC", "VAR"):
        known["L"] = page.LINKAGES[record.vlen if record.layout.word == "FUNC" else record.words[3]]
    if "component_idx" in known:
        known["component"] = -1 if known["component_idx"] == page.NO_COMPONENT else known["component_idx"]
    return known


def line(template, known):
    """A line of the page's table, with each capital replaced by its value; after `=` it is that of the key."""
    parts = []
    for part in template.split(" "):
        key, _, value = part.partition("=")
        filled = known[key] if value else known[part] if part.isupper() else part
        text = filled if isinstance(filled, bytes) else str(filled).encode()
        parts.append(key.encode() + b"=" + text if value else text)
    return b" ".join(parts)


def lines(file):
    """The type listing of a valid file."""
    sections = sections_of(file)
    text = []
    for number, record in enumerate(framed(sections)[0], 1):
        head, item = page.LINES[record.layout.word]
        text.append(b"[%d] " % number + line(head.removeprefix("[ID] "), words_of_head(record, sections.strings)))
        text += [b"  " + line(item, words_of_item(record, at, sections.strings)) for at in record.items()]
    return b"".join(it + b"\n" for it in text)


def count(file):
    """The number of types of a valid file."""
    return len(framed(sections_of(file))[0])
