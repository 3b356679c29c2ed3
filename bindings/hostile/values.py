"""What the bases of a unit are, and the texts and addresses that count from them, by the definitions of
DWARF (DWARF 5, 3.1.1 to 3.1.3 and 7.26 to 7.29; before version 5 by GNU's attributes): beside what the library
answers. A status is that of gimli.h, and a base that a unit does not have is None.
"""
from typing import NamedTuple

MORE, NO_BASE, BAD_BASE, NO_STRING, NO_ADDRESS, REFUSED = 0, 5, 6, 7, 8, 256
END_OF_INPUT, NO_ADDRESS_SIZE, NO_OFFSET, OUT_OF_BOUNDS, NO_ENTRY = (REFUSED + it for it in (1, 7, 9, 11, 12))
ADDR, SEC_OFFSET, ADDR_INDEX, STR_REF, STR_REF_SUP, STR_INDEX, LINE_STR_REF, STRING = 1, 12, 14, 28, 29, 31, 32, 33
LOW_PC, STR_OFFSETS_BASE, ADDR_BASE, RNGLISTS_BASE, LOCLISTS_BASE = 0x11, 0x72, 0x73, 0x74, 0x8c
GNU_RANGES_BASE, GNU_ADDR_BASE = 0x2132, 0x2133
MOST = 2**64 - 1

# The bases of odd_bases in hostile.c: address, addresses, rnglists, loclists, str_offsets, gnu_ranges, and whether
# each of them is missing.
ODD_BASES = [([0] * 6, [0] * 6), ([16, 8, 12, 12, 8, 1], [0] * 6), ([MOST] * 6, [0] * 6),
             ([8, 8, 12, 12, 8, 8], [255, 1, 2, 3, 4, 5])]


class Unlike(Exception):
    """A status other than MORE."""

    @property
    def status(self):
        return self.args[0]


class Encoding(NamedTuple):
    """How the bytes of a unit are read."""
    big: bool
    wide: bool
    version: int
    address_size: int

    @property
    def word(self):
        return 8 if self.wide else 4

    @property
    def table_header(self):
        """The size of the header of .debug_addr and .debug_str_offsets."""
        return 0 if self.version < 5 else 16 if self.wide else 8

    @property
    def lists_header(self):
        """That of .debug_rnglists and .debug_loclists."""
        return 0 if self.version < 5 else 20 if self.wide else 12

    @property
    def other(self):
        """The encoding of other_unit in hostile.c."""
        return Encoding(self.big, not self.wide, 65535 if self.version < 5 else 4, 3)


class Bases(NamedTuple):
    address: int | None
    addresses: int | None
    rnglists: int | None
    loclists: int | None
    str_offsets: int | None
    gnu_ranges: int | None


class Sections(NamedTuple):
    addresses: bytes
    str: bytes
    line_str: bytes
    str_offsets: bytes
    sup_str: bytes


def bases_in(encoding, numbers, missing):
    """The bases that a caller's numbers are."""
    table, lists = encoding.table_header, encoding.lists_header
    least = [0, table, lists, lists, table, 0]
    return Bases(*(None if no or number < first else number for number, no, first in zip(numbers, missing, least)))


def handed_back(encoding, bases):
    """The bases of a unit, as a caller hands them back: GNU's table of addresses may begin where a header of
    version 5 lies, and is none then.
    """
    return bases_in(encoding, [it or 0 for it in bases], [it is None for it in bases])


def bases_line(bases, dwo):
    """What hostile.c prints of bases."""
    return [MORE, *(it or 0 for it in bases), int(dwo), *(int(it is None) for it in bases)]


def number_at(encoding, section, table, index, size, sizes=(1, 2, 4, 8)):
    """The number of so many bytes at an index of a table."""
    if table > len(section):
        raise Unlike(END_OF_INPUT)
    if index * size > MOST:
        raise Unlike(NO_OFFSET)
    at = table + index * size
    if at > len(section):
        raise Unlike(END_OF_INPUT)
    if size not in sizes:
        raise Unlike(NO_ADDRESS_SIZE)
    if at + size > len(section):
        raise Unlike(END_OF_INPUT)
    return int.from_bytes(section[at:at + size], "big" if encoding.big else "little")


def address_of(encoding, addresses, table, attribute):
    _, _, kind, number, _ = attribute
    if kind == ADDR:
        return number
    if kind != ADDR_INDEX:
        raise Unlike(NO_ADDRESS)
    if table is None:
        raise Unlike(NO_BASE)
    return number_at(encoding, addresses, table, number, encoding.address_size)


def text_of(encoding, sections, table, attribute):
    """The number of the section, the place and the length of a text."""
    _, _, kind, number, more = attribute
    if kind == STRING:
        return 0, number, more
    if kind == STR_INDEX:
        if table is None:
            raise Unlike(NO_BASE)
        number, kind = number_at(encoding, sections.str_offsets, table, number, encoding.word), STR_REF
    places = {STR_REF: (8, sections.str), LINE_STR_REF: (9, sections.line_str), STR_REF_SUP: (11, sections.sup_str)}
    if kind not in places:
        raise Unlike(NO_STRING)
    which, section = places[kind]
    end = section.find(b"\0", number) if number <= len(section) else -1
    if end < 0:
        raise Unlike(END_OF_INPUT)
    return which, number, end - number


def offset_named(root, name):
    """The offset that the first attribute of a name is; None where there is none."""
    for attribute in root:
        if attribute[0] == name:
            if attribute[2] != SEC_OFFSET:
                raise Unlike(BAD_BASE)
            return attribute[3]
    return None


def table_base(root, name, least, default):
    base = offset_named(root, name)
    if base is None:
        return default
    if base < least:
        raise Unlike(BAD_BASE)
    return base


def own_bases(encoding, addresses, dwo, root):
    """The table of addresses, the address and what range lists count from, by a root."""
    table = table_base(root, ADDR_BASE, encoding.table_header, None)
    if table is None:
        table = offset_named(root, GNU_ADDR_BASE)
    low = next((it for it in root if it[0] == LOW_PC), None)
    if low is None:
        address = None if dwo else 0
    elif low[2] not in (ADDR, ADDR_INDEX):
        raise Unlike(BAD_BASE)
    else:
        address = address_of(encoding, addresses, table, low)
    return table, address, offset_named(root, GNU_RANGES_BASE)


def unit_bases(encoding, addresses, dwo, skeleton, root):
    """The bases of a unit by the attributes of its root and the bases of its skeleton, which may be None."""
    if skeleton is None:
        table, address, gnu = own_bases(encoding, addresses, dwo, root)
    else:
        table, address, gnu = skeleton.addresses, skeleton.address, skeleton.gnu_ranges or 0
    header, lists = encoding.table_header, encoding.lists_header
    texts = table_base(root, STR_OFFSETS_BASE, header, header if dwo else None)
    if encoding.version < 5:
        return Bases(address, table, None, None, texts, gnu)
    ranges = table_base(root, RNGLISTS_BASE, lists, lists if dwo else None)
    locations = table_base(root, LOCLISTS_BASE, lists, lists if dwo else None)
    return Bases(address, table, ranges, locations, texts, gnu)


# What the program prints

def status_or(find):
    try:
        return MORE, find()
    except Unlike as it:
        return it.status, None


def value_line(encoding, sections, bases, attribute):
    """The line of an attribute: its name, and its address and its text with their statuses."""
    status, address = status_or(lambda: address_of(encoding, sections.addresses, bases.addresses, attribute))
    refused, text = status_or(lambda: text_of(encoding, sections, bases.str_offsets, attribute))
    return [attribute[0], status, address or 0, refused, *(text or (0, 0, 0))]


def root_of(unit):
    """The attributes of the first entry of a unit, of which the rows are printed."""
    status = unit["rows"][0]
    if unit["row"]:
        if unit["row"][0][2] == 0:
            raise Unlike(NO_ENTRY)
        return [it for at, it in unit["attr"] if at == 0]
    raise Unlike(OUT_OF_BOUNDS if status == 1 else REFUSED + status % REFUSED)


def bases_lines(encoding, sections, unit):
    """The lines of the bases of a unit, of each file and by each skeleton."""
    for dwo in (False, True):
        for skeleton in (None, *ODD_BASES):
            given = skeleton and bases_in(encoding, *skeleton)
            status, bases = status_or(lambda: unit_bases(encoding, sections.addresses, dwo, given, root_of(unit)))
            yield [status] if status else bases_line(bases, dwo)


def value_lines(encoding, sections, unit, most=24):
    """The lines of the first attributes of a unit, by its own bases and by others."""
    _, bases = status_or(lambda: unit_bases(encoding, sections.addresses, False, None, root_of(unit)))
    odd = [(it, bases_in(it, *numbers)) for numbers in ODD_BASES for it in (encoding.other, encoding)]
    by = [(encoding, handed_back(encoding, bases) if bases else bases_in(encoding, *ODD_BASES[0])), *odd]
    for _, attribute in unit["attr"][:most]:
        for encoding, bases in by:
            yield value_line(encoding, sections, bases, attribute)


def walk_unlike(big, units, abbrev, answer):
    """How the bases, the addresses and the texts of a walk differ from those here; None where they do not."""
    sections = Sections(abbrev, abbrev, units, abbrev, units)
    bases, values = answer.of("bases"), answer.of("value")
    for unit in answer.units():
        version, _, address_size, offset_size = unit["header"][6:]
        encoding = Encoding(big, offset_size == 8, version, address_size)
        for lines, wanted in ((bases, bases_lines), (values, value_lines)):
            for line in wanted(encoding, sections, unit):
                got = lines.pop(0) if lines else None
                if line != got:
                    return f"{wanted.__name__}: wanted {line}, got {got}"
    return f"{len(bases) + len(values)} lines more than wanted" if bases or values else None
