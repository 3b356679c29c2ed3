"""What a refusal says: where the value of an attribute leads, which base it lacks, and which set is refused."""
from ctypes import byref, c_uint64

from gimli_constants import (DW_AT_GNU_addr_base, DW_AT_GNU_ranges_base, DW_AT_addr_base, DW_AT_high_pc, DW_AT_loclists_base,
                             DW_AT_low_pc, DW_AT_ranges, DW_AT_rnglists_base, DW_AT_str_offsets_base, at_name)
from gimli_list_addresses import index_without_address
from gimli_structs import (BAD_BASE, NO_ADDRESS, NO_BASE, NO_LIST, NO_STRING, REFUSED, ROW_REFUSED, Bases, Bytes, Place,
                           Refused, Sections)

ADDR, SEC_OFFSET, ADDR_INDEX, LOC_LISTS_INDEX, RNG_LISTS_INDEX, STR_OFFSETS_INDEX = 1, 12, 14, 21, 26, 31
# The refusals of a list that may be those of an index without an address: UnexpectedEof and UnsupportedOffset.
MAY_LACK_ADDRESS = ROW_REFUSED + 1, ROW_REFUSED + 9

# The sections of texts at an offset, by the kind of the value.
TEXTS = {28: "str", 29: "sup_str", 32: "line_str"}
# Of an index the section of its table, which is the name of its base too, and the attribute of that.
TABLES = {ADDR_INDEX: ("addresses", DW_AT_addr_base), STR_OFFSETS_INDEX: ("str_offsets", DW_AT_str_offsets_base),
          RNG_LISTS_INDEX: ("rnglists", DW_AT_rnglists_base), LOC_LISTS_INDEX: ("loclists", DW_AT_loclists_base)}
# The sections of lists up to version 4, and from version 5 on.
LISTS = {"ranges": ("ranges", "rnglists"), "locations": ("loc", "loclists")}

# The attributes of the bases that a split unit has from its skeleton.
OF_SKELETON = DW_AT_addr_base, DW_AT_low_pc, DW_AT_GNU_ranges_base


def header_sizes(unit):
    """The least that the bases of a unit can be."""
    if unit.version < 5:
        return {}
    length = 12 if unit.offset_size == 8 else 4
    return {"addresses": length + 4, "str_offsets": length + 4, "rnglists": length + 8, "loclists": length + 8}


def base_of(unit, bases, name):
    """The base of a name, or None where it is none."""
    number = getattr(bases, name)
    return None if getattr(bases, f"no_{name}") or number < header_sizes(unit).get(name, 0) else number


def place_of(dwarf, unit, attr, bases, what):
    """Where the value of an attribute leads: a section, the offset there, and the index that counts from it on, or None."""
    lists = LISTS.get(what, (None, None))[unit.version >= 5]
    if attr.kind in TABLES:
        table, base = TABLES[attr.kind][0], base_of(unit, bases, TABLES[attr.kind][0])
        offset = None if base is None else dwarf.number_at(table, base + attr.number * unit.offset_size, unit.offset_size)
        if attr.kind == ADDR_INDEX or offset is None:
            return table, base, attr.number
        return ("str", offset, None) if attr.kind == STR_OFFSETS_INDEX else (lists or table, base + offset, None)
    if attr.kind == SEC_OFFSET and lists:
        # (in a split unit before version 5 range lists count from the skeleton's base)
        start = base_of(unit, bases, "gnu_ranges") if lists == "ranges" and bases.dwo else 0
        return lists, attr.number + (start or 0), None
    return TEXTS.get(attr.kind, "units"), attr.number, None


def missing_base(unit, attr, bases, what):
    """The attribute of the base from which a value counts, and which the unit does not have."""
    if attr.kind in TABLES and base_of(unit, bases, TABLES[attr.kind][0]) is None:
        return TABLES[attr.kind][1]
    if what == "ranges" and attr.kind == SEC_OFFSET and bases.dwo and unit.version < 5 and bases.no_gnu_ranges:
        return DW_AT_GNU_ranges_base
    return DW_AT_low_pc


def no_skeleton(unit, name):
    """In words that a unit has no skeleton, from which it would have the base of this attribute; or None."""
    return getattr(unit, "no_skeleton", None) if name in OF_SKELETON else None


def missing_address(dwarf, unit, bases, section, offset, index):
    """In words which address of a list is missing, where the list names one by an index that has none; or None."""
    if index is not None or section not in ("rnglists", "loclists") and (section != "loc" or not bases.dwo):
        return None
    base = base_of(unit, bases, "addresses")
    found = index_without_address(dwarf, unit, base, section, offset)
    if found is None:
        return None
    if base is None:
        words = f"the unit has no table in {dwarf.section_name('addresses')}", no_skeleton(unit, DW_AT_addr_base)
        return "; ".join(filter(None, words))
    return f"its address would be {dwarf.where('addresses', base, found)}"


def refused_value(dwarf, status, unit, attr, bases, what, found=()):
    """The refusal of the value of an attribute, as a text, an address, ranges or locations."""
    place, base, note = place_of(dwarf, unit, attr, bases, what), None, None
    if status == NO_BASE:
        name = missing_base(unit, attr, bases, what)
        base, note = at_name(name), no_skeleton(unit, name)
    elif status in MAY_LACK_ADDRESS:
        note = missing_address(dwarf, unit, bases, *place)
    elif status in (NO_LIST, NO_STRING, NO_ADDRESS):
        # (a value of another kind leads nowhere: it stands in the unit)
        place = "units", unit.offset
    return Refused(status, dwarf.where(*place), unit=unit.offset, value=what, attribute=attr.name and at_name(attr.name),
                   base=base, note=note, found=found)


def of_name(attrs, *names):
    """The first attribute of a name, or else of the next name; or None."""
    return next((attr for name in names for attr in attrs if attr.name == name), None)


# The attributes of the bases, in the order in which they are read, each with the section that its value is an offset of.
BASES = ((DW_AT_addr_base, "addresses"), (DW_AT_GNU_addr_base, None), (DW_AT_low_pc, None), (DW_AT_GNU_ranges_base, None),
         (DW_AT_str_offsets_base, "str_offsets"), (DW_AT_rnglists_base, "rnglists"), (DW_AT_loclists_base, "loclists"))


def is_read(unit, attrs, has_skeleton, name):
    """Whether the attribute of a base counts for a unit: a split unit has some of its bases from its skeleton, there are no
    tables of lists before version 5, and GNU's base counts where the other is not there."""
    if name in (DW_AT_rnglists_base, DW_AT_loclists_base):
        return unit.version >= 5
    if name == DW_AT_GNU_addr_base and of_name(attrs, DW_AT_addr_base):
        return False
    return name == DW_AT_str_offsets_base or not has_skeleton


def bad_base(unit, attrs, has_skeleton):
    """The name of the first attribute of a root whose value no base can have."""
    for name, table in BASES:
        attr = of_name(attrs, name) if is_read(unit, attrs, has_skeleton, name) else None
        kinds = (ADDR, ADDR_INDEX) if name == DW_AT_low_pc else (SEC_OFFSET,)
        if attr and (attr.kind not in kinds or attr.number < header_sizes(unit).get(table, 0)):
            return at_name(name)
    return None


def refused_bases(dwarf, status, unit, has_skeleton):
    """The refusal of a unit's bases: of its root, of the attribute of a base, or of the address that DW_AT_low_pc names."""
    try:
        attrs = next((attrs for _, attrs in dwarf.raw_entries(unit, 1, 64)), [])
    except Refused as refused:
        return refused
    low_pc, table = of_name(attrs, DW_AT_low_pc), of_name(attrs, DW_AT_addr_base, DW_AT_GNU_addr_base)
    refused = Refused(status, dwarf.where("units", unit.offset + unit.header_size), unit=unit.offset)
    if status == BAD_BASE:
        refused.base = bad_base(unit, attrs, has_skeleton)
    elif low_pc and low_pc.kind == ADDR_INDEX and refused.name != "OutOfMemory":
        bases = Bases(addresses=table.number) if table else Bases(no_addresses=1)
        refused = refused_value(dwarf, status, unit, low_pc, bases, "address")
    refused.entry = unit.header_size
    return refused


# The highest address, which no range holds: its end would have to come after it.
HELD_BY_NONE = (1 << 64) - 1


def is_refused(dwarf, sets):
    """Whether one of these sets is refused."""
    sections = Sections(*map(Bytes.of, {**dwarf.kept, "aranges": sets}.values()), dwarf.big)
    return dwarf.library.gimli_unit_of_address(byref(sections), HELD_BY_NONE, byref(c_uint64())) >= REFUSED


def end_of_set(dwarf, offset):
    """Where the set at an offset of .debug_aranges ends by its length, or None where the length is cut."""
    start, length = offset + 4, dwarf.number_at("aranges", offset, 4)
    if length == 0xffffffff:
        start, length = offset + 12, dwarf.number_at("aranges", start, 8)
    return None if length is None else start + length


def refused_set(dwarf, status):
    """The refusal of the first set of .debug_aranges that is refused, with where it begins. The library is asked of each set."""
    offset, sets = 0, dwarf.kept["aranges"]
    while offset < len(sets):
        end = end_of_set(dwarf, offset)
        if is_refused(dwarf, sets[offset:end]):
            break
        offset = end
    return Refused(status, dwarf.where("aranges", offset))


def read_addresses(root):
    """Reads the values by which a root holds addresses."""
    for name, call in (DW_AT_ranges, root.unit.ranges), (DW_AT_low_pc, root.unit.address), (DW_AT_high_pc, root.unit.address):
        try:
            root.read(call, name)
        except Refused as refused:
            if refused.name not in ("NoList", "NoAddress"):
                raise


def refused_holding(unit, status):
    """The refusal of whether a unit holds an address: of its table of abbreviations, of a set, of its root, or of a value there.
    """
    refused = Refused(status, unit.dwarf.where("units", unit.offset), unit=unit.offset)
    try:
        # (at the unit's end its table is read, and nothing else)
        list(unit.dwarf.raw_entries(unit.header, place=Place(unit.length, 0)))
        unit.dwarf.unit_of_address(HELD_BY_NONE)
        read_addresses(unit.root)
    except Refused as found:
        # (memory may be refused now and then)
        if found.name == refused.name:
            return found
    return refused
