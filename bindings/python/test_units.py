"""Units: what they read once, their entries, split units, and the units of an address."""
from collections import Counter

import gimli
from gimli import Dwarf, Place, Refused
from test_helpers import declared, numbers, refusal, same, unit_of, unit_of_five

FLAG, STRING, ADDR, DATA4, REF4, REF_ADDR, SEC_OFFSET, STRX, GNU_ADDR_INDEX = 0x0c, 8, 1, 6, 0x13, 0x10, 0x17, 0x1a, 0x1f01
NAME, LOCATION, LOW_PC, ENTRY_PC, RANGES, DWO_ID, GNU_RANGES_BASE, GNU_ADDR_BASE = 3, 2, 0x11, 0x52, 0x55, 0x2131, 0x2132, 0x2133


class Counting(Dwarf):
    """Counts the calls of the library by their names."""

    def __init__(self, *arguments, **sections):
        super().__init__(*arguments, **sections)
        self.calls = Counter()

    def call(self, name, *arguments):
        self.calls[name] += 1
        return super().call(name, *arguments)


def told(refused, *wanted):
    for text in wanted:
        same(f"'{refused}' says '{text}'", text in str(refused), True)


# The real files

def shown(entry):
    return (entry.offset, entry.depth, entry.tag, entry.has_children), [repr(it) for it in entry.attrs]


def same_entries(name, dwarf, unit):
    """The entries of a unit, all of them, one by one, and from each on."""
    wanted = [(row, [repr(it) for it in attrs]) for row, attrs in dwarf.raw_entries(unit.header) if row[2]]
    entries = list(unit.entries())
    same(f"{name}: entries", list(map(shown, entries)), wanted)
    for entry in entries[::7]:
        one = unit.entry(entry.offset)
        same(f"{name}: an entry", (one.offset, one.tag, one.attr(3) is None), (entry.offset, entry.tag, entry.attr(3) is None))
        for place in entry, Place(entry.offset, entry.depth):
            same(f"{name}: entries from {entry}", shown(next(unit.entries(place))), shown(entry))
    same(f"{name}: the root", shown(unit.root), shown(entries[0]))
    same(f"{name}: rows", list(unit.rows()), list(dwarf.rows(unit.header)))
    same(f"{name}: attributes", len(unit.attributes()[1]), sum(len(entry.attrs) for entry in unit.entries()))


def same_values(unit):
    """Texts in place, and references; a refusal of any other names a section that is not there."""
    for entry in unit.entries():
        for attr in entry.attrs:
            if attr.kind_name == "String":
                same("a text", unit.text(attr), unit.dwarf.value(attr)[1])
            if attr.kind_name in ("UnitRef", "DebugInfoRef"):
                found = unit.referenced(attr)
                start = unit.offset if attr.kind_name == "UnitRef" else 0
                same("a reference", found.unit.offset + found.offset, start + attr.number)


def bases_or_addresses(unit):
    """The bases of a unit, or that they need .debug_addr, which the files do not have."""
    try:
        return unit.bases
    except Refused as refused:
        told(refused, "UnexpectedEof", "of .debug_addr, which has no bytes", f"of the unit at {unit.offset:#x}")
    return None


def real_files(library, data):
    bases = 0
    for info in sorted(data.glob("*.info")):
        sections = info.read_bytes(), info.with_suffix(".abbrev").read_bytes()
        dwarf = Counting(library, *sections)
        for unit in dwarf.units():
            same_entries(info.name, dwarf, unit)
            same_values(unit)
            bases += bases_or_addresses(unit) is not None
            holding = [dwarf.unit_holding(offset) for offset in (unit.offset, unit.offset + unit.length - 1)]
            same("the unit that holds an offset", [it.offset for it in holding], [unit.offset] * 2)
        same("no unit holds it", dwarf.unit_holding(len(sections[0])), None)
        same("all units", [unit.offset for unit in dwarf.all_units()], [unit.offset for unit in dwarf.units()])
        read_once(dwarf)
    same("bases", bases > 20, True)


def read_once(dwarf):
    """Header, bases and table are read once, however often entries and values are asked for."""
    dwarf.calls.clear()
    unit = dwarf.unit(0)
    for _ in range(3):
        list(unit.entries()), list(unit.rows()), unit.entry(unit.header_size), bases_or_addresses(unit) and unit.bases
    same("headers", dwarf.calls["unit"], 1)
    same("tables", dwarf.calls["table"], 2)
    if "bases" in vars(unit):
        same("bases", dwarf.calls["unit_bases"], 1)


def split_files(library, data):
    """A split unit and its skeleton of the same id."""
    files = [Dwarf(library, *((data / f"c-{name}.{it}").read_bytes() for it in ("info", "abbrev")))
             for name in ("gcc-d5-split-skeleton", "gcc-d5-split-dwo", "clang-d5-split-skeleton", "clang-d5-split-dwo")]
    for program, split in zip(files[::2], files[1::2]):
        (skeleton, *_), (unit,) = program.units(), split.units(program)
        same("its skeleton", (unit.skeleton.offset, unit.dwo, skeleton.dwo), (skeleton.offset, True, False))
        same("its id", (unit.dwo_id, skeleton.dwo_id), (skeleton.id, unit.id))
        same("its kinds", (unit.kind, skeleton.kind), (gimli.DW_UT_split_compile, gimli.DW_UT_skeleton))
        same("told by its kind", split.unit(0).dwo, True)
        for dwo in True, None:
            same("of a split file", [unit.dwo for unit in program.units(dwo=dwo)], [bool(dwo)] * 3)
        end = "kind=DW_UT_split_compile, address_size=8, offset_size=4), dwo=True, skeleton at 0x0)"
        same("its line", repr(unit)[-len(end):], end)


# Split files of version 4, whose program has the sections that they lack

def split_of(library, big, own_id, **others):
    """A split file with an id, and its program: the skeleton has the id 5."""
    bases = (DWO_ID, 7, 8, 5), (LOW_PC, ADDR, 8, 0x100), (GNU_ADDR_BASE, SEC_OFFSET, 4, 8), \
        (GNU_RANGES_BASE, SEC_OFFSET, 4, 0x10)
    entries = b"\1" + numbers(big, *((number, size) for _, _, size, number in bases))
    ranges = bytes(0x10) + numbers(big, *((it, 8) for it in (1, 2, 0, 0)))
    program = Dwarf(library, unit_of(big, entries), declared(*(it[:2] for it in bases)) + b"\0", big=big, debug_ranges=ranges,
                    debug_addr=bytes(8) + numbers(big, (0x2000, 8)))
    attributes, entries = [(ENTRY_PC, GNU_ADDR_INDEX), (RANGES, SEC_OFFSET), (LOCATION, SEC_OFFSET)], b"\0" + bytes(8)
    if own_id is not None:
        attributes, entries = [(DWO_ID, 7), *attributes], numbers(big, (own_id, 8)) + entries
    split = Dwarf(library, unit_of(big, b"\1" + entries), declared(*attributes) + b"\0", big=big,
                  debug_loc=b"\3\0" + numbers(big, (4, 4), (1, 2)) + b"\x9c\0", **others)
    return split, program


def lent_sections(library, big):
    """What the program lends its split file: .debug_addr and .debug_ranges, where the split file has none."""
    split, program = split_of(library, big, 5)
    for unit in (*split.units(program), *split.units(program.with_types(True)), split.unit(0, program.unit(0))):
        same("its values", (unit.root.address(ENTRY_PC), unit.root.die_ranges(), unit.root.locations(LOCATION)),
             (0x2000, [(0x101, 0x102)], [(0x2000, 0x2004, b"\x9c")]))
    same("the split file itself", (split.given["debug_addr"], split.given["debug_ranges"]), (b"", b""))
    split, program = split_of(library, big, 5, debug_addr=bytes(8) + numbers(big, (0x3000, 8)))
    (unit,) = split.units(program)
    same("its own addresses", (unit.root.address(ENTRY_PC), unit.root.die_ranges()), (0x3000, [(0x101, 0x102)]))


def missing_skeletons(library, big):
    """A base that a skeleton would have, where none has the id, and where none was asked for."""
    for own_id, has_program, why in (6, True, "; no skeleton unit has the id 0x6)"), \
            (5, False, "; no skeleton unit has the id 0x5)"), (None, True, "; the unit has no id of a skeleton unit)"):
        split, program = split_of(library, big, own_id)
        (unit,) = split.units(program if has_program else Dwarf(library, big=big))
        told(refusal(unit.root.address, ENTRY_PC), "NoBase, DW_AT_addr_base; ", why)
        told(refusal(unit.root.die_ranges), "NoBase, DW_AT_GNU_ranges_base; ", why)
        told(refusal(unit.root.locations, LOCATION), "NoBase, DW_AT_low_pc; ", why, "the entry at 0xb of the unit at 0x0")
        for unit in (split.unit(0, dwo=True), *split.units(dwo=True)):
            told(refusal(unit.root.address, ENTRY_PC), "at index 0x0 of .debug_addr, which has no bytes)")
    # (of version 5, where a base of its own is no skeleton's)
    header = (5, 2), (5, 1), (8, 1), (0, 4), (9, 8)
    split = Dwarf(library, numbers(big, (18, 4), *header) + b"\1\0", declared((NAME, STRX)) + b"\0", big=big)
    (unit,) = split.units(split_of(library, big, 5)[1])
    told(refusal(unit.root.text, NAME), "at index 0x0 from 0x8 on of .debug_str_offsets, which has no bytes)")
    split = Dwarf(library, numbers(big, (29, 4), *header) + b"\1" + bytes(12), big=big, debug_rnglists=b"\3\0\4\0",
                  debug_abbrev=declared((LOW_PC, ADDR), (RANGES, SEC_OFFSET)) + b"\0")
    (unit,) = split.units(split_of(library, big, 5)[1])
    told(refusal(unit.root.die_ranges), "; the unit has no table in .debug_addr; no skeleton unit has the id 0x9)")


# Bytes in both byte orders

def entry_at(library, big):
    """Entries at offsets, and where none stands."""
    abbrev = declared(code=1, children=1) + declared((3, STRING), code=2, tag=0x2e) + b"\0"
    info = unit_of(big, b"\1\2f\0\0") + unit_of(big, b"\1\2g\0\0")
    dwarf = Dwarf(library, info, abbrev, big=big)
    unit = dwarf.unit(0x10)
    entry = unit.entry(0xc)
    same("an entry", (entry.tag, entry.text(3), entry.text(0x11), repr(entry)),
         (0x2e, b"g", None, "<DW_TAG_subprogram at 0xc of the unit at 0x10>"))
    same("where it is", (entry.offset, entry.section_offset), (0xc, 0x1c))
    in_info = "of .debug_info, which has 0x20 bytes"
    told(refusal(unit.entry, 0xf), f"(NoEntryAtGivenOffset, error 12; at 0x1f {in_info})", "the entry at 0xf of the unit at 0x10")
    for wrong in 0x10, 0x11, 10 ** 9:
        told(refusal(unit.entry, wrong), f"(OffsetOutOfBounds, error 11; at {0x10 + wrong:#x} {in_info})", "the unit at 0x10")
    told(refusal(unit.entry, 0xd), f"(InvalidAbbreviationCode, error 13; at 0x1d {in_info})", "the entry at 0xd of the unit at ")
    unordered = Dwarf(library, info, declared((3, STRING), code=2, tag=0x2e) + declared(code=1, children=1) + b"\0", big=big)
    unit = unordered.unit(0)
    same("without a table", (unit.table, [entry.tag for entry in unit.entries()]), (None, [0x11, 0x2e]))
    same("an entry without it", unit.entry(0xc).text(3), b"f")


def references(library, big):
    """References in the unit, to another unit, and to none."""
    abbrev = declared((0x31, REF4), code=1) + declared((0x31, REF_ADDR), code=2) + declared((0x31, FLAG), code=3) + b"\0"
    info = unit_of(big, b"\1" + numbers(big, (0xb, 4))) + unit_of(big, b"\2" + numbers(big, (0xb, 4)) + b"\3\1") \
        + unit_of(big, b"\2" + numbers(big, (0x1000, 4)))
    dwarf = Dwarf(library, info, abbrev, big=big)
    first, second, third = dwarf.units()
    same("in the unit", (first.root.referenced(0x31).offset, first.root.referenced(3)), (0xb, None))
    found = second.root.referenced(0x31)
    same("in another unit", (found.unit.offset, found.offset, found.tag), (0, 0xb, 0x11))
    same("no reference", second.referenced(second.entry(0x10).attrs[0]), None)
    told(refusal(third.root.referenced, 0x31), "OffsetOutOfBounds, error 11; at 0x1000 of .debug_info",
         f"the entry at 0xb of the unit at {third.offset:#x}")


def types(library, big):
    """The units of .debug_types, beside those of .debug_info."""
    header = numbers(big, (0x14, 4), (4, 2), (0, 4), (8, 1), (0x0102030405060708, 8), (0x17, 4))
    dwarf = Dwarf(library, unit_of(big, b"\1"), declared() + b"\0", debug_types=header + b"\1", big=big)
    (unit,), (type_unit,) = dwarf.units(), dwarf.type_units()
    same("kinds", (unit.kind, type_unit.kind, type_unit.id), (1, 2, 0x0102030405060708))
    same("all units", [it.kind for it in dwarf.all_units()], [1, 2])
    same("its entry", (type_unit.root.offset, type_unit.root.tag), (0x17, 0x11))
    told(refusal(type_unit.entry, 0x100), "at 0x100 of .debug_types, which has 0x18 bytes")
    told(refusal(dwarf.with_types(True).unit, 5), "the unit at 0x5", "at 0x5 of .debug_types, which has 0x18 bytes")
    same("by .debug_info", type_unit.dwarf.unit_holding(3).kind, 1)


def empty_roots(library, big):
    """A root without attributes, and units without one."""
    unit = Dwarf(library, unit_of_five(big, b"\1"), declared() + b"\0", big=big).unit(0)
    same("its bases", repr(unit.bases), "Bases(address=0x0, addresses=none, rnglists=none, loclists=none, str_offsets=none, "
         "gnu_ranges=none, dwo=0)")
    same("its ranges", (unit.root.die_ranges(), unit.root.pc_range(), unit.root.attrs, unit.dwo_id), ([], None, [], None))
    for entries, refused in (b"\0", "NoEntryAtGivenOffset, error 12"), (b"", "OffsetOutOfBounds, error 11"), \
            (b"\2", "InvalidAbbreviationCode, error 13"):
        unit = Dwarf(library, unit_of_five(big, entries), declared() + b"\0", big=big).unit(0)
        for call in lambda: unit.bases, lambda: unit.root:
            told(refusal(call), f"({refused}; at 0xc of .debug_info, which has", "the unit at 0x0")


def wrong_input(library, big):
    """What is refused names the section, the unit and the offset."""
    info, abbrev = unit_of(big, b"\1f\0") + unit_of(big, b"\1g\0"), declared((3, STRING)) + b"\0"
    dwarf = Dwarf(library, info, abbrev, big=big)
    cut = "The input ends before what should stand there. (UnexpectedEof, error 1; at "
    same("a unit far away", str(refusal(dwarf.unit, 10 ** 9)),
         f"the unit at 0x3b9aca00: {cut}0x3b9aca00 of .debug_info, which has 0x1c bytes)")
    shorter = Dwarf(library, info[:-1], abbrev, big=big)
    for call in lambda: list(shorter.units()), lambda: shorter.unit_holding(0x20), shorter.attributes:
        same("a cut section", str(refusal(call)), f"the unit at 0xe: {cut}0xe of .debug_info, which has 0x1b bytes)")
    other_order = Dwarf(library, info, abbrev, big=not big)
    same("the wrong byte order", str(refusal(list, other_order.units())),
         f"the unit at 0x0: {cut}0x0 of .debug_info, which has 0x1c bytes)")
    other_file = Dwarf(library, info[:0xe], abbrev, big=big)
    for unit in dwarf.unit(0xe), dwarf.header(0xe):
        for call in other_file.attributes, other_file.first_false, lambda unit: list(other_file.rows(unit)), other_file.bases:
            told(refusal(call, unit), "the unit at 0xe: ", "at 0xe of .debug_info, which has 0xe bytes")
    without = Dwarf(library, info, big=big)
    unit = without.unit(0xe)
    for call in lambda: unit.table, lambda: unit.root, lambda: list(unit.entries()), lambda: list(unit.rows()), unit.attributes:
        same("without .debug_abbrev", str(refusal(call)),
             f"the unit at 0xe: {cut}0x0 of .debug_abbrev, which has no bytes)")


# Units of addresses

def arange_set(big, unit, *ranges, version=2, address_size=8, segment_size=0, offset_size=4):
    """A set of a unit; with offsets of 8 bytes its length has 12."""
    tuples = b"".join(numbers(big, (begin, address_size), (size, address_size)) for begin, size in (*ranges, (0, 0)))
    fields = numbers(big, (version, 2), (unit, offset_size), (address_size, 1), (segment_size, 1))
    mark = [(0xffffffff, 4)] if offset_size == 8 else []
    fields += bytes(-(4 * len(mark) + offset_size + len(fields)) % (2 * address_size or 1))
    return numbers(big, *mark, (len(fields) + len(tuples), offset_size)) + fields + tuples


def pc_ranges(library, big):
    """The range from low_pc to high_pc, as an address, as a size and without it, and a list of ranges."""
    kinds = [(0x11, ADDR), (0x12, ADDR)], [(0x11, ADDR), (0x12, DATA4)], [(0x11, ADDR)], [(0x55, SEC_OFFSET)], \
        [(0x11, ADDR), (0x12, FLAG)], [(0x12, DATA4)]
    abbrev = b"".join(declared(*attributes, code=code) for code, attributes in enumerate(kinds, 1)) + b"\0"
    entries = b"\1" + numbers(big, (0x10, 8), (0x30, 8)) + b"\2" + numbers(big, (0x10, 8), (0x20, 4)) + b"\3" \
        + numbers(big, (0x10, 8)) + b"\4" + numbers(big, (0, 4)) + b"\5" + numbers(big, (0x10, 8)) + b"\1\6" + bytes(4) \
        + b"\1" + numbers(big, (0x30, 8), (0x10, 8)) + b"\2" + numbers(big, (2 ** 64 - 1, 8), (0x20, 4)) \
        + b"\2" + numbers(big, (0x30, 8), (0, 4))
    ranges = numbers(big, *((it, 8) for it in (0x15, 0x18, 5, 6, 0, 0)))
    unit = Dwarf(library, unit_of(big, entries), abbrev, debug_ranges=ranges, big=big).unit(0)
    address, size, single, listed, wrong, high, backward, discarded, empty = unit.entries()
    same("pairs", [it.pc_range() for it in (address, size, single, listed)], [(0x10, 0x30), (0x10, 0x30), (0x10, 0x10), None])
    # (lists count from the root's low_pc)
    same("ranges", [it.die_ranges() for it in (address, size, single, listed)],
         [[(0x10, 0x30)], [(0x10, 0x30)], [(0x10, 0x10)], [(0x25, 0x28), (0x15, 0x16)]])
    same("no end", (wrong.pc_range(), wrong.die_ranges()), ((0x10, 0x10), [(0x10, 0x10)]))
    same("an end below", [(it.pc_range(), it.die_ranges()) for it in (backward, discarded)],
         [((0x30, 0x10), []), ((2 ** 64 - 1, 0x1f), [])])
    same("an empty one, and an end alone", [it.die_ranges() for it in (empty, high)], [[(0x30, 0x30)], []])


def units_of_address(library, big):
    """A unit that sets name is judged by them, another by its root."""
    abbrev = declared((0x11, ADDR), (0x12, DATA4)) + b"\0"
    info = b"".join(unit_of(big, b"\1" + numbers(big, (begin, 8), (0x10, 4))) for begin in (0x100, 0x100, 0x200))
    starts = [0, 0x18, 0x30]
    without = Dwarf(library, info, abbrev, big=big)
    same("by roots", [without.units_of_address(it) for it in (0xff, 0x100, 0x10f, 0x110, 0x200)],
         [[], starts[:2], starts[:2], [], starts[2:]])
    same("no set has it", without.unit_of_address(0x100), None)
    sets = arange_set(big, 0x18, (0x300, 8)) + arange_set(big, 0x18, (0x400, 8)) + arange_set(big, 0x30)
    dwarf = Dwarf(library, info, abbrev, debug_aranges=sets, big=big)
    same("by sets", [dwarf.units_of_address(it) for it in (0x100, 0x200, 0x300, 0x307, 0x308, 0x400)],
         [[0], [], [0x18], [0x18], [], [0x18]])
    same("by sets alone", [dwarf.unit_of_address(it) for it in (0x100, 0x300, 0x400)], [None, 0x18, 0x18])
    same("from a type unit", dwarf.with_types(True).units_of_address(0x100), [0])
    counting = Counting(library, info, abbrev, debug_aranges=sets, big=big)
    for _ in range(3):
        counting.units_of_address(0x100)
    same("read once", [counting.calls[name] for name in ("unit", "unit_bases", "unit_holds")], [4, 3, 9])


def sets_of_type_units(library, big):
    """A set names a unit of .debug_info, and never the one of .debug_types that begins at the same offset."""
    header = numbers(big, (0x20, 4), (4, 2), (0, 4), (8, 1), (0, 8), (0x17, 4))
    dwarf = Dwarf(library, unit_of(big, b"\2"), declared((0x11, ADDR), (0x12, DATA4)) + declared(code=2) + b"\0", big=big,
                  debug_types=header + b"\1" + numbers(big, (0x200, 8), (8, 4)), debug_aranges=arange_set(big, 0, (0x100, 8)))
    (unit,), (type_unit,) = dwarf.units(), dwarf.type_units()
    same("of .debug_info", [unit.holds_address(it) for it in (0x100, 0x200)], [True, False])
    same("of .debug_types", [type_unit.holds_address(it) for it in (0x100, 0x200)], [False, False])


def malformed_sets(library, big):
    """What is malformed is refused with the offset of its set, and tuples that hold no address are passed over."""
    info, abbrev, good = unit_of(big, b"\1"), declared() + b"\0", arange_set(big, 0, (0x100, 8))
    long = arange_set(big, 0, (0x200, 8), offset_size=8)
    for wrong, name in (good[:-1], "UnexpectedEof"), (arange_set(big, 0, version=4) + good, "UnknownVersion"), \
            (arange_set(big, 0, address_size=8, segment_size=1), "UnsupportedSegmentSize"), (b"\1", "UnexpectedEof"), \
            (numbers(big, (0xfffffff0, 4)) + good, "UnknownReservedLength"), (bytes(4) + good, "UnexpectedEof"), \
            (good[:10] + b"\3" + good[11:], "UnsupportedAddressSize"), (long[:8], "UnexpectedEof"), \
            (long[:4] + b"\377" * 8 + good, "UnexpectedEof"), (arange_set(big, 0, version=4, offset_size=8), "UnknownVersion"):
        for before in good, good + long:
            dwarf = Dwarf(library, info, abbrev, debug_aranges=before + wrong, big=big)
            same("before what is malformed", (dwarf.units_of_address(0x100), dwarf.unit(0).holds_address(0x107)), ([0], True))
            refused = refusal(dwarf.units_of_address, 0)
            same("what is malformed", (refused.name, refused.section, refused.offset), (name, ".debug_aranges", len(before)))
            same("the same of any unit", str(refusal(dwarf.unit_of_address, 0)), str(refused))
    odd = arange_set(big, 0, (2 ** 64 - 1, 1), (2 ** 64 - 8, 16), (0x200, 0), (0x300, 1))
    dwarf = Dwarf(library, info, abbrev, debug_aranges=odd, big=big)
    same("odd tuples", [dwarf.units_of_address(it) for it in (2 ** 64 - 1, 2 ** 64 - 8, 0x200, 0x300)], [[], [], [], [0]])


def main(library, data):
    real_files(library, data)
    split_files(library, data)
    for big in (False, True):
        lent_sections(library, big)
        missing_skeletons(library, big)
        entry_at(library, big)
        references(library, big)
        types(library, big)
        empty_roots(library, big)
        wrong_input(library, big)
        pc_ranges(library, big)
        units_of_address(library, big)
        sets_of_type_units(library, big)
        malformed_sets(library, big)
