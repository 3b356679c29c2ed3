"""The values of attributes: the rows of bases.txt, whose answers are those of crates/gimli_dwarf, and what is refused."""
import re
from collections import Counter
from unittest.mock import patch

import gimli
from gimli import Attr, Bases, Dwarf, Refused
from test_helpers import declared, fails, numbers, refusal, same, uleb128, unit_of, unit_of_five

# The sections of a call of the rows, after .debug_info, .debug_abbrev and .debug_addr.
SECTIONS = {"bases": [], "values": ["debug_str", "debug_line_str", "debug_str_offsets", "debug_str_sup"],
            "lists": ["debug_ranges", "debug_rnglists", "debug_loc", "debug_loclists"],
            "holds": ["debug_ranges", "debug_rnglists", "debug_aranges"]}


# The rows

def rows_of(table):
    """The words, the sections and the answer of each row of a table."""
    for line in table.read_text().splitlines():
        call, answers, answer = line.partition(" =")
        if answers and not line.startswith("#"):
            words, *sections = call.split(" :")
            yield words.split(), [bytes.fromhex(it) for it in sections], answer.split(" | ")[0].strip()


def unit_of_row(library, words, sections):
    """The unit of a row: `main` and `dwo` are the kind of its file, and of `split` the first unit is the skeleton of the second.
    """
    names = ["debug_info", "debug_abbrev", "debug_addr", *SECTIONS[words[0]]]
    dwarf = Dwarf(library, **dict(zip(names, sections)))
    if words[1] == "split":
        skeleton = dwarf.unit(0)
        return dwarf.unit(skeleton.length, skeleton)
    return dwarf.unit(0, dwo=words[1] == "dwo")


def shown(refused):
    """A refusal as rows have it, without what it carries."""
    words = {"NoBase": "missing", "BadBase": "invalid", "NoString": "no text", "NoAddress": "none"}
    return words.get(refused.name, f"refused {refused.number}") + (f" {gimli.AT[refused.base]:x}" if refused.base else "")


def without_place(answer):
    return re.sub(r"^(refused \d+) \d+$", r"\1", answer)


def answered(call, show):
    """What a call answers, as it is shown, or its refusal."""
    try:
        return show(call())
    except Refused as refused:
        return shown(refused)


def bases_shown(bases):
    names = ("addr", "addresses"), ("str", "str_offsets"), ("rnglists",) * 2, ("loclists",) * 2, ("gnu", "gnu_ranges")
    numbers = ["-" if getattr(bases, f"no_{name}") else f"{word} {getattr(bases, name)}" for word, name in names]
    numbers = [f"{word} -" if it == "-" else it for (word, _), it in zip(names, numbers)]
    return " ".join([f"low_pc {'-' if bases.no_address else hex(bases.address)}", *numbers])


def bases_row(unit, answer):
    same("bases", answered(lambda: unit.bases, bases_shown), without_place(answer))


def values_row(unit, answer):
    """The address and the text of each attribute; the row has where a text lies too."""
    lines = answer.split("; ")
    same("attributes", len(unit.root.attrs), len(lines))
    for attr, line in zip(unit.root.attrs, lines):
        address, text = re.fullmatch(r"[0-9a-f]+ (none|0x[0-9a-f]+|missing 73) (.*)", line).groups()
        same(f"the address of '{line}'", answered(lambda: unit.address(attr), hex), address)
        text = re.sub(r"^\d+:(-|[0-9a-f]+)$", lambda found: found[1].replace("-", ""), text)
        same(f"the text of '{line}'", answered(lambda: unit.text(attr), bytes.hex), without_place(text))


def list_of(words):
    """The items of a list and how it is refused, by the words of a row. What comes after a refused item, the library for C does
    not give."""
    items, refused = [], None
    for item in words[2:].split(", ") if words.startswith(", ") else []:
        if item.startswith("refused"):
            return items, without_place(item)
        begin, end, *expression = re.split(r" \d+:| ", item)
        items.append((int(begin, 16), int(end, 16), *map(bytes.fromhex, expression)))
    return items, refused or (without_place(words.strip()) if words and not words.startswith(",") else None)


def lists_row(unit, answer):
    for attr, line in zip(unit.root.attrs, answer.split("; ")):
        what, words = re.fullmatch(r"[0-9a-f]+(?: (ranges|locations)(.*))?", line).groups()
        if what:
            try:
                found = getattr(unit, what)(attr), None
            except Refused as refused:
                found = refused.found, shown(refused)
            same(line, found, list_of(words))


def holds_row(unit, address, answer):
    held = answered(lambda: unit.holds_address(address), lambda held: "true" if held else "false")
    same(f"whether {unit} holds {address:#x}", held, without_place(answer))
    if unit.bases.dwo:
        return
    # (it is the only one that the sets can name, and these take the units for those of a program)
    found = answered(lambda: unit.dwarf.units_of_address(address), lambda units: "true" if unit.offset in units else "false")
    same(f"whether the units of {address:#x} have it", found, held)


def holding_row(library, words, sections, answer):
    dwarf = Dwarf(library, sections[0])
    found = answered(lambda: dwarf.unit_holding(int(words[1])), lambda unit: f"unit {unit.offset}" if unit else "none")
    same("the unit that holds an offset", found, without_place(answer))


def table_of_bases(library, table):
    calls = {"bases": bases_row, "values": values_row, "lists": lists_row}
    rows = Counter()
    for words, sections, answer in rows_of(table):
        if words[0] == "holding":
            holding_row(library, words, sections, answer)
        elif words[0] == "holds":
            holds_row(unit_of_row(library, words, sections), int(words[2], 16), answer)
        else:
            calls[words[0]](unit_of_row(library, words, sections), answer)
        rows[words[0]] += 1
    same("rows enough", (sum(rows.values()) > 100, rows["holds"] > 50), (True, True))


# What is refused, by its name and where it stands

def one_value(library, big, number, name, form, *others, **sections):
    """The attribute of a root, with the form of its value, and the root's other attributes, each (name, form, number of bytes,
    number); the unit is of version 5."""
    attributes = [(name, form), *(it[:2] for it in others)]
    entries = b"\1" + number + b"".join(numbers(big, (it[3], it[2])) for it in others)
    dwarf = Dwarf(library, unit_of_five(big, entries), declared(*attributes) + b"\0", big=big, **sections)
    unit = dwarf.unit(0)
    return unit, unit.root.attr(name)


def told(refused, *wanted):
    """A refusal says all of this."""
    for text in wanted:
        same(f"'{refused}' says '{text}'", text in str(refused), True)
    same(f"the section of '{refused}'", refused.section and refused.section.startswith(".debug_"), True)


STRP, STRX, LINE_STRP, SUP_STRP, ADDRX, RNGLISTX, LOCLISTX, SEC_OFFSET = 0x0e, 0x1a, 0x1f, 0x1d, 0x1b, 0x23, 0x22, 0x17
NAME, LOW_PC, HIGH_PC, ENTRY_PC, RANGES, LOCATION = 3, 0x11, 0x12, 0x52, 0x55, 2
STR_OFFSETS_BASE, ADDR_BASE, RNGLISTS_BASE, LOCLISTS_BASE = 0x72, 0x73, 0x74, 0x8c
GREATEST = uleb128(2 ** 64 - 1)


def missing_sections(library, big):
    """Values whose section is not there."""
    four = numbers(big, (0x21, 4))
    for form, section in (STRP, ".debug_str"), (LINE_STRP, ".debug_line_str"), (SUP_STRP, ".debug_str of the supplementary file"):
        unit, attr = one_value(library, big, four, NAME, form)
        refused = refusal(unit.text, attr)
        told(refused, f"UnexpectedEof, error 1; at 0x21 of {section}, which has no bytes",
             "the text of DW_AT_name of the unit at 0x0")
        same("its place", (refused.section, refused.offset, refused.index), (section, 0x21, None))
        told(refusal(unit.root.text, NAME), "of the entry at 0xc of the unit at 0x0", section)
    unit, attr = one_value(library, big, b"\3", NAME, STRX, (STR_OFFSETS_BASE, SEC_OFFSET, 4, 8))
    refused = refusal(unit.text, attr)
    told(refused, "at index 0x3 from 0x8 on of .debug_str_offsets, which has no bytes")
    same("its place", (refused.section, refused.offset, refused.index), (".debug_str_offsets", 8, 3))
    for name, call, sections in (RANGES, "ranges", (".debug_ranges", ".debug_rnglists")), \
            (LOCATION, "locations", (".debug_loc", ".debug_loclists")):
        old = Dwarf(library, unit_of(big, b"\1" + four), declared((name, SEC_OFFSET)) + b"\0", big=big).unit(0)
        unit, attr = one_value(library, big, four, name, SEC_OFFSET)
        told(refusal(getattr(old, call), old.root.attr(name)), f"at 0x21 of {sections[0]}, which has no bytes", f"the {call} of")
        told(refusal(getattr(unit, call), attr), f"at 0x21 of {sections[1]}, which has no bytes", gimli.at_name(name))


def missing_addresses(library, big):
    """Without .debug_addr: an address by its index, that of a root, and those of a list."""
    base = ADDR_BASE, SEC_OFFSET, 4, 8
    unit, attr = one_value(library, big, b"\2", ENTRY_PC, ADDRX, base)
    told(refusal(unit.address, attr), "at index 0x2 from 0x8 on of .debug_addr, which has no bytes", "UnexpectedEof")
    unit, attr = one_value(library, big, b"\2", LOW_PC, ADDRX, base)
    told(refusal(lambda: unit.bases), "at index 0x2 from 0x8 on of .debug_addr, which has no bytes", "of DW_AT_low_pc",
         "the entry at 0xc of the unit at 0x0")
    offset = numbers(big, (0, 4))
    for entry in "03 00 10", "02 00 01", "01 00", "04 10 20 07" + "00" * 8 + "80 01 03 00 10":
        lists = bytes.fromhex(entry + "00")
        for others, why in ([], "the unit has no table in .debug_addr"), \
                ([base], "its address would be at index 0x0 from 0x8 on of .debug_addr, which has no bytes"):
            unit, attr = one_value(library, big, offset, RANGES, SEC_OFFSET, *others, debug_rnglists=lists)
            told(refusal(unit.ranges, attr), f"at 0x0 of .debug_rnglists, which has {len(lists):#x} bytes; {why})")
    for lists, index in (b"\1\0\2\0\1\1\x9c\0", 1), (b"\3\0\4\1\x9c\5\1\x9c\6" + bytes(8) + b"\1\2\0", 2), \
            (b"\1" + GREATEST + b"\0", 2 ** 64 - 1):
        unit, attr = one_value(library, big, offset, LOCATION, SEC_OFFSET, base, debug_loclists=lists,
                               debug_addr=bytes(8) + numbers(big, (0x2000, 8)))
        why = f"its address would be at index {index:#x} from 0x8 on of .debug_addr, which has 0x10 bytes"
        told(refusal(unit.locations, attr), f"of .debug_loclists, which has {len(lists):#x} bytes; {why})")
    cut_lists(library, big, offset)


def cut_lists(library, big, offset):
    """Lists that are cut before an index without an address: nothing is said of .debug_addr."""
    for lists in b"\4\20", b"\7" + bytes(7), b"\3\0", b"\2\0", b"\1", b"\3\0\x80":
        unit, attr = one_value(library, big, offset, RANGES, SEC_OFFSET, debug_rnglists=lists)
        told(refusal(unit.ranges, attr), f"error 1; at 0x0 of .debug_rnglists, which has {len(lists):#x} bytes)")
    for lists in b"\4\1\2\1", b"\3\0\4\1", b"\3\0\4", b"\5\2\x9c":
        unit, attr = one_value(library, big, offset, LOCATION, SEC_OFFSET, debug_loclists=lists)
        told(refusal(unit.root.locations, LOCATION), f"error 1; at 0x0 of .debug_loclists, which has {len(lists):#x} bytes)",
             "the locations of DW_AT_location of the entry at 0xc of the unit at 0x0")
    split = Dwarf(library, unit_of(big, b"\1" + bytes(4)), declared((LOCATION, SEC_OFFSET)) + b"\0", big=big,
                  debug_loc=b"\3\0" + numbers(big, (4, 4), (1, 2)) + b"\x9c\0").unit(0, dwo=True)
    bases = Bases(no_addresses=1, dwo=1)
    told(refusal(split.dwarf.locations, split, split.root.attrs[0], bases), "; the unit has no table in .debug_addr)")


def what_names_lists(library, big):
    """Attributes that name lists, and an expression, which is refused where a list is asked for."""
    locations, ranges, none = (True, False), (False, True), (False, False)
    for name, form, number, wanted in (LOCATION, SEC_OFFSET, bytes(4), locations), (LOCATION, LOCLISTX, b"\0", locations), \
            (RANGES, SEC_OFFSET, bytes(4), ranges), (RANGES, RNGLISTX, b"\0", ranges), \
            (LOCATION, 0x18, b"\1\x9c", none), (NAME, 0x0b, b"\1", none):
        unit, attr = one_value(library, big, number, name, form)
        same(f"what {attr} names", (attr.names_locations, attr.names_ranges), wanted)
        same("the same by the functions", (gimli.names_locations(attr), gimli.names_ranges(attr)), wanted)
    unit, _ = one_value(library, big, b"\1\x9c", LOCATION, 0x18)
    same("no attribute", unit.root.locations(RANGES), None)
    told(refusal(unit.root.locations, LOCATION), "NoList; at 0xc of .debug_info", "of DW_AT_location of the entry at 0xc of ")


def missing_bases(library, big):
    """An index that counts from a base which no attribute gives."""
    for name, form, base, call in (NAME, STRX, "DW_AT_str_offsets_base", "text"), \
            (ENTRY_PC, ADDRX, "DW_AT_addr_base", "address"), (RANGES, RNGLISTX, "DW_AT_rnglists_base", "ranges"), \
            (LOCATION, LOCLISTX, "DW_AT_loclists_base", "locations"):
        unit, attr = one_value(library, big, b"\5", name, form)
        refused = refusal(getattr(unit, call), attr)
        told(refused, f"(NoBase, {base}; at index 0x5 of .debug_", "that the unit does not have")
        same("the base", (refused.name, refused.number, refused.base, refused.index), ("NoBase", 0, base, 5))
    unit, attr = one_value(library, big, b"\5", LOW_PC, ADDRX)
    told(refusal(lambda: unit.bases), "NoBase, DW_AT_addr_base; at index 0x5 of .debug_addr")
    abbrev = declared((RANGES, SEC_OFFSET), (LOCATION, SEC_OFFSET)) + b"\0"
    unit = Dwarf(library, unit_of(big, b"\1" + bytes(8)), abbrev, big=big).unit(0, dwo=True)
    told(refusal(unit.ranges, unit.root.attrs[0]), "NoBase, DW_AT_GNU_ranges_base; at 0x0 of .debug_ranges")
    told(refusal(unit.locations, unit.root.attrs[1]), "NoBase, DW_AT_low_pc; at 0x0 of .debug_loc")


def bad_bases(library, big):
    """Bases in the header of their section, and of another form; a text that does not count from one is there all the same."""
    for name in STR_OFFSETS_BASE, ADDR_BASE, RNGLISTS_BASE, LOCLISTS_BASE:
        for form, size, number in (SEC_OFFSET, 4, 0), (SEC_OFFSET, 4, 7), (0x06, 4, 0x20):
            unit, attr = one_value(library, big, b"hi\0", NAME, 8, (name, form, size, number))
            refused = refusal(lambda: unit.bases)
            told(refused, f"BadBase, {gimli.at_name(name)}; at 0xc of .debug_info", "the entry at 0xc of the unit at 0x0",
                 "The attribute of a base has a value that no base can have.")
            same("a text in place", unit.text(attr), b"hi")
    unit, _ = one_value(library, big, b"\5", LOW_PC, 0x0b)
    told(refusal(lambda: unit.bases), "BadBase, DW_AT_low_pc; at 0xc of .debug_info")


def bases_beyond(library, big):
    """Bases after the end of their section, ones that are no multiple, and the greatest index."""
    table = numbers(big, (0xc, 4), (5, 2), (0, 2), (1, 4), (4, 4))
    texts = {"debug_str_offsets": table, "debug_str": b"\0ab\0cd\0"}
    for base, index, where in (0x11, b"\0", "index 0x0 from 0x11 on"), (9, b"\1", "index 0x1 from 0x9 on"), \
            (8, GREATEST, "index 0xffffffffffffffff from 0x8 on"):
        unit, attr = one_value(library, big, index, NAME, STRX, (STR_OFFSETS_BASE, SEC_OFFSET, 4, base), **texts)
        told(refusal(unit.text, attr), f"at {where} of .debug_str_offsets, which has 0x10 bytes", "of the unit at 0x0")
    unit, attr = one_value(library, big, b"\1", NAME, STRX, (STR_OFFSETS_BASE, SEC_OFFSET, 4, 8), **texts)
    same("a text at an index", (unit.text(attr), unit.root.text(NAME)), (b"cd", b"cd"))
    for form, name, base, section, call in (ADDRX, ENTRY_PC, ADDR_BASE, "debug_addr", "address"), \
            (RNGLISTX, RANGES, RNGLISTS_BASE, "debug_rnglists", "ranges"), \
            (LOCLISTX, LOCATION, LOCLISTS_BASE, "debug_loclists", "locations"):
        for at, index, word in (0x41, b"\0", "0x0"), (0xd, b"\x10", "0x10"), (0xc, GREATEST, hex(2 ** 64 - 1)):
            unit, attr = one_value(library, big, index, name, form, (base, SEC_OFFSET, 4, at), **{section: bytes(0x40)})
            told(refusal(getattr(unit, call), attr), f"at index {word} from {at:#x} on of .{section}, which has 0x40 bytes")


def texts_without_end(library, big):
    """Texts that no zero ends: at an offset, and at an index, whose offset is told then."""
    unit, attr = one_value(library, big, numbers(big, (2, 4)), NAME, STRP, debug_str=b"\0abc")
    told(refusal(unit.text, attr), "UnexpectedEof, error 1; at 0x2 of .debug_str, which has 0x4 bytes")
    table = numbers(big, (8, 4), (5, 2), (0, 2), (1, 4))
    unit, attr = one_value(library, big, b"\0", NAME, STRX, (STR_OFFSETS_BASE, SEC_OFFSET, 4, 8), debug_str_offsets=table,
                           debug_str=b"\0abc")
    told(refusal(unit.text, attr), "at 0x1 of .debug_str, which has 0x4 bytes")
    unit, attr = one_value(library, big, b"\7", NAME, 0x0b)
    told(refusal(unit.text, attr), "The value is no text. (NoString; at 0x0 of .debug_info, ")
    told(refusal(unit.address, attr), "The value is no address. (NoAddress; at 0x0 of .debug_info, ", "the address of DW_AT_name")
    told(refusal(unit.ranges, attr), "The value names no list. (NoList; ", "the ranges of DW_AT_name")
    told(refusal(unit.ranges, Attr(2, 0, NAME, STRP, 28)), "(NoList; at 0x0 of .debug_info, ")
    told(refusal(unit.root.address, NAME), "NoAddress; at 0xc of .debug_info, ", "of the entry at 0xc of the unit at 0x0")


# Refusals of whether a unit holds an address

def refused_holders(library, big):
    """What decides is refused where it stands: the table, a value of the root, or its list."""
    base, high = (ADDR_BASE, SEC_OFFSET, 4, 8), numbers(big, (0x1000, 8))
    unit, _ = one_value(library, big, high, LOW_PC, 1, (HIGH_PC, ADDRX, 1, 2))
    told(refusal(unit.holds_address, 0), "NoBase, DW_AT_addr_base; at index 0x2 of .debug_addr, which has no bytes",
         "the address of DW_AT_high_pc of the entry at 0xc of the unit at 0x0")
    unit, _ = one_value(library, big, high, LOW_PC, 1, (HIGH_PC, ADDRX, 1, 2), base, debug_addr=bytes(0x18))
    told(refusal(unit.holds_address, 0), "UnexpectedEof, error 1; at index 0x2 from 0x8 on of .debug_addr, which has 0x18 bytes")
    lists = bytes.fromhex("04 10 20 ff")
    for offset, name in (9, "UnexpectedEof, error 1"), (0, "UnknownRangeListsEntry, error 16"):
        unit, _ = one_value(library, big, numbers(big, (offset, 4)), RANGES, SEC_OFFSET, debug_rnglists=lists)
        told(refusal(unit.holds_address, 0x25), f"{name}; at {offset:#x} of .debug_rnglists, which has 0x4 bytes",
             "the ranges of DW_AT_ranges of the entry at 0xc of the unit at 0x0")
    same("before what is refused", unit.holds_address(0x15), True)
    unit, _ = one_value(library, big, b"\5", RANGES, RNGLISTX)
    told(refusal(unit.holds_address, 0), "NoBase, DW_AT_rnglists_base; at index 0x5 of .debug_rnglists")
    for wrong in b"\0", b"", b"\2":
        unit = Dwarf(library, unit_of_five(big, wrong), declared() + b"\0", big=big).unit(0)
        told(refusal(unit.holds_address, 0), "at 0xc of .debug_info, which has")
    unit = Dwarf(library, unit_of_five(big, b"\1"), big=big).unit(0)
    told(refusal(unit.holds_address, 0), "the unit at 0x0", "UnexpectedEof, error 1; at 0x0 of .debug_abbrev, which has no bytes")
    # (before the sets and the root, whatever they are)
    for abbrev in declared(children=2), declared(code=2) + declared(children=2):
        unit = Dwarf(library, unit_of_five(big, b"\3"), abbrev, debug_aranges=b"\1", big=big).unit(0)
        told(refusal(unit.holds_address, 0), "the unit at 0x0", "InvalidAbbreviationChildren, error 20; at 0x0 of .debug_abbrev")
    unit, _ = one_value(library, big, b"\5", NAME, 0x0b)
    with patch.object(unit.dwarf.library, "gimli_unit_holds", return_value=280):
        told(refusal(unit.holds_address, 0), "the unit at 0x0: Memory was refused", "error 24; at 0x0 of .debug_info")


def holders_without_bases(library, big):
    """Bases that are refused count where the answer needs one: not by sets, nor by addresses in place."""
    bad, low, size = (STR_OFFSETS_BASE, SEC_OFFSET, 4, 0), numbers(big, (0x1000, 8)), (HIGH_PC, 0x0b, 1, 0x10)
    unit, _ = one_value(library, big, low, LOW_PC, 1, size, bad)
    told(refusal(lambda: unit.bases), "BadBase, DW_AT_str_offsets_base")
    same("in place", [unit.holds_address(it) for it in (0xfff, 0x1000, 0x100f, 0x1010)], [False, True, True, False])
    sets = numbers(big, (0x2c, 4), (2, 2), (0, 4), (8, 1), (0, 1), (0, 4), (0x2000, 8), (8, 8), (0, 8), (0, 8))
    for number, name, form, others in (b"\2", LOW_PC, ADDRX, [size]), (bytes(4), RANGES, SEC_OFFSET, [bad]):
        unit, _ = one_value(library, big, number, name, form, *others, debug_rnglists=b"\0", debug_aranges=sets)
        same("by sets", [unit.holds_address(it) for it in (0x1000, 0x2000, 0x2007, 0x2008)], [False, True, True, False])
        unit, _ = one_value(library, big, number, name, form, *others, debug_rnglists=b"\0")
        same("by the root", str(refusal(unit.holds_address, 0x2000)), str(refusal(lambda: unit.bases)))
        unit, _ = one_value(library, big, number, name, form, *others, debug_aranges=sets + b"\1")
        same("before what is refused", unit.holds_address(0x2000), True)
        told(refusal(unit.holds_address, 0x2008), "UnexpectedEof, error 1; at 0x30 of .debug_aranges, which has 0x31 bytes")


def bases_handed_over(library, big):
    """A header has no bases of its own; where a value counts from none, none are asked for."""
    texts = {"debug_str_offsets": numbers(big, (0, 4), (5, 4), (1, 4)), "debug_str": b"\0ab\0\0cd\0"}
    addresses = bytes(8) + numbers(big, (0x10, 8), (0x20, 8))
    unit, attr = one_value(library, big, b"\1", NAME, STRX, debug_addr=addresses, **texts)
    dwarf, header, index = unit.dwarf, unit.header, Attr(1, 0, ENTRY_PC, ADDRX, 14)
    bases = Bases(str_offsets=8, addresses=8)
    same("by bases", (dwarf.text(header, Attr(0, 0, NAME, STRX, 31), bases), dwarf.address(header, index, bases)), (b"ab", 0x20))
    same("without", (dwarf.text(header, Attr(5, 0, NAME, STRP, 28)), dwarf.address(header, Attr(7, kind=1))), (b"cd", 7))
    for call, it in (dwarf.text, attr), (dwarf.address, index):
        fails(TypeError, "of a UnitHeader the bases are handed over", call, header, it)
    told(refusal(dwarf.address, unit, index), "NoBase, DW_AT_addr_base; at index 0x1 of .debug_addr, which has 0x18 bytes")


def main(library, data):
    table_of_bases(library, data / "bases.txt")
    for big in (False, True):
        missing_sections(library, big)
        missing_addresses(library, big)
        what_names_lists(library, big)
        missing_bases(library, big)
        bad_bases(library, big)
        bases_beyond(library, big)
        texts_without_end(library, big)
        refused_holders(library, big)
        holders_without_bases(library, big)
        bases_handed_over(library, big)
