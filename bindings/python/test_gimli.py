#!/usr/bin/env python3
"""test_gimli.py LIBRARY ATTRS DATA: tries each call of the module over libgimli.so, on the real files of a folder and on
some bytes in both byte orders. ATTRS is the program of c/attrs.c, whose attributes are compared. With `python3 -W error` no
call warns. test_units.py tries units, and test_values.py the values of attributes.
"""
import ctypes
import os
import subprocess
import sys
import tempfile
from collections import Counter
from pathlib import Path
from unittest.mock import Mock, patch

import gimli
import gimli_constants
import test_units
import test_values
from gimli import Attr, Bases, Declaration, Dwarf, Place, Refused, Specification, Table, UnitHeader
from test_helpers import fails, numbers, refusal, same, unit_of, with_and_without_numpy

ROOMS = [(0, 0), (1, 1), (3, 5), (64, 8192)]
SIBLING = bytes.fromhex("01 2e 01 01 11 00 00  02 34 00 00 00  00")
LISTS = bytes.fromhex("01 11 00 55 17 02 17 00 00  00")
TYPE = bytes.fromhex("01 41 00 13 05 00 00  00")


class Counting(Dwarf):
    """Counts the calls of the library by their names."""

    def __init__(self, *arguments, **sections):
        super().__init__(*arguments, **sections)
        self.calls = Counter()

    def call(self, name, *arguments):
        self.calls[name] += 1
        return super().call(name, *arguments)

    def made_by(self, items):
        """The calls that are made while so many items are read."""
        self.calls.clear()
        for _ in items:
            pass
        return Counter(self.calls)


# The real files

def sibling_of(rows, at):
    """The next row of the depth of a row, before the null that closes their list."""
    following = (row for row in rows[at + 1:] if row[1] == rows[at][1])
    row = next(following, None) if rows[at][2] else None
    return row if row and row[2] else None


def same_siblings(name, dwarf, unit, rows):
    same(f"{name}: no false reference", dwarf.first_false(unit), None)
    for at, (offset, depth, _, _) in enumerate(rows):
        for follows in (False, True):
            same(f"{name}: sibling of {offset:#x}", dwarf.sibling(unit, offset, depth, follows), sibling_of(rows, at))


def same_rows(name, dwarf, unit):
    rows = list(dwarf.rows(unit))
    for room, _ in ROOMS:
        same(f"{name}: rows, room {room}", list(dwarf.rows(unit, room)), rows)
        same(f"{name}: rows by a table, room {room}", list(dwarf.rows(unit, room, dwarf.table(unit))), rows)
    return rows


def same_arrays(name, dwarf, unit, rows):
    for room, _ in ROOMS:
        found = [row for block in dwarf.array(unit, room) for row in block.tolist()]
        same(f"{name}: array, room {room}", found, rows)


def fields(structs):
    """The numbers of structs, in an array of numpy or of ctypes, or in a list."""
    if hasattr(structs, "tolist"):
        return structs.tolist()
    return [tuple(getattr(it, name) for name, _ in it._fields_) for it in structs]


def pairs_of(rows, attrs):
    """The same of each row, with its unit where it has one, and of its attributes, as `raw_entries` has them."""
    attrs = fields(attrs)
    return [((offset, depth, tag, flag, *unit), attrs[first:first + count])
            for offset, depth, first, count, tag, flag, *unit in fields(rows)]


def same_attributes(name, dwarf):
    """The arrays of each unit and of all units."""
    wanted = []
    for how in with_and_without_numpy():
        for unit in dwarf.units():
            pairs = [(row, fields(attrs)) for row, attrs in dwarf.raw_entries(unit)]
            same(f"{name}: attributes{how}", pairs_of(*dwarf.attributes(unit)), pairs)
            wanted += [((*row, unit.offset), attrs) for row, attrs in pairs]
        same(f"{name}: all attributes{how}", pairs_of(*dwarf.attributes()), wanted)
        wanted.clear()


def few_calls(name, dwarf, unit, table):
    """A unit of more than three rows that is read three at a time: the first call reads the table of abbreviations, the others go
    by one that is read in two calls at most, or all by one that is handed over."""
    for call, read in ("rows", dwarf.rows), ("entries", dwarf.raw_entries):
        calls = dwarf.made_by(read(unit, 3))
        same(f"{name}: calls of {call}", (calls[call], calls["table"] in (1, 2), calls[call + "_by"] > 0), (1, True, True))
        calls = dwarf.made_by(read(unit, 3, table=table))
        same(f"{name}: calls of {call} by a table", (calls[call], calls["table"], calls[call + "_by"] > 1), (0, 0, True))


def lines_of(dwarf, pairs):
    """Rows and their attributes as attrs.c prints them."""
    for row, attrs in pairs:
        yield b"%x %d %x %d" % row
        for attr in attrs:
            kind, value = dwarf.value(attr)
            text = b" " + value if kind == "String" else b"".join(b" %02x" % it for it in value) \
                if kind in ("Block", "Exprloc") else b""
            yield b"  %x %x %d %d %d" % (attr.name, attr.form, attr.kind, attr.number, attr.more) + text
    yield b"status 1"


def same_entries(name, dwarf, unit, rows):
    """The lines of the unit; those of all rooms, each list as a whole, are the same."""
    lines = list(lines_of(dwarf, dwarf.raw_entries(unit)))
    pairs = list(dwarf.entries(unit))
    same(f"{name}: rows of entries", [row for row, _ in pairs], rows)
    for room, space in ROOMS:
        kept = list(dwarf.raw_entries(unit, room, space))
        same(f"{name}: entries, room {room}", list(lines_of(dwarf, kept)), lines)
        same(f"{name}: values, room {room}", list(dwarf.entries(unit, room, space)), pairs)
        same(f"{name}: values by a table, room {room}", list(dwarf.entries(unit, room, space, dwarf.table(unit))), pairs)
    return lines


def real_files(library, attrs, data):
    files = 0
    for info in sorted(data.glob("*.info")):
        abbrev, lines = info.with_suffix(".abbrev"), []
        dwarf = Counting(library, info.read_bytes(), abbrev.read_bytes())
        for unit in dwarf.units():
            rows = same_rows(info.name, dwarf, unit)
            if gimli.numpy_if_there():
                same_arrays(info.name, dwarf, unit, rows)
            lines += same_entries(info.name, dwarf, unit, rows)
            same_siblings(info.name, dwarf, unit, rows)
            if len(rows) > 3:
                few_calls(info.name, dwarf, unit, dwarf.table(unit))
        same_attributes(info.name, dwarf)
        for rooms in ([], ["0", "0"]):
            printed = subprocess.run([attrs, info, abbrev, *rooms], capture_output=True, check=True, timeout=60).stdout
            same(f"{info.name}: the lines of attrs", lines, printed.split(b"\n")[:-1])
        files += 1
    return files


# Bytes in both byte orders

def siblings(library, big):
    """A reference to the right sibling, and to one byte too far."""
    for target, false in ((0x0f, None), (0x10, 0x0b)):
        info = unit_of(big, bytes([1, target, 2, 0, 2, 2, 0]))
        dwarf = Dwarf(library, info, SIBLING, big=big)
        unit = dwarf.unit(0)
        same("first_false", dwarf.first_false(unit), false)
        same("a sibling", dwarf.sibling(unit, 0x0b, 5), (0x0f, 5, 0x34, 0))
        same("a sibling by its reference", dwarf.sibling(unit, 0x0b, 5, True), (target, 5, 0x34, 0))
        same("no sibling", dwarf.sibling(unit, 0x10), None)
        same("a sibling at the end", refusal(dwarf.sibling, unit, unit.length).name, "OffsetOutOfBounds")


def types(library, big):
    """A type unit of version 4, whose type stands at 0x17."""
    header = numbers(big, (0x18, 4), (4, 2), (0, 4), (8, 1), (0x0102030405060708, 8), (0x17, 4))
    dwarf = Dwarf(library, debug_types=header + bytes([1, 0x12, 0x34, 0, 0]), debug_abbrev=TYPE, big=big, types=True)
    (unit,) = dwarf.units()
    same("its signature", (unit.id, unit.type_offset, unit.kind), (0x0102030405060708, 0x17, 2))
    value = 0x1234 if big else 0x3412
    rows = [((0x17, 0, 0x41, 0), [(0x13, 5, "Data2", value)]), ((0x1a, 0, 0, 0), []), ((0x1b, -1, 0, 0), [])]
    same("its entries", list(dwarf.entries(unit)), rows)


def lists(library, big):
    """Ranges and locations, more than a call has room for at first, and before one that is cut."""
    count = 40
    pairs = [(0x10 * i + 1, 0x10 * i + 9) for i in range(count)]
    ranges = b"".join(numbers(big, (begin, 8), (end, 8)) for begin, end in pairs)
    locations = b"".join(numbers(big, (begin, 8), (end, 8), (1, 2)) + b"\x9c" for begin, end in pairs)
    end = bytes(16)
    info = unit_of(big, b"\x01" + bytes(8))
    dwarf = Dwarf(library, info, LISTS, debug_ranges=ranges + end, debug_loc=locations + end, big=big)
    unit = dwarf.unit(0)
    ((_, attrs),) = dwarf.raw_entries(unit)
    bases = Bases(0x1000)
    wanted = [(0x1000 + begin, 0x1000 + end) for begin, end in pairs]
    same("ranges", dwarf.ranges(unit, attrs[0], bases), wanted)
    same("locations", dwarf.locations(unit, attrs[1], bases), [(*pair, b"\x9c") for pair in wanted])
    cut = Dwarf(library, info, LISTS, debug_ranges=ranges + b"\0", debug_loc=locations + b"\0", big=big)
    refused = refusal(cut.ranges, unit, attrs[0], bases)
    same("ranges before a refusal", (refused.name, refused.found), ("UnexpectedEof", wanted))
    refused = refusal(cut.locations, unit, attrs[1], bases)
    same("locations before a refusal", (refused.name, refused.found), ("UnexpectedEof", [(*pair, b"\x9c") for pair in wanted]))
    refused = refusal(dwarf.ranges, unit, Attr(kind=3))
    same("no list", (refused.name, refused.number, refused.found), ("NoList", 0, []))


def lists_of_five(library):
    """The same of version 5, by an index of addresses too."""
    info = bytes.fromhex("11000000 0500 01 08 00000000  01 00000000 00000000")
    rnglists, loclists = bytes.fromhex("04 10 20 03 01 08 00"), bytes.fromhex("04 01 02 01 9c 00")
    addresses = bytes(8) + numbers(False, (0x5000, 8), (0x6000, 8))
    dwarf = Dwarf(library, info, LISTS, debug_addr=addresses, debug_rnglists=rnglists, debug_loclists=loclists)
    header, bases = dwarf.header(0), Bases(0x1000, 8)
    ((_, attrs),) = dwarf.raw_entries(header)
    same("ranges", dwarf.ranges(header, attrs[0], bases), [(0x1010, 0x1020), (0x6000, 0x6008)])
    same("locations", dwarf.locations(header, attrs[1], bases), [(0x1001, 0x1002, b"\x9c")])
    dwarf.sections.addresses.length = 16
    same("a range before an address that is not there", refusal(dwarf.ranges, header, attrs[0], bases).found,
         [(0x1010, 0x1020)])
    # (bases are never left out by mistake)
    for call in dwarf.ranges, dwarf.locations:
        fails(TypeError, "of a UnitHeader the bases are handed over", call, header, attrs[0])


def lists_of_empty_ranges(library):
    """A list whose ranges are all empty answers as an empty list does."""
    info = bytes.fromhex("11000000 0500 01 08 00000000  01 00000000 00000000")
    empty = bytes.fromhex("04 10 10 04 30 20 00"), bytes.fromhex("04 01 01 01 9c 04 03 02 01 9c 00")
    for rnglists, loclists in (empty, (b"\0", b"\0")):
        dwarf = Dwarf(library, info, LISTS, debug_rnglists=rnglists, debug_loclists=loclists)
        ((_, attrs),) = dwarf.raw_entries(dwarf.unit(0))
        same("no range", dwarf.ranges(dwarf.unit(0), attrs[0]), [])
        same("no location", dwarf.locations(dwarf.unit(0), attrs[1]), [])


def places(library):
    """A place that is handed over stays as it is."""
    dwarf = Dwarf(library, unit_of(False, bytes([1, 0x0f, 2, 0, 2, 2, 0])), SIBLING)
    unit, place = dwarf.unit(0), Place(0x0d, 3)
    for _ in range(2):
        rows = [row for row, _ in dwarf.raw_entries(unit, 1, place=place)]
        same("rows from a place on", [row[:2] for row in rows], [(0x0d, 3), (0x0e, 3), (0x0f, 2), (0x10, 2), (0x11, 2)])
        same("the place", (place.offset, place.depth), (0x0d, 3))


def tables(library):
    """Tables that are read, of codes that are not in order, and that a caller has made."""
    info = unit_of(False, bytes([1, 0x0f, 2, 0, 2, 2, 0]))
    dwarf = Dwarf(library, info, SIBLING)
    unit = dwarf.unit(0)
    table = dwarf.table(unit)
    told = [(d.code, d.tag, d.has_children, [(a.name, a.form) for a in table.specifications[d.first:d.first + d.attributes]])
            for d in table.declarations[:table.declared]]
    same("declarations", told, [(1, 0x2e, 1, [(1, 0x11)]), (2, 0x34, 0, [])])
    rows = [(0x0b, 0, 0x2e, 1), (0x0d, 1, 0x34, 0), (0x0e, 1, 0, 0), (0x0f, 0, 0x34, 0), (0x10, 0, 0x34, 0), (0x11, 0, 0, 0)]
    same("rows by it", list(dwarf.rows(unit, 2, table)), rows)
    # data2, an address, a text, a flag without bytes, an offset of ref_addr, one of strp, ref8: the text ends what is before it
    steps = Dwarf(library, info, bytes.fromhex("01 2e 00 3a05 1101 0308 3f19 3110 6e0e 4914 0000  00")).table(unit)
    told = [(a.step.values, a.step.bytes, a.step.addresses, a.step.offsets, a.step.ref_addrs, a.step.has_ref8)
            for a in steps.specifications[:7]]
    wanted = [(2, 2, 1, 0, 0, 0), (1, 0, 1, 0, 0, 0), (0, 0, 0, 0, 0, 0), (4, 8, 0, 1, 1, 1), (3, 8, 0, 1, 1, 1),
              (2, 8, 0, 1, 0, 1), (1, 8, 0, 0, 0, 1)]
    same("steps", told, wanted)
    unordered = Dwarf(library, info, bytes.fromhex("02 34 00 0000  01 2e 01 0111 0000  00"))
    same("a table that is not in order", unordered.table(unit), None)
    same("rows without it", list(unordered.rows(unit, 2, unordered.table(unit))), rows)
    same("a table that is cut", refusal(Dwarf(library, info, SIBLING[:-1]).table, unit).name, "UnexpectedEof")
    tagless = Dwarf(library, info, bytes.fromhex("01 00"))
    same("a declaration without a tag", refusal(tagless.table, unit).name, "AbbreviationTagZero")
    # an entry of the tag 0 is a null, what is not there has no attributes, and a code without a declaration is refused
    made = Table((Declaration * 1)((7, 5, 3, 0, 1)))
    same("rows by a table that was made", refused_rows(dwarf, unit, made), ([(0x0b, 0, 0, 0)], "InvalidAbbreviationCode"))
    greatest = 2 ** 64 - 1
    made = Table((Declaration * 2)((0, greatest, greatest, 0x2e, 255), (0, 0, greatest, 0x34, 0)),
                 (Specification * 1)((0, 1, 0x11)))
    rows = [(0x0b, 0, 0x2e, 1)]
    same("rows by odd numbers", refused_rows(dwarf, unit, made), (rows, "InvalidAbbreviationCode"))
    same("rows by no table at all", refused_rows(dwarf, unit, Table()), ([], "InvalidAbbreviationCode"))


def tables_read_once(library):
    """Without a table rows and entries go by one from their second call on, if the first gave few; they stay the same."""
    other = bytes.fromhex("01 05 00 0000  00")
    dwarf = Counting(library, unit_of(False, bytes([1, 0x0f, 2, 0, 2, 2, 0]), len(other)), other + SIBLING)
    unit, made = dwarf.unit(0), UnitHeader(header_size=0x0b)
    rows = list(dwarf.rows(unit))
    same("the first row", rows[0], (0x0b, 0, 0x2e, 1))
    for room in (1, 3):
        # a unit that a caller made, which says of another table
        same("rows of it", list(dwarf.rows(made, room)), rows)
        same("entries of it", [row for row, _ in dwarf.raw_entries(made, room)], rows)
    same("the table of it", dwarf.made_by(dwarf.rows(made, 1))["table"], 2)
    unordered = Counting(library, unit_of(False, bytes([1, 0x0f, 2, 0])), SIBLING[7:12] + SIBLING[:7] + b"\0")
    calls = unordered.made_by(unordered.rows(unordered.unit(0), 1))
    same("calls where codes are not in order", (calls["rows"], calls["table"], calls["rows_by"]), (3, 1, 0))
    many = Counting(library, unit_of(False, bytes([2]) * 5000), SIBLING)
    for room, tables in (4096, 0), (4095, 2):
        same("tables for many rows", many.made_by(many.rows(many.unit(0), room))["table"], tables)
        same("tables for many entries", many.made_by(many.raw_entries(many.unit(0), room))["table"], tables)
    for error in MemoryError(), Refused(gimli.REFUSED + 24):
        dwarf.table = Mock(side_effect=error)
        same("rows where there is no table", list(dwarf.rows(unit, 1)), rows)
        same("entries there", [row for row, _ in dwarf.raw_entries(unit, 1)], rows)
        same("how often it is asked for", dwarf.table.call_count, 2)


def refused_rows(dwarf, unit, table):
    """The rows before a refusal, and its name."""
    rows = []
    try:
        rows.extend(dwarf.rows(unit, 1, table))
    except Refused as refused:
        return rows, refused.name
    return rows, None


def many_attributes(library):
    """Units with more rows and attributes for their bytes than `attributes` has room for at first, and one without an entry."""
    # an entry of a byte, with no attribute or with a hundred flags that take no byte
    flags = bytes.fromhex("02 34 00") + bytes.fromhex("3f 19") * 100 + bytes.fromhex("00 00")
    abbrev = bytes.fromhex("01 05 00 00 00") + flags + b"\0"
    for codes in (b"\1" * 500, b"\2" * 500, b"\1" * 400 + b"\2" * 50, b""):
        same_attributes(f"{len(codes)} entries", Dwarf(library, unit_of(False, codes), abbrev))
    same_attributes("no unit", Dwarf(library))
    two = Dwarf(library, unit_of(False, b"\2\1") + unit_of(False, b"\2\2\1"), abbrev)
    same_attributes("two units", two)
    table = two.table(two.unit(0))
    same("by a table", pairs_of(*Dwarf(library, unit_of(False, b"\1")).attributes(two.unit(0), table)), [((0x0b, 0, 5, 0), [])])


def refused_attributes(library):
    """What stands before a refusal, of a unit and of all units."""
    abbrev = bytes.fromhex("01 34 00 03 08 00 00  00")
    units = unit_of(False, b"\1a\0\1b\0"), unit_of(False, b"\1c\0\2"), b"\1"
    row = (0x0b, 0, 0x34, 0), [(0x0c, 1, 3, 8, 33)]
    for _ in with_and_without_numpy():
        dwarf = Dwarf(library, units[1], abbrev)
        refused = refusal(dwarf.attributes, dwarf.unit(0))
        same("where it stands", (refused.name, refused.unit, refused.entry), ("InvalidAbbreviationCode", 0, 0x0e))
        same("what is before it", pairs_of(*refused.found), [row])
        refused = refusal(Dwarf(library, b"".join(units), abbrev).attributes)
        same("where it stands", (refused.name, refused.unit, refused.entry), ("InvalidAbbreviationCode", 0x11, 0x0e))
        found = pairs_of(*refused.found)
        same("units before it", [row[4] for row, _ in found], [0, 0, 0x11])
        same("attributes before it", [attrs[0][0] for _, attrs in found], [0x0c, 0x0f, 0x1d])
        refused = refusal(Dwarf(library, units[0] + units[2], abbrev).attributes)
        same("where it stands", (refused.name, refused.unit, refused.entry), ("UnexpectedEof", 0x11, None))
        same("units before it", [row[4] for row, _ in pairs_of(*refused.found)], [0, 0])


def refusals(library):
    """The words of refusals, and where they stand."""
    info = unit_of(False, bytes([1, 0x0f, 2, 0])) + unit_of(False, bytes([1, 0x0f, 9]))
    dwarf = Dwarf(library, info, SIBLING)
    first, unit = dwarf.units()
    words = "the entry at 0xd of the unit at 0xf: The code of an abbreviation is not declared. " \
        "(InvalidAbbreviationCode, error 13; at 0x1c of .debug_info, which has 0x1d bytes)"
    for refused in (refusal(list, dwarf.rows(unit)), refusal(list, dwarf.entries(unit)), refusal(list, dwarf.rows(unit, 1))):
        same("its words", str(refused), words)
        same("where it stands", (refused.section, refused.offset, refused.unit, refused.entry), (".debug_info", 0x1c, 0xf, 0xd))
    for call, wrong in ((dwarf.unit, 2 ** 64), (dwarf.unit, -1), (dwarf.unit_of_address, 2 ** 64), (dwarf.unit_holding, 2 ** 64),
                        (dwarf.units_of_address, -1), (first.entry, 2 ** 64)):
        fails(OverflowError, f"{wrong} is no number of 64 bits", call, wrong)
    cut = "The input ends before what should stand there. (UnexpectedEof, error 1"
    in_info = "of .debug_info, which has 0x1d bytes)"
    same("its words", str(refusal(dwarf.unit, 1)), f"the unit at 0x1: {cut}; at 0x1 {in_info}")
    same("its words", str(refusal(dwarf.ranges, unit, Attr(kind=3))),
         f"the ranges of the unit at 0xf: The value names no list. (NoList; at 0xf {in_info}")
    same("its words", str(refusal(dwarf.sibling, unit, 0x0d)),
         words.replace("the entry at 0xd of ", "").replace("bytes)", "bytes; or after it)"))
    aranges = Dwarf(library, debug_aranges=b"\1")
    same("its words", str(refusal(aranges.unit_of_address, 0)), f"{cut}; at 0x0 of .debug_aranges, which has 0x1 bytes)")
    without = Dwarf(library, info)
    for call in without.table, without.first_false, without.attributes, lambda unit: list(without.rows(unit)):
        same("its words", str(refusal(call, unit)), f"the unit at 0xf: {cut}; at 0x0 of .debug_abbrev, which has no bytes)")
    beyond = "An offset is out of bounds. (OffsetOutOfBounds, error 11"
    same("its words", str(refusal(list, dwarf.raw_entries(unit, place=Place(0x100, 0)))),
         f"the unit at 0xf: {beyond}; at 0x10f {in_info}")
    same("its words", str(Refused(255)), "The status is unknown. (UnknownStatus)")
    same("its words", str(Refused(gimli.ROW_REFUSED + 1, entry=4)), f"the entry at 0x4: {cut})")
    same("its words", str(Refused(gimli.TOO_DEEP, unit=0)), "the unit at 0x0: The depth of the place is too great. (TooDeep)")


def texts(library, data):
    """What is printed of each class is one short line."""
    info = sorted(data.glob("*.info"))[0]
    dwarf = Dwarf(library, info.read_bytes(), info.with_suffix(".abbrev").read_bytes())
    unit = dwarf.unit(0)
    table = dwarf.table(unit)
    _, attrs = next(dwarf.raw_entries(unit))
    refused = refusal(unit.text, Attr(0xffffffff, 0, 3, 0x1f, 32))
    read = dwarf, unit, unit.header, unit.bases, unit.root, table, table.declarations[0], table.specifications[0], *attrs, \
        dwarf.sections, refused
    made = [kind() for kind in gimli.Record.__subclasses__()]
    for text in {repr(it) for it in (*read, *made, Refused(gimli.REFUSED + 1))}:
        same(text, (len(text) <= 240, "\n" in text, " object at 0x" in text), (True, False, False))
    attr = Attr(0x12, 0, 3, 0x0e, 28)
    same("an attribute", repr(attr), "Attr(number=18, more=0, name=DW_AT_name, form=DW_FORM_strp, kind=DebugStrRef)")
    same("an entry", repr(gimli.Entry(0x2d, 1, 4, 2, 0x2e, 1)),
         "Entry(offset=0x2d, depth=1, first=4, attributes=2, tag=DW_TAG_subprogram, has_children=1)")
    dwarf = Dwarf(library, b"12" * 9, debug_loc=b"1", big=True)
    same("sections", repr(dwarf), "Dwarf(info: 0x12, loc: 0x1, big endian)")
    names = "info abbrev addr aranges ranges rnglists loc loclists types str line_str str_offsets str_sup".split()
    whole = Dwarf(library, **{f"debug_{name}": bytes(0x1234) for name in names})
    same("the length of its line", (len(repr(whole)) <= 240, len(repr(whole.sections)) <= 240), (True, True))
    same("a table", repr(Table()), "Table(0 declarations, 0 specifications)")


def libraries(path):
    """The library as a path, as it was loaded, and where it is found; and what is none."""
    for library in (path, Path(path), gimli.load(path), ctypes.CDLL(path)):
        same("no unit", list(Dwarf(library).units()), [])
    with patch.dict(os.environ, GIMLI_LIBRARY=path):
        same("the file that is named", str(gimli.find()), path)
        same("no unit", list(Dwarf().units()), [])
    folder = str(Path(path).parent)
    with patch.dict(os.environ, GIMLI_LIBRARY=folder):
        same("the folder that is named", gimli.find(), Path(folder) / "libgimli.so")
    with patch.dict(os.environ, GIMLI_LIBRARY="/none"):
        fails(OSError, "was looked for at /none.", Dwarf)
    with patch.dict(os.environ), tempfile.TemporaryDirectory() as room:
        os.environ.pop("GIMLI_LIBRARY", None)
        here = Path(room, "python")
        with patch("gimli_library.__file__", str(here / "gimli_library.py")):
            looked = here / "libgimli.so", here.parent / "target/libgimli.so"
            fails(OSError, f"was looked for at {looked[0]} and {looked[1]}.", Dwarf)
            for place in reversed(looked):
                place.parent.mkdir()
                place.symlink_to(path)
                same("where it is found", gimli.find(), place)
        before = os.getcwd()
        os.chdir(here)
        same("no unit", list(Dwarf("libgimli.so").units()), [])
        os.chdir(before)
    for wrong in (b"\0" * 16, bytearray(1), 1, [path], object()):
        fails(TypeError, "the library is a path, or what gimli.load gives", Dwarf, wrong)
    fails(OSError, "/none", Dwarf, "/none")
    fails(OSError, "is no libgimli.so", Dwarf, ctypes.CDLL(None))
    fails(OSError, __file__, Dwarf, __file__)


def constants():
    """Codes by their names, and names of codes."""
    same("a tag", (gimli.TAG["DW_TAG_subprogram"], gimli.tag_name(0x2e)), (0x2e, "DW_TAG_subprogram"))
    same("the same by itself", gimli.DW_TAG_subprogram, 0x2e)
    same("an attribute", (gimli.AT["DW_AT_name"], gimli.at_name(3)), (3, "DW_AT_name"))
    same("a form", (gimli.FORM["DW_FORM_strp"], gimli.form_name(0x0e)), (0x0e, "DW_FORM_strp"))
    same("a code without a name", gimli.tag_name(0x1234), "Unknown DwTag: 0x1234")
    same("two names of a code", (gimli.CC["DW_CC_GNU_renesas_sh"], gimli.cc_name(0x40)), (0x40, "DW_CC_lo_user"))
    same("a byte order", (gimli_constants.END["DW_END_little"], gimli.end_name(2)), (2, "DW_END_little"))
    same("the status", gimli.END, 1)


def main(path, attrs, data):
    path, data = os.path.abspath(path), Path(data)
    library = gimli.load(path)
    files = real_files(library, attrs, data)
    for big in (False, True):
        siblings(library, big)
        types(library, big)
        lists(library, big)
    test_units.main(library, data)
    test_values.main(library, data)
    lists_of_five(library)
    lists_of_empty_ranges(library)
    places(library)
    tables(library)
    tables_read_once(library)
    many_attributes(library)
    refused_attributes(library)
    refusals(library)
    texts(library, data)
    libraries(path)
    constants()
    arrays = "with numpy" if gimli.numpy_if_there() else "without numpy"
    print(f"Python {sys.version.split()[0]} {arrays}: {files} files, each call as wanted")


if __name__ == "__main__":
    main(*sys.argv[1:])
