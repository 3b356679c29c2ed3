"""The proved DWARF reader for Python, by ctypes over libgimli.so.

    dwarf = gimli.Dwarf(debug_info=info, debug_abbrev=abbrev, debug_str=str)
    for unit in dwarf.units():
        for entry in unit.entries():
            print(gimli.tag_name(entry.tag), entry.text(gimli.DW_AT_name))

A `Unit` reads once what its values count from: `unit.text`, `unit.address`, `unit.ranges` and `unit.locations` take an attribute
of an entry. Those of an entry, a `Die`, take the attribute's name, and their refusals name the entry; `Die.die_ranges` goes by
DW_AT_low_pc and DW_AT_high_pc too, where `ranges` is of a list alone.

`names_locations` and `names_ranges` of an attribute say whether its value names such a list. The value of DW_AT_location may be
an expression instead, so ask first:

    if attr.names_locations:
        for begin, end, expression in unit.locations(attr):

Below it are the calls of the library, which take a `Unit` or its `UnitHeader`: rows are tuples (offset, depth, tag,
has_children). `attributes` gives all entries and all attributes of a unit, or of all units, as two arrays without a loop in
Python: structured arrays of numpy, where it is there. `array` gives rows alone. What is refused raises `Refused`, which says
where.

The sections are those of a linked program. Those of a relocatable object (.o) have to be relocated first, as pyelftools does with
relocate_dwarf_sections=True. A file without .debug_info has no units, which is no refusal.

The library is found where `places` says. The codes of DWARF are named as in gimli_constants: `TAG`, `DW_TAG_subprogram`,
`tag_name` and the like. (Its `END`, of DW_END, is not among them: here that is a status.)

Where room is asked for, one of 0 is one of 1, since with none no call gives a row. What each call of the library gives is
proved; this module is not. Sections are copied, so no byte of them changes. No call is made in the forked child of a process
with threads.
"""
import copy
import sys
from ctypes import byref, c_int64, c_size_t, c_uint64
from functools import cached_property
from pathlib import Path

# (what is not used below is there for those who import this module; theirs of `END` comes first, and that below takes its place)
from gimli_constants import *
from gimli_arrays import buffer, dtype_of, joined, numpy_if_there, view
from gimli_library import find, load, places
from gimli_structs import (BAD_BASE, END, KINDS, LOCATION_NAMES, MORE, NAMES, NO_ADDRESS, NO_BASE, NO_LIST, NO_STRING,
                           OTHER_REFUSALS, REFUSALS, REFUSED, ROW_REFUSED, SECTIONS, TOO_DEEP, UNKNOWN_STATUS, UNORDERED, Attr,
                           Bases, Bytes, Counted, Declaration, Entry, Filled, Location, Place, Range, Record, Refused, Row,
                           Sections, Specification, Step, String, Table, UnitEntry, UnitHeader, Where, names_locations,
                           names_ranges, number)
from gimli_unit import OUT_OF_BOUNDS, Die, Unit
from gimli_where import refused_bases, refused_set, refused_value

# Where a call gives so many rows, it costs little to read the table of abbreviations in each.
MANY = 4096


def row_of(row):
    return row.offset, row.depth, row.tag, row.has_children


class Dwarf:
    """The sections of a file, as bytes; with `types` the units are those of .debug_types. The library is a path, or what `load`
    gives, and need not be named where `find` finds it. Of a split file .debug_addr and .debug_ranges are the program's, which
    `units` lends it."""

    def __init__(self, library=None, debug_info=b"", debug_abbrev=b"", debug_addr=b"", debug_aranges=b"", debug_ranges=b"",
                 debug_rnglists=b"", debug_loc=b"", debug_loclists=b"", debug_types=b"", big=False, types=False, *, debug_str=b"",
                 debug_line_str=b"", debug_str_offsets=b"", debug_str_sup=b""):
        self.library, self.big = load(library), bool(big)
        given = {"debug_info": debug_info, "debug_types": debug_types, "debug_abbrev": debug_abbrev, "debug_addr": debug_addr,
                 "debug_aranges": debug_aranges, "debug_ranges": debug_ranges, "debug_rnglists": debug_rnglists,
                 "debug_loc": debug_loc, "debug_loclists": debug_loclists, "debug_str": debug_str,
                 "debug_line_str": debug_line_str, "debug_str_offsets": debug_str_offsets, "debug_str_sup": debug_str_sup}
        # (a number of bytes is no section)
        self.given = {name: bytes(memoryview(data)) for name, data in given.items()}
        self.take_units(bool(types))

    def take_units(self, types):
        """Makes the units those of .debug_types, or of .debug_info."""
        self.kept = {name: self.given[keyword] for name, keyword in SECTIONS.items()}
        if types:
            self.kept["units"] = self.given["debug_types"]
        self.sections = Sections(*map(Bytes.of, self.kept.values()), self.big, types)

    def with_types(self, types):
        """The same file, with the units of .debug_types, or of .debug_info."""
        if bool(self.sections.types) == types:
            return self
        other = copy.copy(self)
        other.take_units(types)
        return other

    def with_program(self, program):
        """The same split file with .debug_addr and .debug_ranges of its program, where it has none of its own."""
        lent = {name: program.given[name] for name in ("debug_addr", "debug_ranges") if not self.given[name]}
        if not any(lent.values()):
            return self
        other = copy.copy(self)
        other.given = {**self.given, **lent}
        vars(other).pop("info_units", None)
        other.take_units(bool(self.sections.types))
        return other

    def __repr__(self):
        sizes = [f"{name[len('debug_'):]}: {len(data):#x}" for name, data in self.given.items() if data]
        return f"Dwarf({', '.join([*sizes, 'big endian' if self.big else 'little endian'])})"

    # Where something stands

    def section_name(self, name):
        """The name of a section by its field of `Sections`."""
        if name == "units" and self.sections.types:
            return ".debug_types"
        return ".debug_str of the supplementary file" if name == "sup_str" else f".{SECTIONS[name]}"

    def where(self, name, offset, index=None):
        """An offset of a section, as a refusal says it."""
        return Where(self.section_name(name), getattr(self.sections, name).length, offset, index)

    def number_at(self, name, offset, size):
        """The number of so many bytes at an offset of a section, or None where it is not there."""
        data = self.kept[name][offset:offset + size]
        return int.from_bytes(data, "big" if self.big else "little") if len(data) == size else None

    def refused(self, status, unit, offset, found=()):
        """The refusal of a call that reads a unit from an offset on: after that, of an entry, or before, of the unit's header, of
        the offset or of the unit's table of abbreviations."""
        if status >= ROW_REFUSED:
            return Refused(status, self.where("units", unit + offset), unit=unit, entry=offset, found=found)
        header = UnitHeader()
        if self.call("unit", unit, byref(header)) != MORE:
            where = self.where("units", unit)
        elif status in (TOO_DEEP, OUT_OF_BOUNDS):
            where = self.where("units", unit + offset)
        else:
            where = self.where("abbrev", header.abbreviations)
        return Refused(status, where, unit=unit, found=found)

    # Calls of the library

    def call(self, name, *arguments):
        return getattr(self.library, "gimli_" + name)(byref(self.sections), *arguments)

    def found(self, refused, name, answer, *arguments):
        """What a call finds, or None; what it refuses is told by `refused` of its status."""
        status = self.call(name, *arguments, byref(answer))
        if status == MORE:
            return answer
        if status == END:
            return None
        raise refused(status)

    def header(self, offset):
        """The header of the unit at an offset, or None at the section's end."""
        return self.found(lambda status: Refused(status, self.where("units", offset), unit=offset), "unit", UnitHeader(),
                          number(offset))

    def unit(self, offset, skeleton=None, dwo=None):
        """The unit at an offset of .debug_info, or of .debug_types of a `Dwarf` with types; None at the section's end. One of a
        split file is handed its `skeleton`, a `Unit` of the program, which lends what `units` says; without it `dwo` says of a
        unit of version 4 that it is one."""
        header = self.header(offset)
        return header and Unit(self.with_program(skeleton.dwarf) if skeleton else self, header, skeleton, dwo)

    def units(self, skeletons=None, dwo=None):
        """The units of .debug_info, or of .debug_types of a `Dwarf` with types, one after the other, up to one that is refused.

        Of a split file (.dwo) `skeletons` is the `Dwarf` of the program: each unit then has its unit of the same id as its
        skeleton, where there is one, and the program's .debug_addr and .debug_ranges, where the split file has none of its own.
        Without it `dwo` is that of `unit`. Without both a split file of version 4 is read as a program, and its lists are wrong.
        """
        program = skeletons and skeletons.with_types(False)
        by_id = {unit.dwo_id: unit.offset for unit in program.units() if unit.dwo_id is not None} if program else {}
        dwarf, offset = self.with_program(program) if program else self, 0
        while (unit := dwarf.unit(offset, dwo=True if program else dwo)) is not None:
            if program:
                unit.find_skeleton(program, by_id)
            yield unit
            offset = unit.offset + unit.length

    def type_units(self, skeletons=None, dwo=None):
        """The units of .debug_types, which version 4 has; those of version 5 are among `units`."""
        return self.with_types(True).units(skeletons, dwo)

    def all_units(self, skeletons=None, dwo=None):
        """The units of .debug_info, as `units` gives them, and then those of .debug_types."""
        yield from self.with_types(False).units(skeletons, dwo)
        yield from self.type_units(skeletons, dwo)

    def unit_holding(self, offset, dwo=None):
        """The unit of .debug_info that holds an offset, its header included, as that of DW_FORM_ref_addr; None after the last."""
        dwarf = self.with_types(False)
        header = dwarf.found(dwarf.refused_header, "unit_holding", UnitHeader(), number(offset))
        return header and Unit(dwarf, header, dwo=dwo)

    def refused_header(self, status):
        """The refusal of the first header that is refused."""
        try:
            for _ in self.units():
                pass
        except Refused as refused:
            return refused
        return Refused(status, self.where("units", 0))

    def bases(self, unit, skeleton=None, dwo=False):
        """What the values of a unit count from, as its root says. `skeleton` are the bases of its skeleton, where it is of a
        split file (`dwo`) and they are at hand. A `Unit` has them as `bases`."""
        has_skeleton = skeleton is not None
        return self.found(lambda status: refused_bases(self, status, unit, has_skeleton), "unit_bases", Bases(), unit.offset,
                          bool(dwo), byref(skeleton if has_skeleton else Bases()), has_skeleton)

    def table(self, unit):
        """The table of a unit's abbreviations for `rows` and `entries`, which then read no table again; None where its codes are
        not 1, 2, .. in this order."""
        counted = Counted()
        declarations, specifications, status = (Declaration * 1)(), (Specification * 1)(), MORE
        while status == MORE:
            declarations = (Declaration * max(counted.declarations, 1))()
            specifications = (Specification * max(counted.specifications, 1))()
            status = self.call("table", unit.abbreviations, declarations, len(declarations), specifications,
                               len(specifications), byref(counted))
        if status == END:
            return Table(declarations, specifications).take(counted.declarations, counted.specifications)
        if status == UNORDERED:
            return None
        raise Refused(status, self.where("abbrev", unit.abbreviations), unit=unit.offset)

    def read(self, name, unit, table, *arguments):
        """A call that reads a unit, by a table where there is one."""
        if table is None:
            return self.call(name, unit.offset, *arguments)
        return self.call(name + "_by", unit.offset, byref(table), *arguments)

    def table_after(self, unit, rows):
        """The table for the calls after a first one that gave so many rows of a unit; None where each call reads it itself."""
        if rows >= MANY:
            return None
        try:
            # (`unit` may be one that the caller made: the library's own says where the table is)
            header = self.header(unit.offset)
            return header and self.table(header)
        except (Refused, MemoryError):
            return None

    def blocks(self, unit, room, table=None):
        """Buffers of rows, and how many of each were written."""
        room = max(room, 1)
        place, count, status, calls = Place(unit.header_size, 0), c_size_t(), MORE, 0
        while status == MORE:
            if calls == 1 and table is None:
                table = self.table_after(unit, count.value)
            rows = (Row * room)()
            status = self.read("rows", unit, table, byref(place), rows, room, byref(count))
            calls += 1
            yield rows, count.value
        if status != END:
            raise self.refused(status, unit.offset, place.offset)

    def rows(self, unit, room=4096, table=None):
        """Tuples (offset, depth, tag, has_children); a null has the tag 0. Each call of the library reads the unit's table of
        abbreviations, unless one is handed over; where calls give few rows, all but the first go by one that is read once."""
        for rows, count in self.blocks(unit, room, table):
            for i in range(count):
                yield row_of(rows[i])

    def array(self, unit, room=4096, table=None):
        """Structured arrays of numpy over the rows, each over a buffer of its own without a copy."""
        import numpy
        for rows, count in self.blocks(unit, room, table):
            yield numpy.frombuffer(rows, dtype_of(Row), count)

    def attributes(self, unit=None, table=None):
        """All entries of a unit and all their attributes, as two arrays: `rows` of `Entry` and `attrs` of `Attr`. Those of a row
        are `attrs[row["first"]:][:row["attributes"]]`. The arrays are structured arrays of numpy, or where it is not there of
        ctypes; they are what the library has written, without a copy.

        Without a unit they are those of all units of .debug_info, or of .debug_types of a `Dwarf` with types, and each row has
        where its unit begins as `unit`.

        A refusal has the two arrays of what stands before it as `found`. A hostile unit may have more attributes than there is
        memory for: `entries` reads it in pieces."""
        if unit is None:
            return self.all_attributes()
        # (what compilers write has fewer rows and attributes for its bytes)
        length = min(unit.length, len(self.kept["units"]))
        room, space, status = length // 4 + 16, length // 2 + 16, MORE
        while status == MORE:
            rows, attrs, filled, place = buffer(Entry, room), buffer(Attr, space), Filled(), Place(unit.header_size, 0)
            status = self.read("entries", unit, table, byref(place), rows, room, attrs, space, byref(filled))
            # (what was too small is twice as large the next time)
            if filled.rows == room:
                room *= 2
            else:
                space = 2 * max(space, filled.wanted)
        found = view(Entry, rows, filled.rows), view(Attr, attrs, filled.attributes)
        if status != END:
            raise self.refused(status, unit.offset, place.offset, found)
        return found

    def all_attributes(self):
        parts = []
        try:
            for unit in self.units():
                parts.append((unit.offset, *self.attributes(unit)))
        except Refused as refused:
            if refused.found:
                parts.append((refused.unit, *refused.found))
            refused.found = list(joined(parts))
            raise
        return joined(parts)

    def value(self, attr):
        """The value of an attribute: a number, or bytes of the section."""
        kind = KINDS.get(attr.kind, "Other")
        if kind in ("Block", "Exprloc", "String"):
            return kind, self.kept["units"][attr.number:attr.number + attr.more]
        if kind == "Sdata":
            return kind, c_int64(attr.number).value
        if kind == "Data16":
            return kind, attr.number | attr.more << 64
        if kind == "DebugAddrIndexOffset":
            return kind, (attr.number, attr.more)
        return kind, bool(attr.number) if kind == "Flag" else attr.number

    def raw_entries(self, unit, room=1024, space=8192, place=None, table=None):
        """Pairs of a row and its attributes as the library writes them, from a place on, which stays as it is."""
        room, space = max(room, 1), max(space, 0)
        place = Place(unit.header_size, 0) if place is None else Place(place.offset, place.depth)
        rows, attrs, filled, status, calls = (Entry * room)(), (Attr * space)(), Filled(), MORE, 0
        while status == MORE:
            if calls == 1 and table is None:
                table = self.table_after(unit, filled.rows)
            status = self.read("entries", unit, table, byref(place), rows, room, attrs, space, byref(filled))
            calls += 1
            written = (Attr * filled.attributes).from_buffer_copy(attrs)
            for i in range(filled.rows):
                row = rows[i]
                yield row_of(row), written[row.first:row.first + row.attributes]
            if filled.rows == 0 and filled.wanted > space:
                space = filled.wanted
                attrs = (Attr * space)()
        if status != END:
            raise self.refused(status, unit.offset, place.offset)

    def entries(self, unit, room=1024, space=8192, table=None):
        """Pairs of a row and its attributes, each (name, form, kind, value)."""
        for row, attrs in self.raw_entries(unit, room, space, table=table):
            yield row, [(a.name, a.form, *self.value(a)) for a in attrs]

    def sibling(self, unit, offset, depth=0, follows=False):
        """The next sibling of the row at an offset, as a tuple, or None.

        With follows references are followed: the answer is the same where first_false finds none
        in the unit; where it finds one, it need not be a row of the unit, and stands
        after the offset.
        """
        row = self.found(lambda status: self.refused_sibling(status, unit, offset), "sibling", Row(), unit.offset,
                         byref(Place(number(offset), depth)), follows)
        return row and row_of(row)

    def refused_sibling(self, status, unit, offset):
        refused = self.refused(status, unit.offset, offset)
        if status >= ROW_REFUSED:
            refused.entry, refused.note = None, "or after it"
        return refused

    def first_false(self, unit):
        """The offset of the first row whose sibling reference is false, or None."""
        offset = self.found(lambda status: self.refused(status, unit.offset, 0), "first_false", c_uint64(), unit.offset)
        return None if offset is None else offset.value

    # Units by addresses

    def unit_of_address(self, address):
        """Where the unit of an address begins in .debug_info: that of the first set of .debug_aranges with a range that holds the
        address. None says no more than that no set has one: a unit that no set names may hold the address all the same, as
        where a compiler writes no .debug_aranges (clang by itself writes none). `units_of_address` finds that too."""
        offset = self.found(lambda status: refused_set(self, status), "unit_of_address", c_uint64(), number(address))
        return None if offset is None else offset.value

    def units_of_address(self, address):
        """Where all units begin in .debug_info that hold an address, as `Unit.holds_address` says of each: one that a set of
        .debug_aranges names is judged by its sets, and any other by the ranges of its root. Headers and bases are read when they
        are first asked for, and then once; the library reads the sets anew for each unit, so this costs much more than
        `unit_of_address`."""
        address = number(address)
        return [unit.offset for unit in self.info_units if unit.holds_address(address)]

    @cached_property
    def info_units(self):
        """The units of .debug_info."""
        return list(self.with_types(False).units())

    # Values of attributes: of a `Unit` they count from its own bases, unless others are handed over

    @staticmethod
    def bases_of(unit, bases):
        if bases is None and not isinstance(unit, Unit):
            raise TypeError("of a UnitHeader the bases are handed over, as Dwarf.bases reads them; a Unit has its own")
        return unit.bases if bases is None else bases

    def text(self, unit, attr, bases=None):
        """The bytes of the text that an attribute's value is: in place, at an offset or at an index."""
        bases = self.bases_of(unit, bases) if attr.kind_name == "DebugStrOffsetsIndex" else Bases()
        string = self.resolved("text", "attr_string", String(), unit, attr, bases)
        return self.kept[list(SECTIONS)[string.section]][string.place:string.place + string.length]

    def address(self, unit, attr, bases=None):
        """The address that an attribute's value is, in place or at an index."""
        bases = self.bases_of(unit, bases) if attr.kind_name == "DebugAddrIndex" else Bases()
        return self.resolved("address", "attr_address", c_uint64(), unit, attr, bases).value

    def resolved(self, what, name, answer, unit, attr, bases):
        header = getattr(unit, "header", unit)
        return self.found(lambda status: refused_value(self, status, unit, attr, bases, what), name, answer, byref(header),
                          byref(attr), byref(bases))

    def listed(self, name, kind, tuple_of, unit, attr, bases):
        bases, header = self.bases_of(unit, bases), getattr(unit, "header", unit)
        room, count, status = 16, c_size_t(), MORE
        while status == MORE:
            into = (kind * room)()
            status = self.call(name, byref(header), byref(attr), byref(bases), into, room, byref(count))
            room = count.value
        found = [tuple_of(it) for it in into[:room]]
        if status != END:
            raise refused_value(self, status, unit, attr, bases, name, found)
        return found

    def ranges(self, unit, attr, bases=None):
        """The ranges of the list that an attribute of `raw_entries` names, each (begin, end). Where one is refused, `found` of
        the exception has those before it.

        Left out are ranges that do not begin below their end, and those whose beginning or base is one of the two highest
        addresses of the unit's size, which stand for none. So a list whose ranges are all empty answers as an empty list does."""
        return self.listed("ranges", Range, lambda r: (r.begin, r.end), unit, attr, bases)

    def locations(self, unit, attr, bases=None):
        """The locations of the list that an attribute of `raw_entries` names, each (begin, end, expression). Where one is
        refused, `found` of the exception has those before it.

        Left out are those whose ranges `ranges` leaves out. So a list whose ranges are all empty answers as an empty list
        does."""
        section = self.kept["loclists" if unit.version >= 5 else "loc"]
        return self.listed("locations", Location, lambda r: (r.begin, r.end, section[r.place:r.place + r.length]), unit, attr,
                           bases)


def main(library, info, abbrev):
    """Prints the rows of the first unit as `gimli_walk rows` does."""
    dwarf = Dwarf(library, Path(info).read_bytes(), Path(abbrev).read_bytes())
    lines = []
    try:
        unit = next(dwarf.units(), None)
        if unit is None:
            lines.append("no unit")
        else:
            for row in dwarf.rows(unit):
                lines.append("%x %d %x %d" % row)
            lines.append("end")
    except Refused as refused:
        lines.append(f"error {refused.number}" + ("" if refused.entry is None else f" {refused.entry:x}"))
    print("\n".join(lines))


if __name__ == "__main__":
    main(*sys.argv[1:4])
