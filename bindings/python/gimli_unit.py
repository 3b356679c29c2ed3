"""A unit with what its values count from, and its entries."""
from ctypes import byref
from functools import cached_property
from operator import attrgetter

from gimli_constants import (DW_AT_GNU_dwo_id, DW_AT_high_pc, DW_AT_low_pc, DW_AT_ranges, DW_UT_skeleton, DW_UT_split_compile,
                             DW_UT_split_type, at_name, tag_name)
from gimli_structs import END, MORE, NAMES, NO_BASE, REFUSED, Bases, Place, Refused, number
from gimli_where import of_name, refused_holding

OUT_OF_BOUNDS, NO_ENTRY = (REFUSED + 1 + NAMES.index(name) for name in ("OffsetOutOfBounds", "NoEntryAtGivenOffset"))
CONSTANTS = "Data1", "Data2", "Data4", "Data8", "Udata", "Sdata"


class Die:
    """An entry of a unit: its `offset` in the unit, `depth`, `tag`, `has_children` and `attrs`. What its methods refuse names it.
    """
    __slots__ = "unit", "offset", "depth", "tag", "has_children", "attrs"

    def __init__(self, unit, row, attrs):
        self.unit, self.attrs = unit, attrs
        self.offset, self.depth, self.tag, self.has_children = row

    def __repr__(self):
        return f"<{tag_name(self.tag)} at {self.offset:#x} of the unit at {self.unit.offset:#x}>"

    @property
    def section_offset(self):
        """Where it stands in the unit's section."""
        return self.unit.offset + self.offset

    def attr(self, name):
        """The first attribute of a name, as `gimli.DW_AT_name`, or None."""
        return of_name(self.attrs, name)

    def read(self, call, name):
        attr = self.attr(name)
        try:
            return None if attr is None else call(attr)
        except Refused as refused:
            # (that of the root's bases names the root)
            refused.entry = self.offset if refused.entry is None else refused.entry
            if refused.name in ("NoString", "NoAddress", "NoList"):
                refused.where = self.unit.dwarf.where("units", self.section_offset)
            raise

    def text(self, name):
        """The text of the attribute of a name, as bytes; None where the entry has no such attribute."""
        return self.read(self.unit.text, name)

    def address(self, name):
        """The address of the attribute of a name; None where the entry has no such attribute."""
        return self.read(self.unit.address, name)

    def referenced(self, name):
        """The entry that the attribute of a name refers to, as `Unit.referenced` finds it; None where the entry has no such
        attribute."""
        return self.read(self.unit.referenced, name)

    def pc_range(self):
        """The address of DW_AT_low_pc, and the end that DW_AT_high_pc gives, as an address or as the number of bytes; the same
        twice where it gives none, and None without DW_AT_low_pc. An end of more than 64 bits wraps."""
        begin, high = self.address(DW_AT_low_pc), self.attr(DW_AT_high_pc)
        if begin is None or high is None:
            return None if begin is None else (begin, begin)
        kind, value = self.unit.dwarf.value(high)
        if kind in ("Addr", "DebugAddrIndex"):
            return begin, self.address(DW_AT_high_pc)
        return begin, (begin + value) % (1 << 64) if kind in CONSTANTS and value >= 0 else begin

    def die_ranges(self):
        """The ranges of the list of DW_AT_ranges, each (begin, end); without a list that of `pc_range`, also where it is empty,
        as it is of an entry that has one address alone. Left out is one whose end lies below its beginning, as that of code which
        the linker has discarded may. An entry without DW_AT_ranges and DW_AT_low_pc has none."""
        attr = self.attr(DW_AT_ranges)
        if attr and attr.names_ranges:
            return self.read(self.unit.ranges, DW_AT_ranges)
        return [pair for pair in [self.pc_range()] if pair and pair[0] <= pair[1]]

    def locations(self, name):
        """The locations of the list that the attribute of a name names, as `Unit.locations` gives them; None where the entry has
        no such attribute. An expression is no list, and is refused: ask `names_locations` of the attribute first."""
        return self.read(self.unit.locations, name)


class Unit:
    """A unit of .debug_info or .debug_types, as `Dwarf.unit` and `Dwarf.units` give it.

    Its header is read at once; what its values count from, and its table of abbreviations, when they are first asked for, and
    then once. `skeleton` is the skeleton unit of a split unit, or None; `dwo` says whether it is of a split file, as
    DW_UT_split_compile, DW_UT_split_type and a skeleton tell by themselves. Version 4 has no such kinds."""

    def __init__(self, dwarf, header, skeleton=None, dwo=None):
        self.dwarf, self.header, self.skeleton, self.skeleton_sought = dwarf, header, skeleton, False
        split = skeleton is not None or header.kind in (DW_UT_split_compile, DW_UT_split_type)
        self.dwo = split if dwo is None else bool(dwo)

    offset = property(attrgetter("header.offset"), doc="Where the unit begins in its section.")
    length = property(attrgetter("header.length"), doc="The number of its bytes.")
    header_size = property(attrgetter("header.header_size"), doc="The offset of its root in the unit.")
    abbreviations = property(attrgetter("header.abbreviations"), doc="Where its table is in .debug_abbrev.")
    id = property(attrgetter("header.id"), doc="The signature of a type unit, the id of a skeleton or split unit, or 0.")
    type_offset = property(attrgetter("header.type_offset"), doc="Where a type unit's type stands in the unit, or 0.")
    version = property(attrgetter("header.version"), doc="The version of DWARF.")
    kind = property(attrgetter("header.kind"), doc="DW_UT_compile and the like.")
    address_size = property(attrgetter("header.address_size"), doc="The number of bytes of an address.")
    offset_size = property(attrgetter("header.offset_size"), doc="The number of bytes of an offset, 4 or 8.")

    def __repr__(self):
        split = [f"dwo={self.dwo}"] if self.dwo else []
        skeleton = [f"skeleton at {self.skeleton.offset:#x}"] if self.skeleton else []
        return f"Unit({', '.join([f'{self.header}', *split, *skeleton])})"

    @cached_property
    def bases(self):
        """What its values count from, by its root, and of a split unit by its skeleton."""
        return self.dwarf.bases(self, self.skeleton and self.skeleton.bases, self.dwo)

    @cached_property
    def table(self):
        """Its table of abbreviations; None where its codes are not 1, 2, .. in this order, so that each call reads it."""
        return self.dwarf.table(self.header)

    @cached_property
    def root(self):
        """Its root, the first entry."""
        return self.entry(self.header_size)

    @cached_property
    def dwo_id(self):
        """The id that a skeleton unit and its split unit have in common, or None."""
        if self.kind in (DW_UT_skeleton, DW_UT_split_compile):
            return self.id
        attr = self.root.attr(DW_AT_GNU_dwo_id) if self.version < 5 else None
        return attr and attr.number

    def find_skeleton(self, program, by_id):
        """Takes the unit of the program with the same id as its skeleton, where there is one."""
        offset = by_id.get(self.dwo_id) if by_id else None
        self.skeleton, self.skeleton_sought = None if offset is None else program.unit(offset), True

    @property
    def no_skeleton(self):
        """In words that no skeleton was found where one was sought, or None."""
        if self.skeleton or not self.skeleton_sought:
            return None
        return "the unit has no id of a skeleton unit" if self.dwo_id is None else f"no skeleton unit has the id {self.dwo_id:#x}"

    def rows(self, room=4096):
        """Tuples (offset, depth, tag, has_children); a null has the tag 0."""
        return self.dwarf.rows(self.header, room, self.table)

    def entries(self, place=None):
        """The entries, each with its attributes, but no nulls: from the root on, or from `place` on: a `Place`, or an entry."""
        for row, attrs in self.dwarf.raw_entries(self.header, place=place, table=self.table):
            if row[2]:
                yield Die(self, row, attrs)

    def entry(self, offset):
        """The entry at an offset of the unit, with the depth 0. A null there is refused."""
        place = Place(number(offset), 0)
        row, attrs = next(self.dwarf.raw_entries(self.header, 1, 32, place, self.table), ((0, 0, 0, 0), None))
        if not row[2]:
            status = OUT_OF_BOUNDS if attrs is None else NO_ENTRY
            raise Refused(status, self.dwarf.where("units", self.offset + offset), unit=self.offset, entry=offset)
        return Die(self, row, attrs)

    def attributes(self):
        """All entries and all their attributes as two arrays: see `Dwarf.attributes`."""
        return self.dwarf.attributes(self.header, self.table)

    def ranges(self, attr):
        """The ranges of the list that the value of an attribute names, each (begin, end), as `Dwarf.ranges` gives them: a list
        whose ranges are all empty answers as an empty list does."""
        return self.dwarf.ranges(self, attr)

    def locations(self, attr):
        """The locations of the list that the value of an attribute names, each (begin, end, expression), as `Dwarf.locations`
        gives them: a list whose ranges are all empty answers as an empty list does."""
        return self.dwarf.locations(self, attr)

    def text(self, attr):
        """The bytes of the text that the value of an attribute is, wherever it lies."""
        return self.dwarf.text(self, attr)

    def address(self, attr):
        """The address that the value of an attribute is, in place or by its index."""
        return self.dwarf.address(self, attr)

    def referenced(self, attr):
        """The entry that the value of an attribute refers to, in this unit or in another one of .debug_info; None of a value that
        is no such reference, as a signature or an offset in a supplementary file."""
        if attr.kind_name == "UnitRef":
            return self.entry(attr.number)
        if attr.kind_name != "DebugInfoRef":
            return None
        unit = self if self.holds(attr.number) else self.dwarf.unit_holding(attr.number, dwo=self.dwo)
        if unit is None:
            where = self.dwarf.with_types(False).where("units", attr.number)
            raise Refused(OUT_OF_BOUNDS, where, unit=self.offset, value="reference", attribute=at_name(attr.name))
        return unit.entry(attr.number - unit.offset)

    def holds(self, offset):
        """Whether an offset of .debug_info lies in the unit."""
        return not self.dwarf.sections.types and self.offset <= offset < self.offset + self.length

    def holds_address(self, address):
        """Whether the unit holds an address: by the sets of .debug_aranges that name it, or, where none does, by the addresses of
        its root: those of the list of DW_AT_ranges, or else those from DW_AT_low_pc up to DW_AT_high_pc. A unit of .debug_types
        holds none.

        The header of a set that is refused counts where no set of the unit before it holds the address, and a refused range of
        the root where none before it does. Bases that are refused count where the answer needs one."""
        address = number(address)
        if self.dwarf.sections.types:
            return False
        try:
            status = self.held(address, self.bases)
        except Refused:
            # (neither sets nor addresses in place count from a base)
            status = self.held(address, Bases.none(self.dwo))
            if status == NO_BASE:
                raise
        if status not in (MORE, END):
            raise refused_holding(self, status)
        return status == MORE

    def held(self, address, bases):
        """The status of the library's call: MORE where the unit holds the address, END where it does not."""
        return self.dwarf.call("unit_holds", self.offset, byref(bases), address)
