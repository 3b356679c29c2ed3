"""The statuses, the refusals and the structs of gimli.h, as Python has them."""
import ctypes
from ctypes import POINTER, Structure, c_char_p, c_int64, c_size_t, c_uint8, c_uint16, c_uint32, c_uint64
from typing import NamedTuple, Optional

from gimli_constants import (DW_AT_data_member_location, DW_AT_frame_base, DW_AT_location, DW_AT_ranges, DW_AT_return_addr,
                             DW_AT_segment, DW_AT_static_link, DW_AT_string_length, DW_AT_use_location,
                             DW_AT_vtable_elem_location, at_name, form_name, tag_name, ut_name)

MORE, END, TOO_DEEP, NO_LIST, UNORDERED, NO_BASE, BAD_BASE, NO_STRING, NO_ADDRESS = range(9)
REFUSED, ROW_REFUSED = 256, 512

# The refusals from number 1 on, by gimli's names and in the words of gimli.h.
REFUSALS = [
    ("UnexpectedEof", "The input ends before what should stand there."),
    ("BadUnsignedLeb128", "An unsigned LEB128 number needs too many bits."),
    ("BadSignedLeb128", "A signed LEB128 number needs too many bits."),
    ("UnknownReservedLength", "A length field has a reserved value."),
    ("UnknownVersion", "The version is unknown."),
    ("UnknownUnitType", "The type of a unit is unknown."),
    ("UnsupportedAddressSize", "No address has this number of bytes."),
    ("UnsupportedSegmentSize", "Segment selectors are not supported."),
    ("UnsupportedOffset", "A number does not fit an offset."),
    ("UnsupportedOffsetSize", "No offset has this number of bytes."),
    ("OffsetOutOfBounds", "An offset is out of bounds."),
    ("NoEntryAtGivenOffset", "No entry stands at the offset."),
    ("InvalidAbbreviationCode", "The code of an abbreviation is not declared."),
    ("UnknownForm", "The form of an attribute is unknown."),
    ("InvalidImplicitConst", "The number of an implicit constant is not declared."),
    ("UnknownRangeListsEntry", "The kind of an entry of a range list is unknown."),
    ("UnknownLocListsEntry", "The kind of an entry of a location list is unknown."),
    ("AddressOverflow", "A sum of addresses does not fit."),
    ("AbbreviationTagZero", "A declared tag is zero."),
    ("InvalidAbbreviationChildren", "A declared flag of children is neither 0 nor 1."),
    ("AttributeNameZero", "A declared name is zero, but not the form."),
    ("AttributeFormZero", "A declared form is zero, but not the name."),
    ("DuplicateAbbreviationCode", "A code is declared twice."),
    ("OutOfMemory", "Memory was refused; the call may be made again."),
]
NAMES = [name for name, _ in REFUSALS]
OTHER_REFUSALS = {
    TOO_DEEP: ("TooDeep", "The depth of the place is too great."),
    NO_LIST: ("NoList", "The value names no list."),
    NO_BASE: ("NoBase", "The value counts from a base that the unit does not have."),
    BAD_BASE: ("BadBase", "The attribute of a base has a value that no base can have."),
    NO_STRING: ("NoString", "The value is no text."),
    NO_ADDRESS: ("NoAddress", "The value is no address."),
}
UNKNOWN_STATUS = "UnknownStatus", "The status is unknown."

# The kinds of values, as gimli names them; those that only names give do not occur.
KINDS = {1: "Addr", 2: "Block", 3: "Data1", 4: "Data2", 5: "Data4", 6: "Data8", 7: "Data16", 8: "Sdata", 9: "Udata",
         10: "Exprloc", 11: "Flag", 12: "SecOffset", 14: "DebugAddrIndex", 15: "UnitRef", 16: "DebugInfoRef",
         17: "DebugInfoRefSup", 21: "DebugLocListsIndex", 26: "DebugRngListsIndex", 27: "DebugTypesRef",
         28: "DebugStrRef", 29: "DebugStrRefSup", 31: "DebugStrOffsetsIndex", 32: "DebugLineStrRef", 33: "String",
         48: "DebugAddrIndexOffset"}

# The attributes that can have a location list.
LOCATION_NAMES = frozenset([DW_AT_location, DW_AT_string_length, DW_AT_return_addr, DW_AT_data_member_location, DW_AT_frame_base,
                            DW_AT_segment, DW_AT_static_link, DW_AT_use_location, DW_AT_vtable_elem_location])


def names_locations(attr):
    """Whether the value of an attribute names a location list, by its name and its kind; it may be an expression instead."""
    return attr.kind_name == "DebugLocListsIndex" or attr.kind_name == "SecOffset" and attr.name in LOCATION_NAMES


def names_ranges(attr):
    """Whether the value of an attribute names a range list, by its name and its kind."""
    return attr.kind_name == "DebugRngListsIndex" or attr.kind_name == "SecOffset" and attr.name == DW_AT_ranges


def number(value):
    """A number of 64 bits: ctypes would leave the others out."""
    if not 0 <= value < 1 << 64:
        raise OverflowError(f"{value} is no number of 64 bits")
    return value


class Where(NamedTuple):
    """An offset of a section, or an index that counts from it on; without an offset, one that counts from no base."""
    section: str
    size: int  # the bytes of the section
    offset: Optional[int]
    index: Optional[int] = None

    def __str__(self):
        start = "" if self.offset is None else f"{self.offset:#x}"
        if self.index is not None:
            start = f"index {self.index:#x}" + (f" from {start} on" if start else "")
        return f"at {start} of {self.section}, which has {f'{self.size:#x}' if self.size else 'no'} bytes"


class Refused(Exception):
    """A refusal: its `number`, or 0, gimli's `name` of it and its `text`.

    What was refused stands in `section`, as ".debug_info", at `offset`; or at `index` of the table that begins at `offset`,
    which is None where the unit has no such table. `unit` is where the unit begins in its own section, and `entry` the offset
    of the entry in the unit. Of the value of an attribute `attribute` is the attribute's name; `base` is the attribute that says
    from where such a value counts, if that is missing or bad. What is not known is None. `found` is what was read before it, of a
    list or by `attributes`."""

    def __init__(self, status, where=None, *, unit=None, entry=None, value=None, attribute=None, base=None, note=None, found=()):
        super().__init__(status)
        self.number = status % 256 if status >= REFUSED else 0
        known = 0 < self.number <= len(REFUSALS)
        self.name, self.text = REFUSALS[self.number - 1] if known else OTHER_REFUSALS.get(status, UNKNOWN_STATUS)
        self.where, self.unit, self.entry = where, unit, entry
        self.value, self.attribute, self.base, self.note = value, attribute, base, note
        self.found = list(found)

    @property
    def section(self):
        return self.where and self.where.section

    @property
    def offset(self):
        return self.where and self.where.offset

    @property
    def index(self):
        return self.where and self.where.index

    def __str__(self):
        value = self.value and " of ".join(filter(None, (f"the {self.value}", self.attribute)))
        places = [f"the {word} at {at:#x}" for word, at in (("entry", self.entry), ("unit", self.unit)) if at is not None]
        what = " of ".join(filter(None, [value, *places]))
        about = ", ".join(filter(None, [self.name, f"error {self.number}" if self.number else "", self.base]))
        about = "; ".join(filter(None, [about, self.where and str(self.where), self.note]))
        return f"{what}{': ' if what else ''}{self.text} ({about})"

    def __repr__(self):
        return f"Refused({self})"


class Record(Structure):
    """A struct of gimli.h, which prints in a line: codes by their names, offsets and addresses in hexadecimal."""
    SHOWN = {"tag": tag_name, "name": at_name, "form": form_name,
             **dict.fromkeys(["offset", "unit", "abbreviations", "id", "type_offset", "begin", "end", "place"], hex)}

    def __repr__(self):
        fields = [f"{name}={self.SHOWN.get(name, repr)(getattr(self, name))}" for name, *_ in self.__class__._fields_]
        return f"{type(self).__name__}({', '.join(fields)})"


class Bytes(Record):
    _fields_ = [("bytes", c_char_p), ("length", c_size_t)]

    @classmethod
    def of(cls, data):
        return cls(data, len(data))

    def __repr__(self):
        return f"Bytes({self.length})"


# The sections in the order of gimli.h, each with its name.
SECTIONS = {"units": "debug_info", "abbrev": "debug_abbrev", "addresses": "debug_addr", "aranges": "debug_aranges",
            "ranges": "debug_ranges", "rnglists": "debug_rnglists", "loc": "debug_loc", "loclists": "debug_loclists",
            "str": "debug_str", "line_str": "debug_line_str", "str_offsets": "debug_str_offsets", "sup_str": "debug_str_sup"}


class Sections(Record):
    _fields_ = [*((name, Bytes) for name in SECTIONS), ("big", c_uint8), ("types", c_uint8)]

    def __repr__(self):
        sizes = [f"{name}={getattr(self, name).length}" for name in SECTIONS if getattr(self, name).length]
        return f"Sections({', '.join([*sizes, f'big={self.big}', f'types={self.types}'])})"


class UnitHeader(Record):
    SHOWN = {**Record.SHOWN, "kind": ut_name}
    _fields_ = [("offset", c_uint64), ("length", c_uint64), ("header_size", c_uint64), ("abbreviations", c_uint64),
                ("id", c_uint64), ("type_offset", c_uint64), ("version", c_uint16), ("kind", c_uint8),
                ("address_size", c_uint8), ("offset_size", c_uint8)]


class Place(Record):
    _fields_ = [("offset", c_uint64), ("depth", c_int64)]


class Row(Record):
    _fields_ = [("offset", c_uint64), ("depth", c_int64), ("tag", c_uint16), ("has_children", c_uint8)]


class Entry(Record):
    _fields_ = [("offset", c_uint64), ("depth", c_int64), ("first", c_size_t), ("attributes", c_size_t),
                ("tag", c_uint16), ("has_children", c_uint8)]


class Attr(Record):
    SHOWN = {**Record.SHOWN, "kind": lambda kind: KINDS.get(kind, kind)}
    _fields_ = [("number", c_uint64), ("more", c_uint64), ("name", c_uint16), ("form", c_uint16), ("kind", c_uint32)]

    @property
    def kind_name(self):
        """The kind of the value as gimli names it: "UnitRef" and the like."""
        return KINDS.get(self.kind, "Other")

    names_locations = property(names_locations)
    names_ranges = property(names_ranges)


class UnitEntry(Record):
    """An `Entry` of one of several units, with where its unit begins."""
    _fields_ = [*Entry._fields_, ("unit", c_uint64)]


class Filled(Record):
    _fields_ = [("rows", c_size_t), ("attributes", c_size_t), ("wanted", c_size_t)]


class Declaration(Record):
    _fields_ = [("code", c_uint64), ("first", c_size_t), ("attributes", c_size_t), ("tag", c_uint16), ("has_children", c_uint8)]


class Step(Record):
    """So many values that are passed together, as `Dwarf.table` reads it; who makes a table leaves it at zeros."""
    _fields_ = [("values", c_uint16), ("bytes", c_uint8), ("addresses", c_uint8), ("offsets", c_uint8), ("ref_addrs", c_uint8),
                ("has_ref8", c_uint8)]


class Specification(Record):
    _fields_ = [("constant", c_int64), ("name", c_uint16), ("form", c_uint16), ("step", Step)]


class Table(Record):
    """A table of abbreviations, as `Dwarf.table` reads it. Who makes one hands over two ctypes arrays; the counts are theirs."""
    _fields_ = [("declarations", POINTER(Declaration)), ("declared", c_size_t),
                ("specifications", POINTER(Specification)), ("specified", c_size_t)]

    def __init__(self, declarations=None, specifications=None):
        # (the library is never handed null, also where there are none)
        super().__init__(declarations or (Declaration * 1)(), len(declarations or ()),
                         specifications or (Specification * 1)(), len(specifications or ()))

    def take(self, declared, specified):
        """The same of so many of them."""
        self.declared, self.specified = min(declared, self.declared), min(specified, self.specified)
        return self

    def __repr__(self):
        return f"Table({self.declared} declarations, {self.specified} specifications)"


class Counted(Record):
    _fields_ = [("declarations", c_size_t), ("specifications", c_size_t)]


class Bases(Record):
    """What the values of a unit count from, as `Dwarf.bases` reads it. Where a `no_..` is not 0, the number of that name is none.
    From version 5 on neither is one that lies in the first header of its section, as 0 does."""
    NAMES = ["address", "addresses", "rnglists", "loclists", "str_offsets", "gnu_ranges"]
    _fields_ = [*((name, c_uint64) for name in NAMES), ("dwo", c_uint8), *((f"no_{name}", c_uint8) for name in NAMES)]

    @classmethod
    def none(cls, dwo=False):
        """The bases of a unit that has none."""
        return cls(dwo=dwo, **{f"no_{name}": 1 for name in cls.NAMES})

    def __repr__(self):
        fields = [f"{name}={'none' if getattr(self, f'no_{name}') else hex(getattr(self, name))}" for name in self.NAMES]
        return f"Bases({', '.join(fields)}, dwo={self.dwo})"


class String(Record):
    """Where the bytes of a text lie; `section` is an index of SECTIONS."""
    _fields_ = [("place", c_uint64), ("length", c_uint64), ("section", c_uint32)]


class Range(Record):
    _fields_ = [("begin", c_uint64), ("end", c_uint64)]


class Location(Record):
    _fields_ = [("begin", c_uint64), ("end", c_uint64), ("place", c_uint64), ("length", c_uint64)]


# The sizes that the library takes these types to have, as at the end of gimli.h.
assert [ctypes.sizeof(it) for it in (Bytes, Sections, UnitHeader, Place, Row, Entry, Attr, Filled, Declaration, Specification,
                                    Table, Counted, Bases, String, Range, Location)] \
    == [16, 200, 56, 16, 24, 40, 24, 24, 32, 24, 32, 16, 56, 24, 16, 32]
