#!/usr/bin/env python3
"""function_at.py ELF ADDRESS: prints the unit, the name and the ranges of the function at an
address of a linked program: the one whose code is there, and not one that is inlined into it. The
exit status is 1 where there is none, and 2 where something is refused.

The sections are read by pyelftools, and what is in them by the proved library: GIMLI_LIBRARY
names libgimli.so, where it is not where bindings/build.sh leaves it.
"""
import sys

from elftools.common.exceptions import ELFError
from elftools.elf.elffile import ELFFile

import elf_sections
from elf_sections import gimli

MOST_STEPS = 16


class Stopped(Exception):
    """What the library refuses, with what stands there and where."""

    def __init__(self, refused, what, offset):
        super().__init__(f"error {refused.number}: {what} {offset:#x}: {refused.text}")


def linked_program(path):
    """The sections of a linked ELF file."""
    with open(path, "rb") as file:
        if ELFFile(file)["e_type"] not in ("ET_EXEC", "ET_DYN"):
            raise ELFError("not linked")
    return elf_sections.program(path)


def first_of(entry, *names):
    """The first attribute of a name, or else of the next name."""
    return next(filter(None, map(entry.attr, names)), None)


def text_of(unit, attr):
    """The text of an attribute; a text of no bytes where it is none."""
    try:
        return unit.text(attr)
    except gimli.Refused:
        return b""


def followed(entry):
    """The entry that an entry completes, or None."""
    ref = first_of(entry, gimli.DW_AT_abstract_origin, gimli.DW_AT_specification)
    try:
        return ref and entry.unit.referenced(ref)
    except gimli.Refused as refused:
        raise Stopped(refused, "the entry at", refused.offset) from None


def text_lines(word, entry, *names):
    """The line of the first attribute of these names, of an entry or of the entries that it stands for; or none."""
    for _ in range(MOST_STEPS):
        if attr := first_of(entry, *names):
            return [b"%s %s\n" % (word, text_of(entry.unit, attr))]
        entry = followed(entry)
        if not entry:
            break
    return []


class Search:
    """The search for the function of an address. Beside it what is met on the way, and told where no function is found: the first
    skeleton unit that has the address, with the name of its other file, and the first list of ranges that is refused.
    """

    def __init__(self, dwarf, address):
        self.dwarf, self.address = dwarf, address
        self.skeleton, self.refused = None, None

    def units(self):
        """The unit that .debug_aranges says, or else all."""
        try:
            offset = self.dwarf.unit_of_address(self.address)
        except gimli.Refused:
            offset = None
        try:
            if offset is None:
                yield from self.dwarf.units()
            elif unit := self.dwarf.unit(offset):
                yield unit
        except gimli.Refused as refused:
            raise Stopped(refused, "the unit at", refused.unit) from None

    def ranges_of(self, entry):
        """The ranges of an entry, without those from 0 on, which the linker leaves of a function that it
        discards; none where they are refused."""
        try:
            return [pair for pair in entry.die_ranges() if pair[0] != 0]
        except gimli.Refused as refused:
            self.refused = self.refused or Stopped(refused, "the ranges of the unit at", entry.unit.offset)
            return []

    def has_address(self, entry):
        return any(begin <= self.address < end for begin, end in self.ranges_of(entry))

    def meet_root(self, root):
        """Keeps in mind that the unit of a root has the address but is a skeleton, whose functions are in
        another file."""
        name = first_of(root, gimli.DW_AT_dwo_name, gimli.DW_AT_GNU_dwo_name)
        if self.skeleton or (not name and root.unit.kind != gimli.DW_UT_skeleton):
            return
        if self.has_address(root):
            self.skeleton = root.unit.offset, text_of(root.unit, name) if name else b""

    def function_in(self, unit):
        """The function of the address, where it is one of a unit."""
        try:
            for entry in unit.entries():
                if entry.offset == unit.header_size:
                    self.meet_root(entry)
                if entry.tag == gimli.DW_TAG_subprogram and self.has_address(entry):
                    return entry
        except gimli.Refused as refused:
            offset = unit.offset + (refused.entry or unit.header_size)
            raise Stopped(refused, "the entry at", offset) from None
        return None

    def lines(self):
        """The lines of the function, or none."""
        entry = next(filter(None, map(self.function_in, self.units())), None)
        if entry is None:
            return []
        return [b"unit %#x\n" % entry.unit.offset, *text_lines(b"unit name", entry.unit.root, gimli.DW_AT_name),
                *text_lines(b"function", entry, gimli.DW_AT_name),
                *text_lines(b"linkage name", entry, gimli.DW_AT_linkage_name, gimli.DW_AT_MIPS_linkage_name),
                *(b"range %#x %#x\n" % pair for pair in self.ranges_of(entry))]

    def why_none(self):
        """Tells why no function was found."""
        if self.skeleton:
            return b"skeleton unit %#x: its functions are in %s\n" % self.skeleton
        if self.refused:
            raise self.refused
        return b"no function at %#x\n" % self.address


def main(words):
    try:
        path, address = words
        address = int(address, 16)
        if not 0 <= address < 2**64:
            raise ValueError
    except ValueError:
        print("usage: function_at ELF ADDRESS (functions that are inlined there are passed over)", file=sys.stderr)
        return 2
    try:
        search = Search(linked_program(path), address)
    except Exception:  # pyelftools lets through whatever it stumbles over
        print(f"function_at: {path} is no linked ELF file", file=sys.stderr)
        return 2
    try:
        lines = search.lines()
        sys.stdout.buffer.write(b"".join(lines) or search.why_none())
        return 0 if lines else 1
    except Stopped as stopped:
        print(stopped, file=sys.stderr)
        return 2


if __name__ == "__main__":
    sys.exit(main(sys.argv[1:]))
