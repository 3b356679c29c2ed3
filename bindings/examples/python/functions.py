#!/usr/bin/env python3
"""functions.py FILE [DWO]: prints the address, the size and the name of each function that has an address."""
import sys

import elf_sections
from elf_sections import gimli


def name_of(entry, steps=16):
    """The name of an entry, or of the one that it completes."""
    name, ref = entry.text(gimli.DW_AT_name), entry.attr(gimli.DW_AT_specification) or entry.attr(gimli.DW_AT_abstract_origin)
    if name is None and steps and ref and ref.kind_name == "UnitRef":
        return name_of(entry.unit.entry(ref.number), steps - 1)
    return b"?" if name is None else name


def main(units):
    for entry in (entry for unit in units for entry in unit.entries() if entry.tag == gimli.DW_TAG_subprogram):
        if ranges := entry.die_ranges():
            size = sum(end - begin for begin, end in ranges)
            sys.stdout.buffer.write(b"0x%x %d %s\n" % (min(ranges)[0], size, name_of(entry)))


elf_sections.run(main)
