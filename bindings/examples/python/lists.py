#!/usr/bin/env python3
"""lists.py FILE [DWO]: prints the ranges and the locations of each list that an entry names, after the entry's offset in the
section."""
import elf_sections
from elf_sections import gimli


def main(units):
    for unit in units:
        for entry in unit.entries():
            for attr in entry.attrs:
                if attr.name == gimli.DW_AT_ranges:
                    for begin, end in unit.ranges(attr):
                        print(f"ranges {entry.section_offset:#x} {begin:#x} {end:#x}")
                elif attr.names_locations:
                    for begin, end, expression in unit.locations(attr):
                        print(f"location {entry.section_offset:#x} {begin:#x} {end:#x} {len(expression)}")


elf_sections.run(main)
