#!/usr/bin/env python3
"""oracle.py ELF ADDRESS..: what function_at prints for each address, by pyelftools' own reader of
DWARF, after a line with it.
"""
import sys

from elftools.dwarf.descriptions import set_global_machine_arch
from elftools.dwarf.ranges import BaseAddressEntry
from elftools.elf.elffile import ELFFile


def address_pair(die, low, high):
    begin, end = die.attributes[low].value, die.attributes[high].value
    is_address = die.attributes[high].form in ("DW_FORM_addr", "DW_FORM_addrx") or "addrx" in die.attributes[high].form
    return begin, end if is_address else begin + end


def ranges_of(die, dwarf):
    """The ranges of a function, without those that have no byte, and those from 0 on, which the linker
    leaves of a function that it discards."""
    if "DW_AT_low_pc" in die.attributes and "DW_AT_high_pc" in die.attributes:
        pairs = [address_pair(die, "DW_AT_low_pc", "DW_AT_high_pc")]
    elif "DW_AT_ranges" in die.attributes:
        top = die.cu.get_top_DIE().attributes
        base, pairs = top["DW_AT_low_pc"].value if "DW_AT_low_pc" in top else 0, []
        for entry in dwarf.range_lists().get_range_list_at_offset(die.attributes["DW_AT_ranges"].value, die.cu):
            if isinstance(entry, BaseAddressEntry):
                base = entry.base_address
            else:
                add = 0 if getattr(entry, "is_absolute", False) else base
                pairs.append((entry.begin_offset + add, entry.end_offset + add))
    else:
        pairs = []
    return [pair for pair in pairs if 0 < pair[0] < pair[1]]


def text(die, *names):
    """The first attribute of these names, of an entry or of those that it stands for."""
    while not (there := [name for name in names if name in die.attributes]):
        following = [it for it in ("DW_AT_abstract_origin", "DW_AT_specification") if it in die.attributes]
        if not following:
            return None
        die = die.get_DIE_from_attribute(following[0])
    return die.attributes[there[0]].value.decode()


def answer(dwarf, address):
    for cu in dwarf.iter_CUs():
        for die in cu.iter_DIEs():
            if die.tag != "DW_TAG_subprogram":
                continue
            ranges = ranges_of(die, dwarf)
            if any(begin <= address < end for begin, end in ranges):
                texts = [("unit name", text(cu.get_top_DIE(), "DW_AT_name")), ("function", text(die, "DW_AT_name")),
                         ("linkage name", text(die, "DW_AT_linkage_name", "DW_AT_MIPS_linkage_name"))]
                lines = [f"unit {cu.cu_offset:#x}"] + [f"{word} {it}" for word, it in texts if it is not None]
                return lines + [f"range {begin:#x} {end:#x}" for begin, end in ranges]
    return [f"no function at {address:#x}"]


def main(path, *addresses):
    with open(path, "rb") as file:
        elf = ELFFile(file)
        set_global_machine_arch(elf.get_machine_arch())
        dwarf = elf.get_dwarf_info()
        for address in addresses:
            print("\n".join([f"== {address}", *answer(dwarf, int(address, 16))]))


if __name__ == "__main__":
    main(*sys.argv[1:])
