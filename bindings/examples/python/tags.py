#!/usr/bin/env python3
"""tags.py FILE [DWO]: prints how many entries have each tag, in the order of the tags' codes."""
from collections import Counter

import elf_sections
from elf_sections import gimli


def main(units):
    counts = Counter(entry.tag for unit in units for entry in unit.entries())
    for tag, count in sorted(counts.items()):
        print(count, gimli.tag_name(tag))


elf_sections.run(main)
