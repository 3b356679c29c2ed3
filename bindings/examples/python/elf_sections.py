"""The sections of ELF files, by pyelftools, for the programs beside it: those of a program, or those of a split file (.dwo) and
of the program that has its skeleton units.

GIMLI_LIBRARY names libgimli.so, where it is not where bindings/build.sh leaves it.
"""
import sys
from pathlib import Path

from elftools.elf.elffile import ELFFile

sys.path.insert(0, str(Path(__file__).resolve().parents[2] / "python"))
import gimli  # noqa: E402

NAMES = ["info", "abbrev", "addr", "aranges", "ranges", "rnglists", "loc", "loclists", "str", "line_str", "str_offsets"]


def bytes_of(elf, name):
    """The bytes of the sections of a name, decompressed, one after the other, as a linker joins them: where no linker did,
    each type unit has a section of its own.
    """
    return b"".join(it.data() for it in elf.iter_sections() if it.name == name and it["sh_type"] != "SHT_NOBITS")


def program(path):
    """The sections of a program."""
    with open(path, "rb") as file:
        elf = ELFFile(file)
        sections = {f"debug_{name}": bytes_of(elf, f".debug_{name}") for name in NAMES}
        return gimli.Dwarf(big=not elf.little_endian, **sections)


def split_file(path, program):
    """The sections of a split file; `units` lends it .debug_addr and .debug_ranges of the program."""
    with open(path, "rb") as file:
        elf = ELFFile(file)
        sections = {f"debug_{name}": bytes_of(elf, f".debug_{name}.dwo") for name in NAMES}
        sections["debug_line_str"] = program.given["debug_line_str"]
        return gimli.Dwarf(big=not elf.little_endian, **sections)


def stop(text):
    print(text, file=sys.stderr)
    sys.exit(2)


def opened(path, read, *program):
    try:
        return read(path, *program)
    except Exception:  # pyelftools lets through whatever it stumbles over
        return stop(f"{path} is no ELF file")


def units(paths):
    """The units of FILE, or those of DWO, if that is named too, each with its skeleton in FILE."""
    if not 1 <= len(paths) <= 2:
        stop(f"usage: {sys.argv[0]} FILE [DWO]")
    file = opened(paths[0], program)
    return file.units() if len(paths) == 1 else opened(paths[1], split_file, file).units(file)


def run(main):
    """Runs a program over the units; a refusal ends it with its words."""
    try:
        main(units(sys.argv[1:]))
    except gimli.Refused as refused:
        sys.stdout.flush()
        sys.exit(str(refused))
