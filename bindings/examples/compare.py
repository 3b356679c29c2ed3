#!/usr/bin/env python3
"""compare.py MADE [LANGUAGE ..]: makes programs with debugging information of each version, and compares what
functions, lists and tags print of them in C, Rust and Python with each other, and with llvm-dwarfdump.

MADE is the folder of test.sh, with the programs in C and Rust. A line for each input says what was compared;
the exit status is 1 at the first difference. llvm-dwarfdump prints no lengths of expressions, and of a split file
the indices of addresses: locations are compared by the addresses that it prints of the program, and functions and
ranges, without their entries, with those of the same program without -gsplit-dwarf.
"""
import collections
import itertools
import os
import re
import shutil
import subprocess
import sys
import tempfile
from pathlib import Path
from typing import NamedTuple

HERE = Path(__file__).resolve().parent
PROGRAMS = HERE / "programs"
SHAPES, SPLIT = PROGRAMS / "shapes.cc", PROGRAMS / "split.c"
TWO = [PROGRAMS / "first.cc", PROGRAMS / "second.cc"]
LOCATIONS = {"DW_AT_location", "DW_AT_string_length", "DW_AT_return_addr", "DW_AT_data_member_location", "DW_AT_frame_base",
             "DW_AT_segment", "DW_AT_static_link", "DW_AT_use_location", "DW_AT_vtable_elem_location"}
IN_UNIT = {"DW_FORM_ref1", "DW_FORM_ref2", "DW_FORM_ref4", "DW_FORM_ref8", "DW_FORM_ref_udata"}
IN_LISTS = {"DW_FORM_sec_offset", "DW_FORM_loclistx", "DW_FORM_rnglistx", "DW_FORM_data4", "DW_FORM_data8"}
TOMBSTONES = {2**64 - 2, 2**64 - 1}


class Different(Exception):
    """Two answers differ."""


class Input(NamedTuple):
    """A program to be read: its split files, and the same program without these, where it has some."""
    name: str
    program: Path
    dwos: tuple = ()
    plain: Path | None = None


# What llvm-dwarfdump prints

class Attribute(NamedTuple):
    form: str
    text: str
    pairs: list  # the ranges or the locations of a list


class Entry:
    """An entry of the section that begins at `start`, with the first attribute of each name."""

    def __init__(self, start, offset, tag):
        self.start, self.offset, self.tag, self.attributes = start, start + offset, tag, {}

    def number(self, name):
        return int(re.match(r"0x[0-9a-f]+|\d+", self.attributes[name].text)[0], 0)


def dumped(words, file, may_fail=False):
    """The lines of llvm-dwarfdump."""
    run = subprocess.Popen(["llvm-dwarfdump", *words, file], stdout=subprocess.PIPE, text=True,
                           stderr=subprocess.DEVNULL if may_fail else None)
    yield from run.stdout
    if run.wait() and not may_fail:
        raise Different(f"llvm-dwarfdump ends with {run.returncode}")


def addresses_of(program):
    """The addresses of .debug_addr, by their offsets."""
    addresses, offset = {}, 0
    for line in dumped(["--debug-addr"], program):
        if line.startswith("Address table header: "):
            offset += 8
        elif re.match("0x[0-9a-f]{16}$", line):
            addresses[offset] = int(line, 16)
            offset += 8
    return addresses


def table_of(program, dwo):
    """The addresses of a split file by their indices, from the base on that its skeleton unit has."""
    for entry in entries_of(program).values():
        names = [it.text for name, it in entry.attributes.items() if name in ("DW_AT_dwo_name", "DW_AT_GNU_dwo_name")]
        if names == [f'"{dwo.name}")']:
            base = next(it for it in ("DW_AT_addr_base", "DW_AT_GNU_addr_base") if it in entry.attributes)
            return [it for offset, it in addresses_of(program).items() if offset >= entry.number(base)]
    raise Different(f"{dwo.name} has no skeleton unit")


def indexed_pair(line, pairs, addresses, base):
    """Adds the location of a line that has indices or offsets, if it has one; the base address after it."""
    found = re.match(r" +DW_LLE_(\w+) +\(0x([0-9a-f]+)(?:, 0x([0-9a-f]+))?\)", line)
    if not found:
        return base
    kind, first, second = found[1], int(found[2], 16), int(found[3] or "0", 16)
    if kind == "base_addressx":
        return addresses[first]
    if kind == "startx_length":
        pairs.append((addresses[first], addresses[first] + second))
    elif kind == "offset_pair":
        pairs.append((base + first, base + second))
    else:
        raise Different(f"llvm-dwarfdump prints a location of the kind {kind}")
    return base


def entries_of(file, addresses=None):
    """The entries of .debug_info, by their offsets; of a split file with the addresses of its program. Of one of
    version 4 llvm-dwarfdump misses the ranges, and fails. Where several sections have the name, the offsets that it
    prints are of each of them.
    """
    entries, entry, attribute, base, start, end = {}, None, None, 0, 0, 0
    for line in dumped(["--debug-info", "--show-form"], file, addresses is not None):
        if found := re.match(r"0x([0-9a-f]+): \w+ Unit: .*\(next unit at 0x([0-9a-f]+)\)", line):
            start = start if int(found[1], 16) else end
            end = start + int(found[2], 16)
        elif found := re.match(r"0x([0-9a-f]+): +(DW_TAG_\w+)", line):
            entry, attribute = Entry(start, int(found[1], 16), found[2]), None
            entries[entry.offset] = entry
        elif entry and (found := re.match(r" +(DW_AT_\w+) \[(DW_FORM_\w+)\]\t\((.*)", line)):
            attribute, base = Attribute(found[2], found[3], []), 0
            entry.attributes.setdefault(found[1], attribute)
        elif attribute and (found := re.match(r" +\[0x([0-9a-f]+), 0x([0-9a-f]+)\)", line)):
            attribute.pairs.append((int(found[1], 16), int(found[2], 16)))
        elif attribute and addresses is not None:
            base = indexed_pair(line, attribute.pairs, addresses, base)
    return entries


def kept(attribute):
    """The pairs of a list that are not empty and stand for something."""
    return [it for it in attribute.pairs if it[0] < it[1] and it[0] not in TOMBSTONES]


def name_of(entry, entries):
    """The name of an entry, or that of the entry of the same unit which it completes."""
    while "DW_AT_name" not in entry.attributes:
        following = [it for it in ("DW_AT_specification", "DW_AT_abstract_origin") if it in entry.attributes]
        if not following or entry.attributes[following[0]].form not in IN_UNIT:
            return "?"
        entry = entries[entry.start + entry.number(following[0])]
    text = re.match(r'"(.*)"\)$', entry.attributes["DW_AT_name"].text)[1]
    return re.sub(r'\\(["\\])', r"\1", text)


def function_of(entry):
    """The address and the size of a function; None where it has no address."""
    if "DW_AT_low_pc" in entry.attributes:
        begin, high = entry.number("DW_AT_low_pc"), entry.attributes.get("DW_AT_high_pc")
        size = entry.number("DW_AT_high_pc") if high else 0
        return begin, size - begin if high and high.form.startswith("DW_FORM_addr") else size
    pairs = kept(entry.attributes["DW_AT_ranges"]) if "DW_AT_ranges" in entry.attributes else []
    return (min(pairs)[0], sum(end - begin for begin, end in pairs)) if pairs else None


def functions_of(entries):
    found = ((function_of(it), it) for it in entries.values() if it.tag == "DW_TAG_subprogram")
    return [f"{it[0]:#x} {it[1]} {name_of(entry, entries)}" for it, entry in found if it]


def lists_of(entries):
    """The lines of lists, without the lengths of locations, and how many lists are printed without an item."""
    lines, none = [], 0
    for entry in entries.values():
        for name, attribute in entry.attributes.items():
            is_list = attribute.form in IN_LISTS and (name == "DW_AT_ranges" or name in LOCATIONS)
            word = "ranges" if name == "DW_AT_ranges" else "location"
            none += is_list and not attribute.pairs
            lines += [f"{word} {entry.offset:#x} {begin:#x} {end:#x}" for begin, end in kept(attribute) if is_list]
    return lines, none


# What the programs print

def printed(commands, program, it):
    """The lines of a program in all languages, which are the same."""
    answers = {}
    for language, command in commands.items():
        answers[language] = []
        for files in [[it.program, dwo] for dwo in it.dwos] or [[it.program]]:
            run = subprocess.run([*command(program), *files], stdout=subprocess.PIPE, stderr=subprocess.PIPE, text=True)
            if run.returncode:
                raise Different(f"{program} in {language} ends with {run.returncode}: {run.stderr.strip()[-400:]}")
            answers[language] += run.stdout.splitlines()
    first, *others = answers.items()
    for other in others:
        same(program, *first, *other)
    return first[1]


def same(what, one, lines, other, wanted):
    """Raises the lines that differ."""
    if lines != wanted:
        left, right = collections.Counter(lines), collections.Counter(wanted)
        told = [f"  {one}: {it}" for it in (left - right)] + [f"  {other}: {it}" for it in (right - left)]
        told = told or [f"  {one}: {it}\n  {other}: {that}" for it, that in zip(lines, wanted) if it != that]
        raise Different("\n".join([f"{what} in {one} and by {other} differ ({len(told)} times):", *told[:20]]))


def without_entry(lines):
    return sorted(re.sub(r" 0x\w+", "", it, count=1) for it in lines)


def without_length(line):
    return " ".join(line.split()[:4])


def of_kind(word, lines):
    return [it for it in lines if it.startswith(word)]


def compare_split(commands, it, lines):
    """Compares the answers for split files, but for the tags; their entries."""
    split, plain = [entries_of(dwo, table_of(it.program, dwo)) for dwo in it.dwos], entries_of(it.plain)
    locations = [line for entries in split for line in of_kind("location", lists_of(entries)[0])]
    skeleton = [without_length(line) for line in printed(commands, "lists", Input(it.name, it.program))]
    ranges = without_entry(of_kind("ranges", lines["lists"] + skeleton))
    same("functions", "the programs", sorted(lines["functions"]), "llvm-dwarfdump", sorted(functions_of(plain)))
    same("locations", "the programs", of_kind("location", lines["lists"]), "llvm-dwarfdump", locations)
    same("ranges", "the programs", ranges, "llvm-dwarfdump", without_entry(of_kind("ranges", lists_of(plain)[0])))
    lines["lists"] += skeleton
    entries = [it for entries in split for it in entries.values()]
    return entries, "; functions and ranges by the program without -gsplit-dwarf"


def compare_whole(lines, it):
    """Compares the answers for a program, but for the tags; its entries."""
    entries = entries_of(it.program)
    lists, none = lists_of(entries)
    same("functions", "the programs", lines["functions"], "llvm-dwarfdump", functions_of(entries))
    same("lists", "the programs", lines["lists"], "llvm-dwarfdump", lists)
    return entries.values(), f"; of {none} lists llvm-dwarfdump prints no item" if none else ""


def compare(commands, it):
    """Compares the answers for an input: a line that says what was compared."""
    lines = {program: printed(commands, program, it) for program in ("functions", "lists", "tags")}
    lines["lists"] = [without_length(line) for line in lines["lists"]]
    entries, more = compare_split(commands, it, lines) if it.dwos else compare_whole(lines, it)
    counts = collections.Counter()
    for count, name in map(str.split, lines["tags"]):
        counts[name] += int(count)
    wanted = collections.Counter(it.tag for it in entries)
    same("tags", "the programs", sorted(counts.items()), "llvm-dwarfdump", sorted(wanted.items()))
    ranges = len(of_kind("ranges", lines["lists"]))
    return (f"{it.name}: {len(lines['functions'])} functions, {ranges} ranges, {len(lines['lists']) - ranges} locations, "
            f"{len(counts)} tags of {len(entries)} entries{more}")


# The inputs

def build(made, name, *command):
    """Runs a compiler in a folder of its own: the program that it makes."""
    folder = made / re.sub(r"[^\w.+-]+", "_", name)
    folder.mkdir()
    run = subprocess.run([*command, "-o", "program"], cwd=folder, stdout=subprocess.PIPE, stderr=subprocess.STDOUT, text=True)
    if run.returncode:
        raise Different(f"{name}: {run.stdout[-400:]}")
    return folder / "program"


def split_inputs(made):
    for compiler, version in itertools.product(("g++", "clang++"), (5, 4)):
        types = ("-fdebug-types-section shapes.cc", "-fdebug-types-section", SHAPES)
        for name, *words in (("shapes.cc", SHAPES), ("split.c", SPLIT), ("two files", *TWO), types):
            if shutil.which(compiler):
                name = f"{compiler} -gdwarf-{version} -gsplit-dwarf -O2 {name}"
                words = [compiler, "-g", f"-gdwarf-{version}", "-O2", *words]
                program = build(made, name, *words, "-gsplit-dwarf")
                yield Input(name, program, tuple(sorted(program.parent.glob("*.dwo"))), build(made, f"plain {name}", *words))


def inputs(made):
    """The programs, each made as it is asked for."""
    for version in (2, 3, 4, 5):
        for level in ("-O0", "-O2"):
            name = f"g++ -gdwarf-{version} {level}"
            yield Input(f"{name} shapes.cc", build(made, f"{name} shapes.cc", "g++", "-g", f"-gdwarf-{version}", level, SHAPES))
    for version in (4, 5):
        name = f"g++ -gdwarf-{version} -O2 -ffunction-sections"
        words = ["g++", "-g", f"-gdwarf-{version}", "-O2"]
        yield Input(f"{name} two files", build(made, name, *words, "-ffunction-sections", "-Wl,--gc-sections", *TWO))
        name = f"g++ -gdwarf-{version} -fdebug-types-section"
        yield Input(name, build(made, name, *words, "-fdebug-types-section", SHAPES))
        name = f"g++ -gdwarf-{version} -gdwarf64"
        yield Input(name, build(made, name, *words, "-gdwarf64", *TWO))
        name = f"gcc -gdwarf-{version} -O2 split.c"
        yield Input(name, build(made, name, "gcc", "-g", f"-gdwarf-{version}", "-O2", SPLIT))
    if shutil.which("clang++"):
        for version in (4, 5):
            for source in (SHAPES, SPLIT):
                name = f"clang -gdwarf-{version} -O2 {source.name}"
                compiler = "clang" if source == SPLIT else "clang++"
                yield Input(name, build(made, name, compiler, "-g", f"-gdwarf-{version}", "-O2", source))
    yield from split_inputs(made)
    if shutil.which("rustc"):
        source = made / "counted.rs"
        source.write_text("fn main() { println!(\"{}\", std::env::args().count()); }\n")
        yield Input("rustc -g", build(made, "rustc -g", "rustc", "-g", source))
    if shutil.which("dwz"):
        for version in (4, 5):
            name = f"dwz of g++ -gdwarf-{version}"
            plain = build(made, f"before {name}", "g++", "-g", f"-gdwarf-{version}", "-O2", "-include", "cstdio", *TWO)
            yield Input(name, build(made, name, "dwz", plain))


def main(made, *languages):
    made = Path(made).resolve()
    commands = {"C": lambda it: [made / f"{it}_c"], "Rust": lambda it: [made / "rust/release" / it],
                "Python": lambda it: [sys.executable, HERE / "python" / f"{it}.py"]}
    commands = {it: commands[it] for it in languages or commands}
    os.environ["PYTHONDONTWRITEBYTECODE"] = "1"
    count, it = 0, None
    with tempfile.TemporaryDirectory() as folder:
        try:
            for it in inputs(Path(folder)):
                print(compare(commands, it), flush=True)
                count += 1
        except Different as different:
            print(f"{it.name if it else 'the first input'}: {different}")
            return 1
    print(f"{count} inputs, the same in {', '.join(commands)}, and by llvm-dwarfdump")
    return 0


if __name__ == "__main__":
    sys.exit(main(*sys.argv[1:]))
