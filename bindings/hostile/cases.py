#!/usr/bin/env python3
"""cases.py [--some N] PROGRAM: gives the rows of the tables of tests
(crates/gimli_vectors/data/*.txt) to the C program hostile, which calls the library, and compares its
answers with those that the rows have.

With --some about N of the cases are taken, from all tables. What a row says of calls that the
library for C does not have is left out: its bytes are read all the same. The bases, the addresses and the
texts of each unit that is read are compared with those of values.py. It prints how many cases were answered
and how many of them have an answer to compare.

"""
import re
import subprocess
import sys
import tempfile

import dwarf_rows
import values
from tables import DATA, Answer, Row, hexed, rows_of, unlike

MORE, END, NO_LIST, NO_BASE, REFUSED, ROW_REFUSED = 0, 1, 3, 5, 256, 512
KINDS = {"Addr": 1, "Block": 2, "Data1": 3, "Data2": 4, "Data4": 5, "Data8": 6, "Data16": 7, "Sdata": 8, "Udata": 9, "Exprloc": 10,
         "Flag": 11, "SecOffset": 12, "DebugAddrIndex": 14, "UnitRef": 15, "DebugInfoRef": 16, "DebugInfoRefSup": 17,
         "DebugLocListsIndex": 21, "DebugRngListsIndex": 26, "DebugTypesRef": 27, "DebugStrRef": 28, "DebugStrRefSup": 29,
         "DebugStrOffsetsIndex": 31, "DebugLineStrRef": 32, "String": 33, "DebugAddrIndexOffset": 48}
TYPES = {"compile": 1, "compilation": 1, "type": 2, "partial": 3, "skeleton": 4, "split_compile": 5, "split_type": 6}


# Cases for the program, each a line, with what is said of the lines of its answer

def walk(row, info, abbrev, types=False):
    return f"walk {row.big:d} {types:d} {hexed(info)} {hexed(abbrev)}"


def with_values(case, check):
    """The check of a walk, and what its bases and values are."""
    call, big, _, *sections = case.split()
    if call != "walk":
        return check
    units, abbrev = (b"" if it == "-" else bytes.fromhex(it) for it in sections)
    return lambda answer: check and check(answer) or values.walk_unlike(big == "1", units, abbrev, answer)


def row_text(row):
    return f"{row[0]:x} {row[1]} {row[2]:x} {row[3]}"


def unit_text(unit):
    """The lines of `rows` for a unit, and whether none was refused."""
    lines, (status, place, _) = [row_text(it) for it in unit["row"]], unit["rows"]
    if status == END:
        return lines + ["end"], True
    if status >= ROW_REFUSED:
        return lines + [f"error {status - ROW_REFUSED} {place:x}"], False
    return lines + [f"error {status - REFUSED}"], False


def section_end(answer):
    status = answer.of("units")[-1][0]
    return None if status == END else f"error {status - REFUSED}"


def rows_check(row):
    def check(answer):
        units = answer.units()
        if units:
            lines, good = unit_text(units[0])
        else:
            lines, good = [section_end(answer) or "no unit"], False
        return unlike(row.answer, lines + [f"status {0 if good else 1}"])
    return check


def dump_check(row):
    def check(answer):
        lines, good = [], True
        for unit in answer.units():
            offset, version, kind = unit["header"][0], unit["header"][6], unit["header"][7]
            text, fine = unit_text(unit)
            lines += [f"unit {offset:x} {version} {kind:x}", *text]
            good = good and fine
        end = section_end(answer)
        lines += [end] if end else []
        return unlike(row.answer, lines + [f"status {0 if good and not end else 1}"])
    return check


def check_check(row):
    def check(answer):
        units = answer.units()
        if not units:
            return unlike(row.answer, [section_end(answer) or "no unit", "status 1"])
        status, offset = units[0]["false"]
        words = {MORE: f"false {offset:x}", END: "honest"}.get(status, f"error {status - REFUSED}")
        return unlike(row.answer, [words, f"status {0 if status < REFUSED else 1}"])
    return check


def find_case(row, address, wanted):
    def check(answer):
        status, offset = answer.of("find")[0]
        words = {MORE: f"unit {offset:x}", END: "none"}.get(status, f"error {status - REFUSED}")
        return unlike(wanted, words)
    return f"find {row.big:d} 0 {hexed(row.section(0))} {address}", check


def words_cases(row):
    sections = {"info": row.section(0), "abbrev": row.section(1), "empty": b""}
    call, *files = [*row.words[1:], ""]
    files = [it for it in files if it]
    if call == "find" and files[0] in sections and re.fullmatch("[0-9a-f]{1,16}", files[1] if len(files) == 2 else ""):
        row = Row(row.where, row.calls, row.big, row.words, [sections[files[0]]], row.answer)
        yield find_case(row, int(files[1], 16), row.answer[0])
    elif len(files) >= 2 and all(it in sections for it in files[:2]):
        check = {"rows": rows_check, "dump": dump_check, "check": check_check}.get(call if len(files) == 2 else "")
        yield walk(row, *(sections[it] for it in files[:2])), check and check(row)


# Steps of cursors: each is asked from where the step before it left the cursor

def first_answer(answer, rows_alone):
    """A refusal before the first step, by what a walk answers of the first unit."""
    units = answer.units()
    if not units:
        return section_end(answer) or "no unit"
    status = units[0]["rows"][0]
    return f"error {status - REFUSED}" if REFUSED < status < ROW_REFUSED else None


def stepped_cases(row, letters, start, states):
    """Cases for the steps after a state: a match with the current row, if there is one, and what
    is read next.
    """
    follows = row.call.startswith("cursor")
    sections = f"{row.big:d} 0 {hexed(row.section(0))} {hexed(row.section(1))} 0"
    for letter, (at, _, current), (_, told, after) in zip(letters, states, states[1:]):
        if letter == "s" and current:
            yield f"sibling {sections} {int(current[0], 16)} {current[1]} {follows:d}", sibling_check(told, after)
        elif letter in "ed" and at:
            yield f"row {sections} {int(at[0], 16)} {at[1]}", step_check(letter, told, after)
        if not after:
            return


def sibling_check(told, after):
    def check(answer):
        _, _, status, *found = answer.of("sibling")[0]
        if after:
            return unlike(after, row_text(found).split() if status == MORE else status)
        refused = re.match(r"(?:error|refused) (\d+)", told)
        return unlike(ROW_REFUSED + int(refused[1]) if refused else END, status)
    return check


def step_check(letter, told, after):
    def check(answer):
        rows, status = answer.of("row"), answer.of("rows")[0][0]
        rows = [it for it in rows if letter == "e" or it[2]]
        if after:
            return unlike(after, row_text(rows[0]).split() if rows else status)
        refused = re.match(r"(?:error|refused) (\d+)", told)
        if letter == "e":
            return unlike([], rows[:1]) or unlike(ROW_REFUSED + int(refused[1]) if refused else END, status)
        return unlike([], rows) or unlike(ROW_REFUSED + int(refused[1]) if refused else END, status)
    return check


def state_of(line):
    """What is read next, the line, and the row that a step answers: none after a step without
    one.
    """
    at = re.search(r"> ([0-9a-f]+) (-?\d+)", line)
    row = re.match(r"yes ([0-9a-f]+) (-?\d+) ([0-9a-f]+) ([01])", line)
    null = re.match(r"yes at ([0-9a-f]+) (-?\d+)", line)
    return at and at.groups(), line, list(row.groups()) if row else [*null.groups(), "0", "0"] if null else None


def cursor_cases(row):
    yield walk(row, row.section(0), row.section(1)), None
    at_start = row.call.endswith("_at")
    letters = (row.words[2:] or [""])[0] if at_start else (row.words[1:] or [""])[0]
    lines = [it for it in row.answer if not it.startswith("status")]
    if at_start and row.words[1] == "-" and lines and lines[0].split()[0] in ("follows", "plain"):
        yield from stepped_cases(row, letters, None, [state_of(it) for it in lines])
    elif not at_start and lines and lines[0].split()[0] in ("yes", "no", "error"):
        yield walk(row, row.section(0), row.section(1)), steps_begin_check(row, lines)
        yield from steps_after_first(row, letters, lines)


def steps_begin_check(row, lines):
    """The refusal before the first step, and the first row of the steps that begin with `e`."""
    def check(answer):
        before = first_answer(answer, None)
        if lines[0].startswith("error") and len(lines[0].split()) == 2:
            return unlike(lines[0], before)
        return unlike(None, before)
    return check if lines[0] != "no unit" else None


def steps_after_first(row, letters, lines):
    states = [state_of(it) for it in lines]
    yield from stepped_cases(row, letters[1:], None, states)


# Attributes, in a unit and a table that are made for them

def leb(number, signed=False):
    out = b""
    while True:
        byte, number = number & 127, number >> 7
        done = number == (-1 if signed and byte & 64 else 0)
        out += bytes([byte | (0 if done else 128)])
        if done:
            return out


def header(big, format, version, size, length):
    """The header of a unit with entries of so many bytes, whose abbreviations begin at 0."""
    order = "big" if big else "little"
    rest = [version.to_bytes(2, order)]
    rest += [b"\1", bytes([size]), bytes(format)] if version >= 5 else [bytes(format), bytes([size])]
    rest = b"".join(rest)
    whole = (len(rest) + length).to_bytes(format, order)
    return (b"\xff" * 4 if format == 8 else b"") + whole + rest


def table(specifications):
    """A table with code 1: a tag, no children, and attributes, each a name, a form and what an
    implicit constant is.
    """
    out = b"\x01\x11\x00"
    for name, form, constant in specifications:
        out += leb(name) + leb(form) + (leb(constant, True) if form == 0x21 else b"")
    return out + b"\0\0\0"


def is_made(specifications, version):
    """Whether a table can declare the attributes, and whether there are units of the version."""
    return 2 <= version <= 5 and all(name and form and name < 65536 and form < 65536 for name, form, _ in specifications)


def constant_of(word, form):
    """The constant of a declaration; none where a form that wants one has none."""
    return 0 if word == "-" else int(word, 0)


def is_value(kind, text, attr, start, section):
    """Whether an attribute has the value that a row tells: its kind, and a number or a place and
    bytes. The bytes of the row begin at `start`.
    """
    number, more = attr[3:5]
    if attr[2] != KINDS[kind]:
        return False
    words = text.split()
    if kind in ("Block", "Exprloc", "String"):
        at, digits = words[0].split(":")
        return (number - start, section[number:number + more]) == (int(at), bytes.fromhex(digits.replace("-", "")))
    if kind == "Sdata":
        return number == int(words[0]) % 2 ** 64
    if kind == "Data16":
        return number | more << 64 == int(words[0])
    if kind == "Flag":
        return number != 0 if words[0] in ("true", "false") and words[0] == "true" else number == 0
    if kind == "DebugAddrIndexOffset":
        return (number, more) == (int(words[0]), int(words[1]))
    return number == int(words[0], 16 if kind == "DebugTypesRef" and not words[0].isdigit() else 0)


def attribute_check(row, start, section, specifications, text, following):
    # (a row may say where its bytes begin)
    begin = start - row.place

    def check(answer):
        unit = answer.units()[0]
        refused = re.match(r"refused (\d+)", text)
        if refused:
            return unlike([0, ROW_REFUSED + int(refused[1])], [len(unit["row"]), unit["rows"][0]])
        attrs = [it for at, it in unit["attr"] if at == 0]
        kind, _, value = text.partition(" ")
        if len(attrs) != 1 or attrs[0][:2] != list(specifications[0][:2]) or not is_value(kind, value, attrs[0], begin, section):
            return f"wanted {text}, got {attrs}, {unit['rows']}"
        if following is None:
            return None
        rest = answer.of("next")
        return unlike(following + start, rest[0][0] if rest else unit["rows"][1])
    return check


def attribute_cases(row):
    """A row of one attribute; `names` has its form first, and the names after the encoding."""
    if row.call in ("names", "raw_names"):
        name, form, constant, *encoding = row.words[5].split("-")[0], row.words[1], "0", *row.words[2:5]
    else:
        name, form, constant, *encoding = row.words[1:7]
    name, form, encoding = int(name, 0), int(form, 0), [int(it) for it in encoding]
    specifications = [(name, form, constant_of(constant, form))]
    if not is_made(specifications, encoding[1]):
        return
    body = b"\x01" + row.section(0)
    head = header(row.big, *encoding, len(body))
    section = head + body
    check = None
    if row.call in ("attribute", "inline", "raw_names") and encoding[2] in (1, 2, 4, 8) and not (form == 0x21 and constant == "-"):
        text = row.answer[0]
        following = re.search(r" next (\d+)$", text)
        check = attribute_check(row, len(head) + 1, section, specifications, text, following and int(following[1]))
    yield walk(row, section, table(specifications)), check


def list_cases(row):
    """Attributes that are read together."""
    encoding = [int(it) for it in row.words[1:4]]
    specifications = [tuple(int(it, 0) for it in word.split(":")) + (0,) for word in row.words[4:] if ":" in word]
    if not is_made(specifications, encoding[1]):
        return
    body = b"\x01" + row.section(0)
    head = header(row.big, *encoding, len(body))
    section, start = head + body, len(head) + 1

    def check(answer):
        unit = answer.units()[0]
        refused = re.match(r"refused (\d+)", row.answer[0])
        if refused:
            return unlike([0, ROW_REFUSED + int(refused[1])], [len(unit["row"]), unit["rows"][0]])
        attrs = [it for at, it in unit["attr"] if at == 0]
        for line, attr in zip(row.answer, attrs):
            named, kind, value = line.split(" ", 2)
            if named != f"{attr[0]:x}:{attr[1]:x}" or not is_value(kind, value, attr, start, section):
                return f"wanted {line}, got {attr}"
        return unlike(len(row.answer) - 1, len(attrs))
    yield walk(row, section, table(specifications)), check if row.call == "list" else None


# Entries, headers and tables

def entry_lines(answer):
    """The lines that a table of entries has, but for the bytes of blocks and texts."""
    lines = []
    for word, *numbers in answer.lines:
        if word == "row":
            offset, depth, tag, flag = (int(it) for it in numbers)
            lines.append([f"{offset} {depth}", f"{tag:x}{'+' if flag else ''}" if tag else "null"])
        elif word == "attr":
            lines[-1].append(f"{int(numbers[0]):x}:{int(numbers[1]):x}")
        elif word == "rows":
            break
    return lines


def entries_cases(row):
    """`entries` and `entry`: from the first entry of a unit or from an offset."""
    yield walk(row, row.section(0), row.section(1), row.words[1] == "types"), None
    if row.words[1:3] != ["info", "0"] or row.answer[0].startswith("no "):
        return
    wide = row.section(0)[:4] == b"\xff" * 4
    offset = int(row.words[3]) if len(row.words) > 3 else 23 if wide else 11
    case = f"row {row.big:d} 0 {hexed(row.section(0))} {hexed(row.section(1))} 0 {offset} 0"
    yield case, entries_check(row, offset)


def refused_check(number, at_end, lines, status):
    """No entry at an offset: rows go on from a null, and end at the unit's end."""
    if number == 12:
        return unlike("null", lines[0][1] if lines else status)
    return unlike([END if at_end else number, 0], [status if at_end else status % REFUSED, len(lines)])


def entries_check(row, offset):
    def check(answer):
        lines, (status, *_) = entry_lines(answer), answer.of("rows")[0]
        for line, wanted in zip(lines, row.answer):
            words = wanted.split()
            if words[0] == "refused" or words[3:4] == ["refused"]:
                break
            named = [it for it in words[3:] if re.fullmatch(r"[0-9a-f]+:[0-9a-f]+", it) and not it.startswith("0:")]
            got = [*line[0].split(), *line[1:]]
            if words[:3] != got[:3] or not set(got[3:]) <= set(named) | set(words):
                return f"wanted {wanted}, got {line}"
        refused = re.search(r"refused (\d+)", row.answer[-1])
        if refused and len(row.answer) == 1:
            return refused_check(int(refused[1]), offset == len(row.section(0)), lines, status)
        if row.call == "entry" or not refused:
            return None
        at_end = len(row.section(0)) == int(row.answer[-1].split()[0])
        return unlike(END if at_end else ROW_REFUSED + int(refused[1]), status)
    return check


def header_check(row):
    """Each unit of a section, up to the one that is refused, as the calls of reads tell them."""
    def check(answer):
        units, lines = answer.units(), [it for it in row.answer if it]
        refused = re.match(r"refused (\d+)", lines[-1]) if lines else None
        told = lines[:-1] if refused else lines
        if len(told) != len(units):
            return f"wanted {len(told)} units, got {len(units)}"
        for line, unit in zip(told, units):
            offset, length, size, abbrev, id, type_offset, version, kind, address_size, offset_size = unit["header"]
            words = line.split()
            at = words.index("length")
            after = [] if words[5] == "vendor" else [int(it, 0) for it in words[6:at]]
            told_kind = int(words[6], 0) if words[5] == "vendor" else TYPES.get(words[5], kind)
            wanted = [int(words[i], 0) for i in (1, 2, 3, 4)] + [int(words[at + 2]), int(words[at + 4]), int(words[at + 6], 0)]
            got = [offset, offset_size, version, address_size, length, size, abbrev]
            more = [it for it in (id, type_offset)][:len(after)]
            if wanted != got or after != more or told_kind != kind:
                return f"wanted {line}, got {unit['header']}"
        return unlike(REFUSED + int(refused[1]) if refused else END, answer.of("units")[0][0])
    return check


def info_cases(row):
    if row.call in ("cuts", "each_byte"):
        for cut in range(len(row.section(0))):
            yield walk(row, row.section(0)[:cut], b"\0"), None
        return
    yield walk(row, row.section(0), b"\0", row.call == "types"), None if row.call == "info_at" else header_check(row)


def abbreviation_cases(row):
    """A table: a unit names its offset, and has an entry of the first code, with many zeros as
    attributes.
    """
    offset, code = (int(it, 0) for it in [*row.words[1:], "1"][:2])
    if offset >= 2**32 or code >= 2**64:
        return
    order = "big" if row.big else "little"
    body = leb(code) + bytes(64)
    section = (len(body) + 7).to_bytes(4, order) + (4).to_bytes(2, order) + offset.to_bytes(4, order) + b"\x08" + body

    def check(answer):
        unit = answer.units()[0]
        refused = re.match(r"refused (\d+)", row.answer[0])
        status = unit["rows"][0]
        if refused:
            return unlike(REFUSED + int(refused[1]), status)
        if REFUSED < status < ROW_REFUSED:
            return f"wanted {row.answer[0]}, got {status}"
        declared = re.match(r"\d+ (?:tag )?0x([0-9a-f]+)( children)?", row.answer[0].replace("tag ", ""))
        if declared and unit["row"]:
            return unlike([int(declared[1], 16), int(bool(declared[2]))], unit["row"][0][2:])
        return None
    yield walk(row, section, row.section(0)), check


# Lists

def list_line(row, numbers, lists, addresses):
    return " ".join(["list", f"{row.big:d} 0", hexed(lists), hexed(addresses), *map(str, numbers)])


def list_cases_of(row, locations, encoding, base, table, lists, dwo, kind, number, check):
    """A list by bases that a row has. From version 5 on none lies in the header of its section: then the
    row's bytes stand after a header, and without one what counts from there is refused.
    """
    it = values.Encoding(row.big, encoding[0] == 8, *encoding[1:])
    table_header = it.table_header if table < it.table_header else 0
    lists_header = it.lists_header if kind != 12 and lists < it.lists_header else 0
    first, rest = [int(locations), *encoding, base], [int(dwo), kind, number]
    numbers = [*first, table + table_header, lists + lists_header, *rest]
    yield list_line(row, numbers, bytes(lists_header) + row.section(0), bytes(table_header) + row.section(1)), check
    if lists_header or table_header:
        in_header = no_base_check(it) if lists_header else no_table_check
        yield list_line(row, [*first, table, lists, *rest], row.section(0), row.section(1)), in_header


def no_base_check(encoding):
    def check(answer):
        return unlike([0, NO_BASE if encoding.address_size in (1, 2, 4, 8) else REFUSED + 7], answer.of("list")[0])
    return check


def no_table_check(answer):
    """The list is that of a unit without a table of addresses."""
    return unlike([answer.of("item_without"), answer.of("list_without")], [answer.of("item"), answer.of("list")])


def items_check(row, items, place):
    """Ranges or locations up to the first refusal: `items` are texts of numbers, places and
    bytes.
    """
    def check(answer):
        got, (count, status) = answer.of("item"), answer.of("list")[0]
        refused = next((it for it in items if it.startswith("refused")), None)
        told = items[:items.index(refused)] if refused else items
        if [len(told), "END" if not refused else int(refused.split()[1])] != [count, "END" if status == END else status % REFUSED]:
            return f"wanted {items}, got {got} {count} {status}"
        for text, item in zip(told, got):
            begin, end, *rest = text.split()
            numbers = [int(begin, place[1]), int(end, place[1])]
            if len(item) == 4:
                bytes_of = row.section(0)[item[2]:item[2] + item[3]].hex() or "-"
                numbers += [int(rest[0]) - place[0]]
                if numbers != item[:3] or rest[1] != bytes_of:
                    return f"wanted {text}, got {item} {bytes_of}"
            elif numbers != item:
                return f"wanted {text}, got {item}"
        return None
    return check


def lists_cases(row):
    """`ranges`, `locations` and the like of the calls of reads; with no base address the entries alone."""
    locations, dwo = "locations" in row.call, row.call.endswith("_dwo")
    numbers = [int(it, 0) for it in row.words[1:]]
    encoding, (base, table, offset) = numbers[:3], numbers[3:6] if len(numbers) > 4 else [0, 0, numbers[3]]
    told = [it for it in row.answer if re.match("ranges|locations", it)]
    check = None
    if told and encoding[2] in (1, 2, 4, 8):
        check = items_check(row, told[0].split(", ")[1:], (row.place, 10))
    yield from list_cases_of(row, locations, encoding, base, table, 0, dwo, 12, offset, check)


def runs_cases(row):
    """`ranges` and `locations` of the calls of walks: the table of addresses begins at 0, and
    numbers are hexadecimal.
    """
    locations, dwo = "locations" in row.call, row.call.endswith("_dwo")
    if len(row.words) < 6:
        return
    numbers = [int(it, 0) for it in row.words[1:6]]
    check = items_check(row, [it for it in row.answer if it], (0, 16)) if numbers[2] in (1, 2, 4, 8) else None
    yield from list_cases_of(row, locations, numbers[:3], numbers[3], 0, 0, dwo, 12, numbers[4], check)


def offset_cases(row):
    """The offset of a list at an index: a refusal of it is that of the call."""
    format, version, size, base, index = (int(it, 0) for it in row.words[1:6])
    locations = row.call == "location_offset"
    refused = re.match(r"refused (\d+)", row.answer[0])

    def check(answer):
        status = answer.of("list")[0][1]
        return unlike(REFUSED + int(refused[1]), status)
    known = refused and version == 5 and size in (1, 2, 4, 8)
    yield from list_cases_of(row, locations, [format, version, size], 0, 0, base, False, 21 if locations else 26, index,
                             check if known else None)


def held_by(lines):
    """The sets that a row tells: of each its unit and its ranges, or a refusal."""
    sets = []
    for line in lines:
        if line.startswith("refused"):
            sets.append(line)
        elif line.startswith("set"):
            sets.append((int(re.search(r"unit (\d+)", line)[1]), []))
        elif line.startswith("ranges") and sets:
            sets[-1][1].extend([int(it) for it in item.split()[:2]] for item in line.split(", ")[1:] if item[0].isdigit())
    return sets


def unit_of(sets, address):
    for it in sets:
        if isinstance(it, str):
            return f"error {it.split()[1]}"
        if any(begin <= address < end for begin, end in it[1]):
            return f"unit {it[0]:x}"
    return "none"


def aranges_cases(row):
    sets = held_by(row.answer) if row.call == "aranges" else []
    edges = {edge for it in sets if not isinstance(it, str) for pair in it[1] for end in pair for edge in (end - 1, end)}
    for address in sorted(edges | {0, 2**64 - 1})[:24]:
        if 0 <= address < 2**64:
            case, check = find_case(row, address, unit_of(sets, address))
            yield case, check if row.call == "aranges" else None


def walk_cases(row):
    """Bytes of units and abbreviations, whatever the call."""
    yield walk(row, row.section(0), row.section(1)), rows_check(row) if row.call == "rows" else None


def file_cases(row):
    info, abbrev = ((DATA / f"{row.words[2]}.{end}").read_bytes() for end in ("info", "abbrev"))
    if row.words[1] == "check":
        check = check_check(row)
    else:
        lines = (DATA / f"{row.words[2]}.{row.words[1]}").read_text().split("\n")[:-1]
        told = Row(row.where, row.calls, row.big, row.words, [], lines + ["status 0"])
        check = (rows_check if row.words[1] == "rows" else dump_check)(told)
    yield walk(row, info, abbrev), check


def section_cases(row):
    """A section that is one of units, of abbreviations or of sets of ranges."""
    yield walk(row, row.section(0), row.section(0)), None
    yield find_case(row, 0, None)[0], None


def dwarf_cases(row):
    yield walk(row, row.section(0), row.section(1)), None
    yield dwarf_rows.case_of(row)


def cases_of(row):
    calls = {"reads": dict.fromkeys(("info", "types", "info_at", "cuts"), info_cases) | {"abbrev": abbreviation_cases}
             | dict.fromkeys(("attribute", "inline", "debug", "texts", "names", "raw_names"), attribute_cases)
             | {"list": list_cases, "pass": list_cases, "entries": entries_cases, "entry": entries_cases, "find": walk_cases,
                "abbreviations": walk_cases}
             | dict.fromkeys(("header", "range", "section_offset", "unit_offset", "tombstones", "lists_header"), section_cases)
             | dict.fromkeys(("ranges", "locations", "locations_dwo", "count_ranges"), lists_cases)
             | {"range_offset": offset_cases, "location_offset": offset_cases, "aranges": aranges_cases, "set": aranges_cases},
             "walks": dict.fromkeys(("cursor", "plain", "cursor_at", "plain_at"), cursor_cases)
             | dict.fromkeys(("ranges", "locations", "locations_dwo"), runs_cases)
             | dict.fromkeys(("rows", "tree", "tree_at", "raw", "entries", "entry"), walk_cases)
             | {"words": words_cases, "file": file_cases, "units": section_cases, "type_units": section_cases},
             "memory": dict.fromkeys(("cursor", "plain", "raw", "run_tree", "entry", "check", "run_cursor", "tree", "walker",
                                      "run_plain", "nodes", "clone", "units", "type_units", "clone_tree", "text"), walk_cases),
             "dwarf": dict.fromkeys(("bases", "values", "lists", "holding", "holds"), dwarf_cases)}
    case = calls[row.calls].get(row.call)
    return case(row) if case and (row.sections or row.call == "file") else ()


def all_cases():
    for where, case, check in table_cases():
        yield where, case, with_values(case, check)
    yield from dwarf_rows.made_cases()


def table_cases():
    for path in sorted(DATA.glob("*.txt")):
        for row in rows_of(path):
            if row.calls == "memory":
                row.answer = [""]
            for case, check in cases_of(row):
                yield row.where, case, check


def answers_of(program, cases):
    with tempfile.NamedTemporaryFile("w", suffix=".cases") as file:
        file.writelines(f"{case}\n" for case in cases)
        file.flush()
        run = subprocess.run([program, file.name], stdout=subprocess.PIPE, text=True)
    lines = [[] for _ in cases]
    at = -1
    for line in run.stdout.splitlines():
        if line.startswith("case "):
            at += 1
        elif at >= 0:
            lines[at].append(line)
    return lines, run.returncode, at


def main(words):
    some = 0
    if words[0] == "--some":
        some, words = int(words[1]), words[2:]
    cases = list(all_cases())
    if some:
        cases = cases[::max(1, len(cases) // some)]
    answers, status, last = answers_of(words[0], [case for _, case, _ in cases])
    if status not in (0, 1) or last != len(cases) - 1:
        where, case, _ = cases[max(last, 0)]
        print(f"hostile stopped with {status} at {where}: {case[:2000]}")
        return 1
    wrong = compared = 0
    for (where, case, check), lines in zip(cases, answers):
        told = [line for line in lines if line.startswith("DIFFERS")]
        if not told and check:
            compared += 1
            told = [it] if (it := check(Answer(lines))) else []
        if told:
            wrong += 1
            if wrong <= 40:
                print(f"{where}: {told[0][:600]}\n    {case[:300]}")
    print(f"{len(cases)} cases, {compared} with an answer beside them, {wrong} differ")
    return 1 if wrong else status


if __name__ == "__main__":
    sys.exit(main(sys.argv[1:]))
