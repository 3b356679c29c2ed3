"""Cases of bases, of the values and lists that count from them, of the unit that holds an offset, and of whether a
unit holds an address: those of the rows of bases.txt, and values that no entry has.
"""
import re
from itertools import product

import values
from tables import hexed, unlike

END, NO_LIST, REFUSED, ROW_REFUSED = 1, 3, 256, 512
FILES = {"main": 0, "dwo": 1, "split": 2}
# the kinds of offsets of sections, and of indices in .debug_loclists and .debug_rnglists
NAMES_LIST = (12, 21, 26)


def unresolved(text):
    """The status of a refusal, as a row has it; None of what is no refusal."""
    found = re.match(r"(missing|invalid|no text|none|refused (\d+))", text)
    if not found:
        return None
    return REFUSED + int(found[2]) if found[2] else {"missing": 5, "invalid": 6, "no text": 7, "none": 8}[found[1]]


def bases_check(row):
    def check(answer):
        got, text = answer.of("bases")[0], row.answer[0]
        if unresolved(text) is not None:
            return unlike([unresolved(text)], got)
        named = {name: None if number == "-" else int(number, 0) for name, number in re.findall(r"(\w+) (-|\w+)", text)}
        bases = values.Bases(*(named[it] for it in ("low_pc", "addr", "rnglists", "loclists", "str", "gnu")))
        return unlike(values.bases_line(bases, row.words[1] != "main"), got)
    return check


def placed(section, place, length):
    """Bytes, as a row has them."""
    return f"{place}:{section[place:place + length].hex() or '-'}"


def value_unlike(row, line, got):
    """How the address and the text of an attribute differ from those of a row's line."""
    name, address, text = re.fullmatch(r"(\w+) (0x\w+|none|\w+ \w+(?: \d+)?) (.*)", line).groups()
    status, found, refused, section, place, length = got[1:]
    told_status = unresolved(address) or 0
    wanted = [int(name, 16), told_status, 0 if told_status else int(address, 16), unresolved(text) or text]
    number = {0: 0, 8: 3, 9: 4, 11: 6}[section]
    return unlike(wanted, [got[0], status, found, refused or placed(row.section(number), place, length)])


def values_check(row):
    def check(answer):
        lines = answer.of("value")
        if len(lines) != len(row.answer):
            return f"wanted {row.answer}, got {answer.lines}"
        return next((it for line, got in zip(row.answer, lines) if (it := value_unlike(row, line, got))), None)
    return check


def version_of(info):
    at = 12 if info[:4] == b"\xff" * 4 else 4
    return int.from_bytes(info[at:at + 2], "little")


def named_lists(answer):
    """The list that an attribute names: by the index of the attribute, and whether locations are asked for."""
    lists, index = {}, -1
    for word, *numbers in answer.lines:
        numbers = [int(it) for it in numbers]
        if word == "named":
            index += numbers[2] == 0
            found = lists[index, numbers[2]] = {"name": numbers[0], "kind": numbers[1], "item": []}
        elif word == "item":
            found["item"].append(numbers)
        elif word == "list":
            found["list"] = numbers
    return lists


def item_text(row, item):
    begin, end, *bytes_of = item
    section = row.section(6 if version_of(row.section(0)) >= 5 else 5)
    return " ".join([f"{begin:x} {end:x}", *([placed(section, *bytes_of)] if bytes_of else [])])


def list_unlike(row, told, found):
    """How a list differs from what a row has: its items after commas, or why there is none."""
    status = unresolved(told)
    items = [] if status is not None else told.split(", ")[1:]
    refused = next((it for it in items if it.startswith("refused")), None)
    kept = items[:items.index(refused)] if refused else items
    if status is None:
        status = ROW_REFUSED + int(refused.split()[1]) if refused else END
    return unlike([kept, len(kept), status], [[item_text(row, it) for it in found["item"]], *found["list"]])


def lists_check(row):
    def check(answer):
        lists = named_lists(answer)
        if len(lists) != 2 * len(row.answer):
            return f"wanted {row.answer}, got {answer.lines}"
        for index, line in enumerate(row.answer):
            name, ranges, locations = re.fullmatch(r"(\w+)(?: ranges(.*?))?(?: locations(.*))?", line).groups()
            for which, told in enumerate((ranges, locations)):
                found = lists[index, which]
                if told is not None:
                    wrong = list_unlike(row, told.strip(), found)
                else:  # (the row goes by the attribute's name, the call by its kind)
                    wrong = None if found["kind"] in NAMES_LIST else unlike([0, NO_LIST], found["list"])
                if wrong or found["name"] != int(name, 16):
                    return f"{line}: {wrong}"
        return None
    return check


def holding_check(row):
    def check(answer):
        status, offset = answer.of("holding")[0]
        found = re.match(r"unit (\d+)", row.answer[0])
        if found:
            return unlike([0, int(found[1])], [status, offset])
        return unlike(END if row.answer[0] == "none" else unresolved(row.answer[0]), status)
    return check


def holds_check(row):
    def check(answer):
        wanted = {"true": 0, "false": END}.get(row.answer[0], unresolved(row.answer[0]))
        return unlike([[wanted]], answer.of("holds"))
    return check


def case_of(row):
    if row.call == "holding":
        return f"holding {row.big:d} 0 {hexed(row.section(0))} {row.words[1]}", holding_check(row)
    if row.call == "holds":
        parts = [hexed(row.section(it)) for it in range(6)]
        words = [*parts[:3], str(FILES[row.words[1]]), *parts[3:], str(int(row.words[2], 16))]
        return " ".join(["holds", f"{row.big:d} 0", *words]), holds_check(row)
    call, check = {"bases": ("bases", bases_check), "values": ("values", values_check), "lists": ("named", lists_check)}[row.call]
    parts = [hexed(row.section(it)) for it in range(7)]
    return " ".join([call, f"{row.big:d} 0", *parts[:3], str(FILES[row.words[1]]), *parts[3:]]), check(row)


# Values that no entry has

NUMBERS = (0, 1, 2, 3, 5, 6, 9, 10, 2**32, 2**61, 2**62, 2**63, 2**64 - 1)
TABLES = (0, 7, 8, 15, 16, 40, 48, 2**64 - 1)
ENCODINGS = tuple(product((4, 8, 0, 255), (2, 4, 5, 65535)))


def sections_of(big, word):
    """Sections of addresses, of texts, of which the last one has no end, and of their offsets."""
    offsets = b"".join(it.to_bytes(word, "big" if big else "little") for it in (0, 3, 6, 7, 99))
    return values.Sections(bytes(range(1, 49)), b"ab\0cd\0\0ef", b"x\0yz\0", bytes(range(8)) + offsets, b"s\0tu\0")


def made_values():
    """Whose format, version and size of addresses, tables, whether these are missing, kind and number."""
    for kind, number in product((*range(50), 255, 2**32 - 1), NUMBERS):
        yield 4, 5, 8, 8, 0, kind, number
        yield 8, 4, 0, 8, 1, kind, number
    for (word, version), size, table, number in product(ENCODINGS, (0, 1, 2, 3, 4, 8, 255), TABLES, NUMBERS):
        yield word, version, size, table, 0, values.ADDR_INDEX, number
    for (word, version), table, number in product(ENCODINGS, TABLES, NUMBERS):
        yield word, version, 8, table, 0, values.STR_INDEX, number


def made_check(encoding, sections, bases, attribute):
    return lambda answer: unlike(values.value_line(encoding, sections, bases, attribute), answer.of("value")[0])


def made_cases():
    for big in (False, True):
        for word, version, size, table, missing, kind, number in made_values():
            encoding = values.Encoding(big, word == 8, version, size)
            sections = sections_of(big, encoding.word)
            bases = values.bases_in(encoding, [0, table, 0, 0, table, 0], [missing] * 6)
            numbers = [word, version, size, table, table, missing, kind, number, 7]
            case = " ".join(["value", f"{big:d} 0", *map(hexed, sections), *map(str, numbers)])
            yield "a made value", case, made_check(encoding, sections, bases, (0, 0, kind, number, 7))
