"""The rows of the tables of tests (crates/gimli_vectors/data/*.txt), and the lines of an answer."""
import re
from pathlib import Path

ROOT = Path(__file__).resolve().parents[2]
DATA = ROOT / "crates/gimli_vectors/data"


# Rows of tables

def read_bytes(text, names):
    """The bytes of a section, as crates/test_tables says."""
    out = b""
    for word in text.split():
        if word.startswith("$"):
            out += names[word[1:]]
        elif "*" in word:
            digits, times = word.split("*")
            out += bytes.fromhex(digits) * int(times)
        else:
            out += bytes.fromhex(word)
    return out


class Row:
    """A case of a table: whose calls the table names, its order, its words, the place of the first
    section, the sections and the lines of its answer for offsets of 64 bits.
    """

    def __init__(self, where, calls, big, words, sections, answer):
        self.where, self.calls, self.big, self.sections, self.answer = where, calls, big, sections, answer
        self.words = [it for it in words if not it.startswith("@")]
        self.place = next((int(it[1:]) for it in words if it.startswith("@")), 0)

    @property
    def call(self):
        return self.words[0]

    def section(self, index):
        return self.sections[index] if index < len(self.sections) else b""


def expanded(line):
    """The lines that a line stands for."""
    if not line.startswith("over "):
        return [line]
    _, first, last, rest = line.split(" ", 3)
    return [rest.replace("{hex}", f"{it:02x}").replace("{dec}", str(it)) for it in range(int(first), int(last) + 1)]


def rows_of(path):
    names, calls = {}, "reads"
    for number, text in enumerate(path.read_text().splitlines(), 1):
        if not text or text.startswith("#"):
            continue
        if text.startswith("calls of "):
            calls = text[len("calls of "):]
            continue
        named = re.match(r"(\w+) := ?(.*)", text)
        if named:
            names[named[1]] = read_bytes(named[2], names)
            continue
        for line in expanded(text):
            call, _, answer = line.partition(" =")
            words, *sections = re.split(r" :(?= |$)", call)
            words = words.split()
            orders = [words[0] == "big"]
            if words[0] in ("big", "each"):
                orders = [False, True] if words.pop(0) == "each" else [True]
            lines = [it.strip() for it in answer.split(" | ")[0].strip().split("; ")]
            for big in orders:
                yield Row(f"{path.name}:{number}", calls, big, words, [read_bytes(it, names) for it in sections], lines)


class Answer:
    """The lines that the program prints for a case."""

    def __init__(self, lines):
        self.lines = [line.split() for line in lines]

    def of(self, word):
        return [[int(it) for it in line[1:]] for line in self.lines if line[0] == word]

    def units(self):
        """Each unit's header, with its rows, how they end and its first false reference."""
        found = []
        for word, *numbers in self.lines:
            numbers = [int(it) for it in numbers]
            if word == "unit":
                found.append({"header": numbers, "row": [], "attr": [], "sibling": []})
            elif word == "attr" and found:
                found[-1]["attr"].append((len(found[-1]["row"]) - 1, numbers))
            elif word in ("row", "sibling") and found:
                found[-1][word].append(numbers)
            elif word in ("rows", "false") and found:
                found[-1][word] = numbers
        return found


def hexed(section):
    return section.hex() or "-"


def unlike(wanted, got):
    return None if wanted == got else f"wanted {wanted}, got {got}"
