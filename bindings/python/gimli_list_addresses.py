"""The address that a list names by an index and that is not there, for what a refusal says."""

# What the entries of a list have after their kind, from kind 1 on (DWARF 5, 7.25 and 7.7.3): indices of .debug_addr, addresses,
# LEB128 numbers, lengths and expressions.
RANGES = "x", "xx", "xu", "uu", "a", "aa", "au"
LOCATIONS = "x", "xxe", "xle", "uue", "e", "a", "aae", "aue"


class Entries:
    """The entries of a list, from an offset of its section on. What is cut there raises EOFError."""

    def __init__(self, dwarf, unit, section, offset):
        self.dwarf, self.unit, self.section, self.offset = dwarf, unit, section, offset
        self.kinds = RANGES if section == "rnglists" else LOCATIONS

    def number(self, size):
        number = self.dwarf.number_at(self.section, self.offset, size)
        if number is None:
            raise EOFError
        self.offset += size
        return number

    def uleb128(self):
        number = shift = 0
        while (byte := self.number(1)) > 127:
            number, shift = number | (byte & 127) << shift, shift + 7
        return number | byte << shift

    def length(self, size):
        """A length, which has so many bytes before version 5."""
        return self.number(size) if self.unit.version < 5 else self.uleb128()

    def operand(self, letter):
        """Passes an operand; the index, if it is one."""
        if letter == "e":
            self.number(self.length(2))
        elif letter == "a":
            self.number(self.unit.address_size)
        elif letter == "l":
            self.length(4)
        else:
            number = self.uleb128()
            return number if letter == "x" else None
        return None

    def indices(self):
        """The indices of each entry, up to the end of the list or what is no entry."""
        while 1 <= (kind := self.number(1)) <= len(self.kinds):
            found = [self.operand(letter) for letter in self.kinds[kind - 1]]
            yield from (index for index in found if index is not None)


def index_without_address(dwarf, unit, base, section, offset):
    """The first index of a list without an address in .debug_addr, from the base on if there is one; None where reading the list
    stops before any, as where its entries have no index."""
    size = unit.address_size
    try:
        for index in Entries(dwarf, unit, section, offset).indices():
            if base is None or dwarf.number_at("addresses", base + index * size, size) is None:
                return index
    except EOFError:
        pass
    return None
