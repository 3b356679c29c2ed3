"""What the tests have in common."""
import sys
from unittest.mock import patch

import gimli
from gimli import Refused


def same(what, found, wanted):
    if found != wanted:
        sys.exit(f"{what}: {found} beside {wanted}")


def refusal(call, *arguments, **named):
    """How a call is refused."""
    try:
        call(*arguments, **named)
    except Refused as refused:
        return refused
    sys.exit(f"{call} is not refused")


def fails(kind, text, call, *arguments, **named):
    """A call that ends with an exception of this kind and with a text in it."""
    try:
        call(*arguments, **named)
    except kind as why:
        return same(f"'{why}' says '{text}'", text in str(why), True)
    sys.exit(f"{call} is taken")


def with_and_without_numpy():
    """Each way in which arrays are given here."""
    yield ""
    if gimli.numpy_if_there():
        with patch("gimli_arrays.numpy_if_there", return_value=None):
            yield ", of ctypes"


# Bytes of units

def numbers(big, *pairs):
    """Numbers, each with how many bytes it has."""
    return b"".join(number.to_bytes(size, "big" if big else "little") for number, size in pairs)


def unit_of(big, entries, abbreviations_at=0):
    """A unit of version 4 with addresses of 8 bytes."""
    return numbers(big, (7 + len(entries), 4), (4, 2), (abbreviations_at, 4), (8, 1)) + entries


def unit_of_five(big, entries, kind=1):
    """The same of version 5."""
    return numbers(big, (8 + len(entries), 4), (5, 2), (kind, 1), (8, 1), (0, 4)) + entries


def declared(*attributes, code=1, tag=0x11, children=0):
    """A declaration of the attributes, each as its name and its form."""
    pairs = [uleb128(number) for pair in (*attributes, (0, 0)) for number in pair]
    return uleb128(code) + uleb128(tag) + bytes([children]) + b"".join(pairs)


def uleb128(number):
    out = b""
    while number > 127:
        out, number = out + bytes([number & 127 | 128]), number >> 7
    return out + bytes([number])
