"""Where libgimli.so is found, and its calls."""
import ctypes
import os
from ctypes import POINTER, c_size_t, c_uint8, c_uint32, c_uint64
from pathlib import Path

from gimli_structs import (Attr, Bases, Counted, Declaration, Entry, Filled, Location, Place, Range, Row, Sections, Specification,
                           String, Table, UnitHeader)


def places():
    """Where the library is looked for: where the environment variable GIMLI_LIBRARY says, as a file or as its folder; else beside
    this module, and then where bindings/build.sh leaves it."""
    named, here = os.environ.get("GIMLI_LIBRARY"), Path(__file__).resolve().parent
    if named:
        return [Path(named) / "libgimli.so" if os.path.isdir(named) else Path(named)]
    return [here / "libgimli.so", here.parent / "target/libgimli.so"]


def find():
    """The path of the library, the first of `places` at which it is."""
    for place in places():
        if place.is_file():
            return place
    looked = " and ".join(map(str, places()))
    raise FileNotFoundError(f"libgimli.so is not there: it was looked for at {looked}. bindings/build.sh builds it; "
                            "GIMLI_LIBRARY names another file or folder")


def load(path=None):
    """The library at a path, or without one where `find` finds it; what ctypes has loaded may be handed over too."""
    if isinstance(path, ctypes.CDLL):
        library = path
    elif path is None or isinstance(path, (str, os.PathLike)):
        path = os.fspath(find() if path is None else path)
        # (a name without a slash would be looked for in the system's folders alone)
        library = ctypes.CDLL(os.path.abspath(path) if os.path.exists(path) else path)
    else:
        raise TypeError(f"the library is a path, or what gimli.load gives, and no {type(path).__name__}; sections come after it, "
                        "or by name: gimli.Dwarf(debug_info=.., debug_abbrev=..)")
    try:
        return prepared(library)
    except AttributeError as missing:
        raise OSError(f"{path} is no libgimli.so of this version: {missing}") from None


def prepared(library):
    """The library with what each of its calls takes and gives."""
    sections, value = POINTER(Sections), [POINTER(UnitHeader), POINTER(Attr), POINTER(Bases)]
    for name, arguments in {
        "unit": [c_uint64, POINTER(UnitHeader)],
        "unit_holding": [c_uint64, POINTER(UnitHeader)],
        "unit_bases": [c_uint64, c_uint8, POINTER(Bases), c_size_t, POINTER(Bases)],
        "unit_holds": [c_uint64, POINTER(Bases), c_uint64],
        "rows": [c_uint64, POINTER(Place), POINTER(Row), c_size_t, POINTER(c_size_t)],
        "entries": [c_uint64, POINTER(Place), POINTER(Entry), c_size_t, POINTER(Attr), c_size_t, POINTER(Filled)],
        "table": [c_uint64, POINTER(Declaration), c_size_t, POINTER(Specification), c_size_t, POINTER(Counted)],
        "rows_by": [c_uint64, POINTER(Table), POINTER(Place), POINTER(Row), c_size_t, POINTER(c_size_t)],
        "entries_by": [c_uint64, POINTER(Table), POINTER(Place), POINTER(Entry), c_size_t, POINTER(Attr), c_size_t,
                       POINTER(Filled)],
        "sibling": [c_uint64, POINTER(Place), c_uint8, POINTER(Row)],
        "first_false": [c_uint64, POINTER(c_uint64)],
        "unit_of_address": [c_uint64, POINTER(c_uint64)],
        "attr_string": [*value, POINTER(String)],
        "attr_address": [*value, POINTER(c_uint64)],
        "ranges": [*value, POINTER(Range), c_size_t, POINTER(c_size_t)],
        "locations": [*value, POINTER(Location), c_size_t, POINTER(c_size_t)],
    }.items():
        call = getattr(library, "gimli_" + name)
        call.argtypes, call.restype = [sections, *arguments], c_uint32
    return library
