"""Arrays of structs: of numpy where it is there, else of ctypes."""
import ctypes
import mmap
from ctypes import byref
from functools import lru_cache

from gimli_structs import Attr, UnitEntry


@lru_cache(maxsize=None)
def numpy_if_there():
    try:
        import numpy
    except ImportError:
        return None
    return numpy


@lru_cache(maxsize=None)
def dtype_of(struct):
    """numpy's type of a struct. Field by field, as of a struct with free bytes after its fields numpy warns by itself."""
    import numpy
    names = [name for name, *_ in struct._fields_]
    return numpy.dtype({"names": names, "formats": [numpy.dtype(kind) for _, kind in struct._fields_],
                        "offsets": [getattr(struct, name).offset for name in names], "itemsize": ctypes.sizeof(struct)})


def buffer(struct, room):
    """Room for so many structs, which takes memory as it is written."""
    memory = mmap.mmap(-1, room * ctypes.sizeof(struct), flags=mmap.MAP_PRIVATE)
    return (struct * room).from_buffer(memory)


def view(struct, buffer, count):
    """The first structs of a buffer, without a copy: as an array of numpy where it is there, else of ctypes."""
    numpy = numpy_if_there()
    return numpy.frombuffer(buffer, dtype_of(struct), count) if numpy else (struct * count).from_buffer(buffer)


def joined(parts):
    """The entries and the attributes of units, each with where it begins, as two arrays."""
    counts = sum(len(rows) for _, rows, _ in parts), sum(len(attrs) for _, _, attrs in parts)
    rows, attrs = (view(it, buffer(it, count + 1), count) for it, count in zip((UnitEntry, Attr), counts))
    join = join_of_numpy if numpy_if_there() else join_of_ctypes
    row = attr = 0
    for unit, its_rows, its_attrs in parts:
        join(rows, attrs, row, attr, unit, its_rows, its_attrs)
        row, attr = row + len(its_rows), attr + len(its_attrs)
    return rows, attrs


def join_of_numpy(rows, attrs, row, attr, unit, its_rows, its_attrs):
    """Writes the entries of a unit and its attributes from here on."""
    # (as bytes, since field by field it takes three times as long)
    attrs[attr:attr + len(its_attrs)].view("V24")[:] = its_attrs.view("V24")
    to = rows[row:row + len(its_rows)]
    for name in its_rows.dtype.names:
        to[name] = its_rows[name]
    to["first"] += attr
    to["unit"] = unit


def join_of_ctypes(rows, attrs, row, attr, unit, its_rows, its_attrs):
    ctypes.memmove(byref(attrs, attr * ctypes.sizeof(Attr)), its_attrs, ctypes.sizeof(its_attrs))
    for i, it in enumerate(its_rows, row):
        rows[i] = UnitEntry(it.offset, it.depth, attr + it.first, it.attributes, it.tag, it.has_children, unit)
