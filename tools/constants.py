#!/usr/bin/env python3
"""Writes the names of DWARF's codes for C, Rust and Python, from the table of constants that crates/gimli_base has.

usage: tools/constants.py [--check]    at the top of the repository; with --check nothing is written, and the status is 1 where a
                                       file is another than would be

A kind of codes is a struct of constants.rt, as DwTag, with the text above it. Its codes are the constants of that type, there and
in constants/*.rt, in their order. Where two names have one code the first is the name of the code. Constants of plain numbers, as
DW_CHILDREN_yes, are left out.
"""
import glob, re, sys

TABLE = ["crates/gimli_base/src/constants.rt", *sorted(glob.glob("crates/gimli_base/src/constants/*.rt"))]
KIND = re.compile(r"^/// (.*)\n#\[derive\(.*\)\]\npub struct (Dw\w+)\(pub u(\d+)\);$", re.M)
CODE = re.compile(r"^pub const (DW_\w+): (Dw\w+) = Dw\w+\((0x[0-9a-f]+)\);$", re.M)
ORIGIN = "Written by tools/constants.py from the table of crates/gimli_base (src/constants.rt and what is below it): change that"


class Kind:
    """A kind of codes: its text, its name, the bits of its numbers, and its names with their codes."""

    def __init__(self, text, name, bits, codes):
        self.text, self.name, self.bits, self.codes = text, name, bits, codes
        # as `tag` of DwTag
        self.word = name[2:].lower()

    def first(self):
        """The names that their codes have, each with its code."""
        return [(name, code) for i, (name, code) in enumerate(self.codes) if int(code, 16) not in self.numbers(i)]

    def others(self):
        """The names whose codes have another name."""
        return [it for it in self.codes if it not in self.first()]

    def numbers(self, end):
        return {int(code, 16) for _, code in self.codes[:end]}


def kinds():
    text = "\n".join(open(path, encoding="utf-8").read() for path in TABLE)
    codes = CODE.findall(text)
    if len(codes) != len(re.findall(r"\bDW_\w+: Dw", text)):
        sys.exit("tools/constants.py: a constant of the table is written in another way than is read")
    found = [Kind(*it, [(name, code) for name, kind, code in codes if kind == it[1]]) for it in KIND.findall(text)]
    for kind in found:
        if not all(name.startswith(f"DW_{kind.word.upper()}_") for name, _ in kind.codes):
            sys.exit(f"tools/constants.py: a code of {kind.name} has another name than DW_{kind.word.upper()}_..")
    return found


def c_header(found):
    out = [f"""/* The codes of DWARF by their names, and functions that name a code.

   {ORIGIN}.

   A function answers "Unknown DwTag" and the like for a code that has no name, and never null; other
   texts begin with DW_. Where another header has names DW_.. too, as dwarf.h of libdw, define
   GIMLI_NO_CODES before this one: then it has the functions alone. */
#ifndef GIMLI_CONSTANTS_H
#define GIMLI_CONSTANTS_H

#include <stdint.h>

#ifdef __cplusplus
extern "C" {{
#endif

"""]
    for kind in found:
        out.append(f"/* {kind.text} */\n#ifndef GIMLI_NO_CODES\nenum gimli_{kind.word} {{\n")
        out.append(",\n".join(f"    {name} = {code}" for name, code in kind.codes))
        out.append(f"\n}};\n#endif\n\nstatic inline const char *gimli_{kind.word}_name(uint{kind.bits}_t code) {{\n")
        out.append("    switch (code) {\n")
        out += [f'    case {code}: return "{name}";\n' for name, code in kind.first()]
        out.append(f'    }}\n    return "Unknown {kind.name}";\n}}\n\n')
    out.append("#ifdef __cplusplus\n}\n#endif\n#endif\n")
    return "".join(out)


def rust_module(found):
    out = [f"""//! The codes of DWARF by their names, each a number of its own kind, as gimli has them.
//!
//! {ORIGIN}.
//!
//! ```
//! use gimli_proved::{{DW_TAG_subprogram, DwTag}};
//!
//! assert_eq!(DwTag(0x2e), DW_TAG_subprogram);
//! assert_eq!(DwTag(0x2e).to_string(), "DW_TAG_subprogram");
//! assert_eq!("DW_TAG_subprogram".parse(), Ok(DW_TAG_subprogram));
//! assert_eq!(DwTag(0x1234).to_string(), "Unknown DwTag: 0x1234");
//! ```
#![allow(missing_docs, non_upper_case_globals)]

use crate::names::codes;
"""]
    for kind in found:
        out.append(f"\ncodes! {{\n    /// {kind.text}\n    {kind.name}(u{kind.bits})\n    names {{\n")
        out += [f"        {name} = {code},\n" for name, code in kind.first()]
        out.append("    }\n    other names {\n" if kind.others() else "    }\n    other names {}\n")
        out += [f"        {name} = {code},\n" for name, code in kind.others()]
        out.append("    }\n}\n" if kind.others() else "}\n")
    return "".join(out)


def python_module(found):
    out = [f'''"""The codes of DWARF by their names, and functions that name a code.

    TAG["DW_TAG_subprogram"], DW_TAG_subprogram    are 0x2e
    tag_name(0x2e)                                 is "DW_TAG_subprogram"
    tag_name(0x1234)                               is "Unknown DwTag: 0x1234"

{ORIGIN}.
"""


def _codes(prefix):
    """The codes above whose names begin with these letters, by their names."""
    return {{name: code for name, code in globals().items() if name.startswith(prefix)}}


def _names(codes):
    """The names of codes, of each the first."""
    return {{code: name for name, code in reversed(codes.items())}}


def _name(kind, names, code):
    return names.get(code) or f"Unknown {{kind}}: {{code:#x}}"
''']
    for kind in found:
        upper = kind.word.upper()
        out.append(f"\n\n# {kind.text}\n")
        out += [f"{name} = {code}\n" for name, code in kind.codes]
        out.append(f"{upper} = _codes(\"DW_{upper}_\")\n_{upper}_NAMES = _names({upper})\n\n\ndef {kind.word}_name(code):\n")
        out.append(f"    \"\"\"The name of a code of {kind.name}, or where it has none \"Unknown {kind.name}: 0x12\".\"\"\"\n")
        out.append(f"    return _name(\"{kind.name}\", _{upper}_NAMES, code)\n")
    return "".join(out)


FILES = {
    "bindings/include/gimli_constants.h": c_header,
    "bindings/rust/src/constants.rs": rust_module,
    "bindings/python/gimli_constants.py": python_module,
}


def read(path):
    try:
        return open(path, encoding="utf-8").read()
    except FileNotFoundError:
        return None


def main(words):
    found = kinds()
    status = 0
    for path, text_of in FILES.items():
        text = text_of(found)
        if words != ["--check"]:
            open(path, "w", encoding="utf-8").write(text)
        elif read(path) != text:
            print(f"{path} is not what tools/constants.py writes")
            status = 1
    return status


if __name__ == "__main__":
    if sys.argv[1:] not in ([], ["--check"]):
        sys.exit(__doc__)
    sys.exit(main(sys.argv[1:]))
