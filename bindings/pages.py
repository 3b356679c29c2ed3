#!/usr/bin/env python3
"""pages.py: tries each program of the section for C, Rust and Python of the README.md at the top, and of the README.md beside
this file, over what build.sh has built. It is compiled as the page says, where `bindings` is found as from the top of the
repository. It is run on a real file, and on units in the other byte order and units that are cut, whose refusal it has to tell.
The programs of a page print the same, but for those that use numpy, which are run where PYTHON or another Python has it.
"""
import os
import re
import subprocess
import sys
import tempfile
from pathlib import Path

BINDINGS = Path(__file__).resolve().parent
TOP = BINDINGS.parent
DATA = TOP / "crates/gimli_vectors/data"
BLOCK = re.compile(r"^```(\w+)\n(.*?)^```$", re.M | re.S)
# a unit of version 4 in the other byte order, and what is said of it and of one that is cut
OTHER_ORDER = bytes.fromhex("00000009 0004 00000000 08 0100")
CUT = "The input ends before what should stand there."


def pages():
    """The pages, each with the text in which programs are tried."""
    top = (TOP / "README.md").read_text()
    yield "README.md", re.search(r"^## For C, Rust and Python\n(.*?)^## ", top, re.M | re.S)[1]
    yield "bindings/README.md", (BINDINGS / "README.md").read_text()


def ran(words, folder, **more):
    return subprocess.run(words, cwd=folder, stdout=subprocess.PIPE, stderr=subprocess.PIPE, text=True, timeout=600, **more)


def must(words, folder, **more):
    done = ran(words, folder, **more)
    if done.returncode or done.stderr:
        sys.exit(f"pages: '{words}' ends with {done.returncode}:\n{done.stdout}{done.stderr}")


def python_with_numpy():
    for python in filter(None, (os.environ.get("PYTHON"), sys.executable, "/usr/bin/python3")):
        if Path(python).exists() and ran([python, "-c", "import numpy"], "/").returncode == 0:
            return python
    return None


# How a program of each language is made in a folder: the words that start it, or None where it can't be tried

def of_c(folder, text, _):
    file, command = re.match(r"/\* (\w+\.c): (cc -o \w+ .*) \*/", text).groups()
    (folder / file).write_text(text)
    must(command.replace("cc ", "cc -std=gnu11 -Wall -Wextra -Werror ", 1), folder, shell=True)
    return [f"./{file[:-2]}"]


def of_rust(folder, text, dependencies):
    must(["cargo", "init", "--quiet", "--name", "page", "."], folder)
    if dependencies:
        (folder / "Cargo.toml").write_text((folder / "Cargo.toml").read_text().replace("[dependencies]\n", dependencies))
    else:
        must(["cargo", "add", "--quiet", "--offline", "--path", "bindings/rust"], folder)
    (folder / "src/main.rs").write_text(text)
    must(["cargo", "build", "--quiet", "--offline"], folder, env={**os.environ, "RUSTFLAGS": "-D warnings"})
    return ["target/debug/page"]


def of_python(folder, text, _):
    python = python_with_numpy() if "numpy" in text else sys.executable
    (folder / "page.py").write_text(text)
    return python and [python, "-W", "error", "page.py"]


WAYS = {"c": of_c, "rust": of_rust, "python": of_python}


def last_unit(info):
    """Where the last unit of a section begins, whose lengths are of four bytes."""
    at, after = 0, 0
    while after < len(info):
        at, after = after, after + 4 + int.from_bytes(info[after:after + 4], "little")
    return at


def told(words, folder, info, abbrev):
    """What a program prints of two sections, its status and what it says on stderr."""
    files = []
    for name, section in ("info", info), ("abbrev", abbrev):
        (folder / name).write_bytes(section)
        files.append(str(folder / name))
    done = ran([*words, *files], folder, env={**os.environ, "PYTHONPATH": "bindings/python", "PYTHONDONTWRITEBYTECODE": "1"})
    return done.stdout, done.returncode, done.stderr


def try_program(language, text, dependencies):
    """What a program prints of a real file, or None where it can't be tried."""
    info, abbrev = ((DATA / f"c-gcc-d4.{it}").read_bytes() for it in ("info", "abbrev"))
    with tempfile.TemporaryDirectory(prefix="pages-") as room:
        folder = Path(room)
        (folder / "bindings").symlink_to(BINDINGS)
        words = WAYS[language](folder, text, dependencies)
        if words is None:
            return None
        printed, status, errors = told(words, folder, info, abbrev)
        if status or errors or not printed:
            sys.exit(f"pages: a program in {language} ends with {status}: {errors}\n{text}")
        for section, unit in (OTHER_ORDER, 0), (info[:-1], last_unit(info)), (info + OTHER_ORDER, len(info)):
            _, status, errors = told(words, folder, section, abbrev)
            if status != 1 or not errors.startswith(f"the unit at {unit:#x}: {CUT}"):
                sys.exit(f"pages: a program in {language} hides a refusal: it ends with {status}, and says '{errors}'\n{text}")
        return printed


def main():
    tried, left = 0, 0
    for page, whole in pages():
        blocks = BLOCK.findall(whole)
        dependencies = "".join(text for language, text in blocks if language == "toml")
        printed = {}
        for language, text in blocks:
            if language in WAYS:
                it = try_program(language, text, dependencies)
                tried, left = tried + (it is not None), left + (it is None)
                if it is not None and "numpy" not in text:
                    printed[language] = it
        if len(set(printed.values())) != 1:
            sys.exit(f"pages: the programs of {page} print different things")
    without = f"; {left} not tried, as numpy is not there" if left else ""
    print(f"pages: {tried} programs run as they stand and tell what is refused{without}")


if __name__ == "__main__":
    main()
