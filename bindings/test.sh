#!/bin/bash
# test.sh: the tests of all three languages over what build.sh has built, on the real files of the
# repository.
set -euo pipefail
here=$(cd "$(dirname "$0")" && pwd)
target=$here/target
data=$here/../crates/gimli_vectors/data
for program in lists values; do "$target/$program"; done
# gimli.pc is right where the tree moves, and the header is plain C99 and C++
moved=$(mktemp -d)
trap 'rm -r "$moved"' EXIT
mkdir "$moved/target"
cp -r "$here/include" "$moved"
cp "$target/libgimli.a" "$target/gimli.pc" "$moved/target"
c++ -std=c++11 -pedantic -Wall -Wextra -Werror -fsyntax-only -x c++ "$moved/include/gimli.h"
for program in lists values; do
    cc -std=c99 -pedantic -Wall -Wextra -Werror -o "$moved/$program" "$here/c/$program.c" \
        $(pkg-config --cflags --libs "$moved/target/gimli.pc")
    "$moved/$program"
    c++ -std=c++11 -pedantic -Wall -Wextra -Werror -o "$moved/$program" -x c++ "$here/c/$program.c" -x none \
        $(pkg-config --cflags --libs "$moved/target/gimli.pc")
    "$moved/$program"
done
# what it says of statuses is what the Rust crate says
cc -std=c99 -pedantic -Wall -Wextra -Werror -I"$moved/include" -o "$moved/texts" "$here/c/texts.c"
c++ -std=c++11 -pedantic -Wall -Wextra -Werror -I"$moved/include" -o "$moved/texts_cc" -x c++ "$here/c/texts.c"
sed -n -e 's/^ *Error::\([A-Za-z]*\) => "\(.*\)",$/\1 \2/p' -e 's/^ *\([0-9]* \)[A-Za-z0-9]* "\(.*\)"$/\1\2/p' \
    "$here/rust/src/error.rs" > "$moved/texts.txt"
for program in texts texts_cc; do "$moved/$program" | diff - "$moved/texts.txt"; done
# and what the Python module says
export PYTHONPATH=$here/python PYTHONDONTWRITEBYTECODE=1
python3 -c 'import gimli
for name, text in [*gimli.OTHER_REFUSALS.values(), gimli.UNKNOWN_STATUS]: print(name, text)
for number, (_, text) in enumerate(gimli.REFUSALS, 1): print(number, text)' | diff - "$moved/texts.txt"
# the names of codes are those of the table, and the same in C and Python
(cd "$here/.." && tools/constants.py --check)
python3 -c 'import gimli_constants
for kind in "tag at form lang ut rle lle ate ds end access vis virtuality id cc inl ord addr".split():
    codes = 2 if kind == "addr" else 0x10000 if kind in ("tag", "at", "form", "lang") else 0x100
    for code in range(codes): print(kind, hex(code), getattr(gimli_constants, kind + "_name")(code).partition(": 0x")[0])' \
    > "$moved/names.txt"
for codes in "" -DGIMLI_NO_CODES; do
    cc -std=c99 -pedantic -Wall -Wextra -Werror $codes -I"$moved/include" -o "$moved/names" "$here/c/names.c"
    "$moved/names" | cmp - "$moved/names.txt"
    c++ -std=c++11 -pedantic -Wall -Wextra -Werror $codes -I"$moved/include" -o "$moved/names" -x c++ "$here/c/names.c"
    "$moved/names" | cmp - "$moved/names.txt"
done
# ends STATUS WORDS..: a program ends with this status
ends() {
    local wanted=$1 status=0
    shift
    "$@" > "$moved/told" 2> "$moved/errors" || status=$?
    if [ $status != "$wanted" ]; then echo "'$*' ends with $status"; cat "$moved/errors"; exit 1; fi
}
# a refusal is no end: of a unit that is cut, and in the other byte order
head -c 100 "$data/c-gcc-d4.info" > "$moved/cut.info"
printf '\0\0\0\11\0\4\0\0\0\0\10\1\0' > "$moved/other.info"
for info in cut other; do
    for words in "1 rows" "1 attrs" "3 memory"; do
        ends ${words% *} "$target/${words#* }" "$moved/$info.info" "$data/c-gcc-d4.abbrev"
        grep -q '^the unit at 0x0: The input ends before what should stand there\.$' "$moved/errors"
    done
done
# a pipe has no size, and is refused
for program in rows attrs memory; do ends 3 "$target/$program" <(echo) /dev/null; done
# and so is room whose bytes are more than a number says
ends 4 "$target/rows" "$data/c-gcc-d4.info" "$data/c-gcc-d4.abbrev" first $((1 << 61))
ends 4 "$target/attrs" "$data/c-gcc-d4.info" "$data/c-gcc-d4.abbrev" $((1 << 61))
ends 4 "$target/attrs" "$data/c-gcc-d4.info" "$data/c-gcc-d4.abbrev" 1 $((1 << 61))
# a unit of 70,000 rows is more than the program that refuses memory has room for
printf '\167\21\1\0\4\0\0\0\0\0\10' > "$moved/many.info"
head -c 70000 /dev/zero | tr '\0' '\1' >> "$moved/many.info"
printf '\1\64\0\0\0\0' > "$moved/many.abbrev"
ends 5 "$target/memory" "$moved/many.info" "$moved/many.abbrev"
files=0
for info in "$data"/*.info; do
    file=${info%.info}
    for room in 0 1 3 64 4096; do
        for units in first first_by; do
            timeout 60 "$target/rows" "$info" "$file.abbrev" $units "$room" | cmp - "$file.rows"
        done
        cmp <(timeout 60 "$target/attrs" "$info" "$file.abbrev" "$room" "$room") \
            <(timeout 60 "$target/attrs" "$info" "$file.abbrev" "$room" "$room" 0 by)
    done
    "$target/memory" "$info" "$file.abbrev" > "$target/memory.txt" || { cat "$target/memory.txt"; exit 1; }
    python3 "$here/python/gimli.py" "$target/libgimli.so" "$info" "$file.abbrev" | cmp - "$file.rows"
    files=$((files + 1))
done
echo "C and Python: $files files, same"
# each call of the module, without a warning, also by a Python that has numpy
numpy=
for python in python3 ${PYTHON:-} /usr/bin/python3; do
    if [ "$python" != python3 ] && { [ -n "$numpy" ] || ! "$python" -c 'import numpy' 2> "$moved/told"; }; then continue; fi
    timeout 300 "$python" -W error "$here/python/test_gimli.py" "$target/libgimli.so" "$target/attrs" "$data"
    if "$python" -c 'import numpy' 2> "$moved/told"; then numpy=$python; fi
done
if [ -z "$numpy" ]; then echo "Python: arrays of numpy were not tried, as no Python has it"; fi
# what is installed has the library beside it, also where the tree is gone
pip=
for python in python3 ${PYTHON:-} /usr/bin/python3; do
    if "$python" -c 'import setuptools, wheel' 2> "$moved/told" && "$python" -m pip --version > "$moved/told"; then pip=$python; fi
done
if [ -n "$pip" ]; then
    mkdir -p "$moved/tree/target"
    cp -r "$here/python" "$moved/tree"
    cp "$target/libgimli.so" "$moved/tree/target"
    PIP_ROOT_USER_ACTION=ignore "$pip" -m pip install --quiet --no-build-isolation --no-index --no-deps --target "$moved/site" \
        "$moved/tree/python"
    rm -r "$moved/tree"
    found=$(cd / && PYTHONPATH=$moved/site "$pip" -c 'import gimli; gimli.Dwarf(); print(gimli.find())')
    if [ "$found" != "$moved/site/libgimli.so" ]; then echo "the library is found at $found"; exit 1; fi
    echo "pip install: the modules and the library"
else
    echo "pip install: not tried, as no Python has pip, setuptools and wheel"
fi
# the programs of the pages
"$here/pages.py"
"$here/hostile/run.sh" --some 400
# the crate where the library is not beside it: GIMLI_LIBRARY names its folder, or the library
mkdir "$moved/fresh"
cp -r "$here/rust" "$moved/rust"
rm -rf "$moved/rust/target"
(cd "$moved/fresh" && cargo init --quiet && cargo add --quiet --offline --path "$moved/rust"
echo 'fn main() { assert!(gimli_proved::Sections::default().units().next().is_none()) }' > src/main.rs
for library in "$target" "$target/libgimli.a"; do GIMLI_LIBRARY=$library cargo run --quiet --offline; done)
cd "$here/rust"
cargo test --quiet
RUSTDOCFLAGS="-D warnings" cargo doc --quiet --no-deps
# the crate needs no std
cargo build --quiet
rustc --edition 2024 --crate-type rlib --emit metadata -C panic=abort --extern gimli_proved=target/debug/libgimli_proved.rlib \
    -o target/no_std.rmeta no_std.rs
cd "$here"
if pkg-config --exists libelf && [ -d /usr/share/cargo/registry/object-0.30.0 ]; then
    "$here/examples/test.sh"
else
    echo "examples: not tried, as libelf-dev or librust-object-dev is not there"
fi
