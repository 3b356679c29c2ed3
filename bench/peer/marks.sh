#!/usr/bin/env bash
# marks.sh [ROOM]: proves and builds the work that is timed (marks/), in a copy of the repository below ROOM (default: target/marks
# beside this file), and prints where its library lies. What checks of the libraries have kept in out/ is taken along.
#
# The gate proves what crates.txt names. The work that is timed is no part of it, and the kit refuses a .rt file that no crate
# reads: so its files end in .rs here, and in .rt in the copy.
set -euo pipefail
here=$(cd "$(dirname "$0")" && pwd)
room=${1:-$here/target/marks}
libraries="gimli_base gimli_units gimli_headers gimli_lists"
made=$room/crates/gimli_marks
mkdir -p "$made/src"
cp "$here/../../HANDLES" "$room/HANDLES"
for library in $libraries; do
    grep "^$library:" "$here/../../crates.txt"
    if [[ ! -d $room/crates/$library/out ]]; then
        rm -rf "$room/crates/$library"
        cp -a "$here/../../crates/$library" "$room/crates/$library"
    fi
    for part in src specs proofs; do
        rm -rf "$room/crates/$library/$part"
        cp -a "$here/../../crates/$library/$part" "$room/crates/$library/$part"
    done
done > "$room/crates.txt"
echo "gimli_marks staticlib: $libraries" >> "$room/crates.txt"
rm -f "$made"/src/*.rt
for file in "$here"/marks/src/*.rs; do
    name=$(basename "$file" .rs)
    cp "$file" "$made/src/$name.rt"
done
(cd "$made" && rt lib) >&2
echo "$made/out/libgimli_marks.a"
