#!/bin/bash
# sanitize.sh: runs the C programs over the library that build.sh has built with the compiler's
# checks of addresses, leaks and undefined behaviour: on the real files, on each of them cut at
# many places, and on all rows of the tables of tests, whose answers are compared (hostile/cases.py).
# The checks see the C side and the allocator; after each section and each buffer of hostile.c no
# page is mapped.
set -euo pipefail
here=$(cd "$(dirname "$0")" && pwd)
target=$here/target
data=$here/../crates/gimli_vectors/data
export ASAN_OPTIONS=detect_leaks=0:exitcode=99 UBSAN_OPTIONS=exitcode=99
mkdir -p "$target/checked"
for program in rows attrs lists values; do
    cc -std=c11 -g -O1 -fsanitize=address,undefined -fno-sanitize-recover=undefined -I"$here/include" \
        -o "$target/checked/$program" "$here/c/$program.c" "$target/libgimli.a"
done
for program in lists values; do "$target/checked/$program"; done
runs=0
for info in "$data"/*.info; do
    file=${info%.info}
    "$target/checked/rows" "$info" "$file.abbrev" first 64 | cmp - "$file.rows"
    size=$(stat -c %s "$info")
    for cut in 0 1 11 12 $((size / 3)) $((size - 1)); do
        head -c "$cut" "$info" > "$target/cut.info"
        head -c "$((cut / 2))" "$file.abbrev" > "$target/cut.abbrev"
        for abbrev in "$file.abbrev" "$target/cut.abbrev"; do
            for program in rows attrs; do
                "$target/checked/$program" "$target/cut.info" "$abbrev" > /dev/null 2> "$target/told" || test $? -le 1 \
                    || { cat "$target/told"; exit 1; }
                runs=$((runs + 1))
            done
        done
    done
done
echo "$runs runs on cut files without a report"
"$here/hostile/run.sh"
