#!/bin/bash
# build.sh: makes of crates/gimli_c, which it proves where that is to do, what C, Rust and Python
# link: target/libgimli.a, target/libgimli.so and target/gimli.pc; and the C programs beside them.
# `build.sh test` runs the tests of all three too.
set -euo pipefail
here=$(cd "$(dirname "$0")" && pwd)
target=$here/target
kit=$(dirname "$(rt doc)")
mkdir -p "$target"
(cd "$here/../crates/gimli_c" && rt lib | tail -1)

# the archive, with the allocator over malloc, realloc and free
rm -rf "$target/heap" "$target/libgimli.a"
mkdir "$target/heap"
(cd "$target/heap" && ar x "$kit/c/liblibc_c.a")
cp "$here/../crates/gimli_c/out/libgimli_c.a" "$target/libgimli.a"
ar rs "$target/libgimli.a" "$target"/heap/*.o

calls=$(grep -o '^uint32_t gimli_[a-z_]*' "$here/include/gimli.h" | cut -d' ' -f2)
printf '{ global: %s local: *; };\n' "$(printf '%s; ' $calls)" > "$target/exports"
cc -shared -Wl,-soname,libgimli.so -o "$target/libgimli.so" -Wl,--whole-archive "$target/libgimli.a" -Wl,--no-whole-archive \
    -Wl,--version-script="$target/exports" -Wl,-z,defs
# names its own folder, so that it stays right where the tree moves; the archive is linked, as the
# shared library would have to be found
cat > "$target/gimli.pc" <<'PC'
libdir=${pcfiledir}
includedir=${pcfiledir}/../include

Name: gimli
Description: The proved DWARF reader
Version: 0.1
Cflags: -I${includedir}
Libs: -L${libdir} -l:libgimli.a
PC
for program in rows attrs lists values; do
    cc -std=c11 -O2 -Wall -Wextra -I"$here/include" -o "$target/$program" "$here/c/$program.c" "$target/libgimli.a"
done
cc -std=c11 -O2 -Wall -Wextra -I"$here/include" -Wl,--wrap=malloc -Wl,--wrap=realloc -o "$target/memory" "$here/c/memory.c" \
    "$target/libgimli.a"
if [ "${1:-}" = test ]; then "$here/test.sh"; fi
