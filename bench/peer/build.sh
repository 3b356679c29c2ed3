#!/bin/bash
# build.sh NAME=LIBRARY.a ..: renames the export of each library to gimli_marks_NAME and builds the program.
# TASKS is entries (the default), cursors, trees, lists or locations; KIT names the folder of the kit; TARGET (default: target beside this
# file) takes what is made.
set -e
here=$(cd "$(dirname "$0")" && pwd)
export CARGO_TARGET_DIR=${TARGET:-$here/target}
mkdir -p "$CARGO_TARGET_DIR/libraries"
LIBRARIES=
for pair in "$@"; do
    name=${pair%%=*}
    objcopy --redefine-sym gimli_marks=gimli_marks_$name "${pair#*=}" "$CARGO_TARGET_DIR/libraries/$name.a"
    LIBRARIES="$LIBRARIES $name=$CARGO_TARGET_DIR/libraries/$name.a"
done
export LIBRARIES
cd "$here" && cargo build --release --offline --features "${TASKS:-entries}"
