#!/usr/bin/env bash
# bindings.sh ROUNDS CORPUS..: what bindings/build.sh has built beside gimli 0.27.0: all rows with
# their attributes and all rows alone from Rust, and from C with buffers of 64 and of 4,096 rows;
# then the instructions of one run of each by callgrind, in thousands. What is made goes to TARGET
# (default: target beside this file).
set -euo pipefail
here=$(cd "$(dirname "$0")" && pwd)
target=${TARGET:-$here/target}
built=$here/../../bindings/target
rounds=$1
shift
(cd "$here/bindings" && cargo build --release --offline --quiet --target-dir "$target")
program=$target/release/gimli_bindings_bench
count() { valgrind --tool=callgrind --callgrind-out-file=/dev/null "$@" 2>&1 | awk '/Collected/ { print $4 }'; }
for corpus in "$@"; do
    export CORPUS=$corpus
    echo "== $corpus"
    "$program" "$rounds"
    for room in 64 4096; do
        echo "C, rows:       $("$built/rows" "$corpus/info" "$corpus/abbrev" all $room "$rounds")"
        echo "C, attributes: $("$built/attrs" "$corpus/info" "$corpus/abbrev" $room $((4 * room)) "$rounds")"
        echo "by a table"
        echo "C, rows:       $("$built/rows" "$corpus/info" "$corpus/abbrev" all_by $room "$rounds")"
        echo "C, attributes: $("$built/attrs" "$corpus/info" "$corpus/abbrev" $room $((4 * room)) "$rounds" by)"
    done
    if [ -n "${COUNT-yes}" ]; then
        base=$(count "$program" one peer none)
        for task in attributes rows; do
            for side in peer ours; do
                echo "$task $side: $((($(count "$program" one $side $task) - base) / 1000)) thousand instructions"
            done
        done
        for room in 64 4096; do
            once=$(count "$built/rows" "$corpus/info" "$corpus/abbrev" all $room 1)
            echo "C, rows $room: $((($(count "$built/rows" "$corpus/info" "$corpus/abbrev" all $room 2) - once) / 1000)) thousand instructions"
        done
    fi
done
