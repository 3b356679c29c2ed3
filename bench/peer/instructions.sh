#!/bin/bash
# instructions.sh TASK ORDER SIDE..: instructions of one run by callgrind, which no noise and no code placement moves.
# CORPUS names the folder with the sections; TARGET (default: target beside this file) is that of build.sh.
here=$(cd "$(dirname "$0")" && pwd)
program=${TARGET:-$here/target}/release/gimli_benches
count() { valgrind --tool=callgrind --callgrind-out-file=/dev/null "$program" one "$@" 2>&1 | grep Collected | awk '{print $4}'; }
task=$1 order=$2
shift 2
base=$(count peer 99 0)
for side in "$@"; do
    echo "task $task order $order $side: $((($(count "$side" "$task" "$order") - base) / 1000)) thousand"
done
