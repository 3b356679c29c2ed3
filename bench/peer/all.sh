#!/usr/bin/env bash
# all.sh LIBRARY.a ROUNDS CORPUS..: builds the program with each kind of task, the library at two places, and prints a table of all tasks
# over all corpora: peer time / our time, least and greatest of both places and all corpora, for each order that a corpus has.
# KIT names the folder of the kit. What is made goes to TARGET (default: target beside this file), a folder for each kind.
set -euo pipefail
here=$(cd "$(dirname "$0")" && pwd)
library=$(realpath "$1") rounds=$2
shift 2
target=${TARGET:-$here/target}
for kind in entries cursors trees lists locations; do
    KIT=$KIT TASKS=$kind TARGET=$target/$kind "$here/build.sh" "a=$library" "b=$library" >&2
    for corpus in "$@"; do
        CORPUS=$corpus "$target/$kind/release/gimli_benches" "$rounds"
    done
done | awk '
    /DIFFERENT/ { print; next }
    match($0, /(run-time )?(little|big)  +[0-9]|whole slice +[0-9]/) {
        task = substr($0, 1, 16); sub(/ +$/, "", task)
        order = substr($0, 18, 17); sub(/ +$/, "", order)
        split(substr($0, 35), it)
        if (order ~ /big/) next
        key = task "\t" order
        if (!(key in least)) { keys[++count] = key; least[key] = it[1]; most[key] = it[1] }
        for (place = 1; place <= 2; place++) {
            if (it[place] < least[key]) least[key] = it[place]
            if (it[place] > most[key]) most[key] = it[place]
        }
    }
    END { for (at = 1; at <= count; at++) { split(keys[at], it, "\t"); printf "%-18s%-18s%s to %s\n", it[1], it[2], least[keys[at]], most[keys[at]] } }'
