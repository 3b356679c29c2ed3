#!/bin/bash
# run.sh [--some N]: gives the rows of the tables of tests, or some N of the cases, to the library
# that ../build.sh has built, by a C program with the compiler's checks (hostile.c), and compares
# answers.
set -euo pipefail
here=$(cd "$(dirname "$0")" && pwd)
built=$here/../target
mkdir -p "$built/checked"
cc -std=gnu11 -g -O1 -fsanitize=address,undefined -fno-sanitize-recover=undefined -Wall -Wextra -I"$here/../include" \
    -o "$built/checked/hostile" "$here/hostile.c" "$built/libgimli.a"
export ASAN_OPTIONS=detect_leaks=${LEAKS:-1}:exitcode=99 UBSAN_OPTIONS=exitcode=99 PYTHONDONTWRITEBYTECODE=1
python3 "$here/cases.py" "$@" "$built/checked/hostile"
