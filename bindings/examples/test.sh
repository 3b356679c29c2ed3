#!/bin/bash
# test.sh: builds the examples over what bindings/build.sh has built, and asks function_at in the three
# languages for the functions of programs that gcc and clang make. The three answers are the same, and
# so is that of pyelftools' own reader (oracle.py); the name is addr2line's. What functions, lists and
# tags print is compared by compare.py. Debian's packages libelf-dev, librust-object-dev and
# python3-pyelftools have to be there.
set -euo pipefail
here=$(cd "$(dirname "$0")" && pwd)
target=$here/../target
made=$target/examples
mkdir -p "$made"
python=
for it in "${PYTHON:-python3}" /usr/bin/python3; do
    if [ -z "$python" ] && "$it" -c 'import elftools' 2> "$made/told"; then python=$it; fi
done
if [ -z "$python" ]; then echo "examples: no Python has pyelftools (python3-pyelftools)"; exit 1; fi
for example in function_at functions lists tags; do
    cc -std=gnu11 -O2 -Wall -Wextra -o "$made/${example}_c" "$here/c/$example.c" \
        $(pkg-config --cflags --libs "$target/gimli.pc") $(pkg-config --cflags --libs libelf)
done
(cd "$here/rust" && cargo build --release --quiet --locked --target-dir "$made/rust")

# run LANGUAGE EXAMPLE WORDS..: what an example of a language prints
run() {
    local language=$1 example=$2
    shift 2
    case $language in
        c) "$made/${example}_c" "$@" ;;
        rust) "$made/rust/release/$example" "$@" ;;
        python) "$python" "$here/python/$example.py" "$@" ;;
    esac
}

# ask LANGUAGE PROGRAM ADDRESS: what function_at of a language prints
ask() {
    local language=$1
    shift
    run "$language" function_at "$@"
}

# addresses PROGRAM: the first and the last address of each of its functions, those of parts too,
# and some that have none
addresses() {
    nm --defined-only --print-size "$1" | while read -r start size kind name; do
        case $kind:$name in
            [tTwW]:_init | [tTwW]:_fini | [tTwW]:_start) ;;
            [tTwW]:*) printf '%x\n%x\n' "0x$start" $((0x$start + 0x${size:-1} - 1)) ;;
        esac
    done | sort -u | grep -v '^0$'
    echo 10
    echo fffffffffffffff0
}

asked=0 programs=0 split=0
try() {
    local program=$made/$1 address wanted name
    shift
    "$@" -o "$program"
    addresses "$program" > "$made/addresses"
    "$python" "$here/oracle.py" "$program" $(cat "$made/addresses") > "$made/wanted"
    for language in c rust python; do
        for address in $(cat "$made/addresses"); do
            echo "== $address"
            ask $language "$program" "$address" || test $? = 1
        done > "$made/answers.$language"
        if ! diff "$made/wanted" "$made/answers.$language"; then echo "$language: another answer for $program"; exit 1; fi
    done
    # the last name of addr2line is that of the function which others are inlined into; ?? where
    # there is none
    for address in $(cat "$made/addresses"); do
        name=$(addr2line -f -i -e "$program" "0x$address" | tail -2 | head -1)
        wanted=$(awk -v at="== $address" '/^==/ { on = $0 == at } on && /^function / { name = $2 } on && /^linkage name / { name = $3 }
            END { print name == "" ? "??" : name }' "$made/wanted")
        if [ "$name" != "$wanted" ] && grep -A1 "^== $address\$" "$made/wanted" | grep -q ^unit; then
            echo "$program $address: $wanted beside addr2line's $name"; exit 1
        fi
        asked=$((asked + 1))
    done
    split=$((split + $(uniq -c -w 6 "$made/wanted" | awk '$2 == "range" && $1 > 1' | wc -l)))
    programs=$((programs + 1))
}

two=("$here/programs/first.cc" "$here/programs/second.cc")
for version in "" -gdwarf-4 -gdwarf-5; do
    for level in -O0 -O2; do
        try "c$version$level" gcc -g $version $level "$here/programs/split.c"
        try "cc$version$level" g++ -g $version $level "$here/programs/shapes.cc"
        try "two$version$level" g++ -g $version $level "${two[@]}"
    done
done
# of version 3 linkage names are those of MIPS
try cc-3 g++ -gdwarf-3 -O2 "$here/programs/shapes.cc"
# a function that the linker discards, whose addresses are then those from 0 on
try two-discarded g++ -g -O2 -ffunction-sections -Wl,--gc-sections "${two[@]}"
if g++ -flto -O2 -o "$made/flto" "${two[@]}" 2> "$made/told"; then try two-flto g++ -g -O2 -flto "${two[@]}"; fi
try c-compressed gcc -g -O2 -gz "$here/programs/split.c"
if command -v clang > "$made/told"; then
    try c-clang clang -g -gdwarf-5 -O2 "$here/programs/split.c"
    try cc-clang clang++ -g -gdwarf-4 -O2 "$here/programs/shapes.cc"
    try two-clang clang++ -g -gdwarf-5 -O2 "${two[@]}"
fi
if [ $split -lt 4 ]; then echo "examples: no function of several ranges was asked for"; exit 1; fi

# ends STATUS LINES ERRORS TEXT WORDS..: the examples end with the same status and lines, so many of
# them on stdout and on stderr, of which one has the text
ends() {
    local wanted="$1 $2 $3" text=$4 status language
    shift 4
    for language in c rust python; do
        status=0
        ask $language "$@" > "$made/out" 2> "$made/err" || status=$?
        cat "$made/out" "$made/err" > "$made/told.$language"
        if [ "$status $(wc -l < "$made/out") $(wc -l < "$made/err")" != "$wanted" ] || ! grep -q "$text" "$made/told.$language" \
            || ! cmp "$made/told.c" "$made/told.$language"; then
            echo "$language: '$*' ends with $status:"; head "$made/told.$language"; exit 1
        fi
    done
}

# address PROGRAM NAME [MORE]: where a function begins, and so many bytes after
address() { printf '%x\n' $(($(nm "$1" | awk -v name="$2" '$3 == name { print "0x" $1 }') + ${3:-0})); }

# messages in place of answers
for words in "" "$made/c-compressed nine" "$made/c-compressed"; do ends 2 0 1 "^usage: .* inlined" $words; done
for file in "$here/test.sh" /none; do ends 2 0 1 "^function_at: $file is no linked ELF file\$" "$file" 10; done
ends 1 1 0 "^no function at 0x10\$" "$made/two-discarded" 10

# a list of more ranges than there is room for at first, after one that is refused
gcc -nostdlib -static -o "$made/lists" "$here/programs/lists.s"
ends 0 70003 0 "^function many\$" "$made/lists" "$(address "$made/lists" many 69999)"
ends 2 0 1 "^error 1: the ranges of the unit at 0x0: The input ends before what should stand there\.\$" "$made/lists" 10

# a refusal ends the other examples, with its words
for example in functions lists; do
    for language in c rust python; do
        status=0
        run $language $example "$made/lists" > "$made/out" 2> "$made/err" || status=$?
        if [ $status != 1 ] || ! grep -q 'The input ends before what should stand there\.' "$made/err"; then
            echo "$language: '$example' of a list that is refused ends with $status:"; head "$made/err"; exit 1
        fi
    done
done

# skeleton units
skeleton() {
    local program=$made/skeleton$1
    shift
    (cd "$made" && "$@" -gsplit-dwarf -o "$program" "$here/programs/split.c")
    ends 1 1 0 "^skeleton unit 0x0: its functions are in .*split.dwo\$" "$program" "$(address "$program" add)"
    ends 1 1 0 "^no function at 0x10\$" "$program" 10
}
skeleton 4 gcc -gdwarf-4 -O2
skeleton 5 gcc -gdwarf-5 -O2
if command -v clang > "$made/told"; then skeleton -clang clang -gdwarf-5 -O2; fi
# held EXAMPLE WORDS..: an example in C gives back all that it holds, also where it stops early
held() {
    local example=$1 status=0
    shift
    valgrind -q --leak-check=full --show-leak-kinds=all --errors-for-leak-kinds=all --error-exitcode=99 \
        "$made/${example}_c" "$@" > "$made/out" 2> "$made/err" || status=$?
    if [ $status -gt 2 ]; then echo "C: '$example $*' gives not all back:"; head "$made/err"; exit 1; fi
}
if command -v valgrind > "$made/told"; then
    for program in c-compressed cc-gdwarf-5-O2 two-flto skeleton4; do
        if ! [ -e "$made/$program" ]; then continue; fi
        for address in $(addresses "$made/$program" | head -8) 10; do held function_at "$made/$program" "$address"; done
        for example in functions lists tags; do held $example "$made/$program"; done
    done
    held function_at "$made/lists" "$(address "$made/lists" many 69999)"
    held function_at "$made/lists" 10
    held function_at "$here/test.sh" 10
    (cd "$made" && g++ -g -gdwarf-5 -O2 -gsplit-dwarf -fdebug-types-section -o types "$here/programs/shapes.cc")
    for example in functions lists tags; do
        held $example "$made/lists"
        held $example "$here/test.sh"
        held $example "$made/types" "$made/types-shapes.dwo"
    done
else
    echo "examples: what is given back was not tried, as valgrind is not there"
fi
if command -v llvm-dwarfdump > "$made/told"; then
    "$python" "$here/compare.py" "$made"
else
    echo "examples: functions, lists and tags were not compared, as llvm-dwarfdump is not there"
fi
echo "examples: $asked addresses in $programs programs, the same in C, Rust and Python, by pyelftools and by addr2line"
