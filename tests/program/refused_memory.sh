#!/bin/sh
# Runs bin/ribjasper on some small inputs, and refuses each of its memory requests in turn. Each run must end as with enough
# memory, or with 'no memory' (status 7) and without output. Two careless programs must be detected: one that writes output before
# it reports 'no memory', and one that fails in another way. Not part of the gate; it needs a C compiler for the small library that
# refuses requests.
set -e
cd "$(dirname "$0")/../.."
[ -x bin/ribjasper ] || tools/build/build.sh
command -v cc >/dev/null || { echo "no C compiler: skipped"; exit 0; }
work=$(mktemp -d)
trap 'rm -rf "$work"' EXIT
cc -O1 -shared -fPIC -o "$work/refuse.so" tests/program/refuse.c -ldl

one_track='FILE "a.wav" WAVE\nTRACK 01 AUDIO\nINDEX 01 00:00:00\n'
printf "$one_track" >"$work/sheet"
printf "TITLE \"Demo\"\n$one_track" >"$work/titled"
printf 'show 00:00:02 00:00:02\n' >"$work/late"
: >"$work/empty"
head -c 192 /dev/zero >"$work/blocks"
bin/ribjasper author --lead-in 12 --length 00:00:01 -- "$work/titled" "$work/empty" >"$work/texts"
head -c 96 /dev/zero >"$work/packs"
bin/ribjasper save --lead-in 0 <"$work/blocks" >"$work/saved"

program=bin/ribjasper
failures=0
# run NUMBER OUT ERR WORDS ..: runs a command with one request refused, and prints the exit status
run() {
    number=$1 out=$2 err=$3
    shift 3
    status=0
    REFUSE=$number COUNT=$work/count LD_PRELOAD=$work/refuse.so $program "$@" >"$out" 2>"$err" || status=$?
    echo "$status"
}

# Tries a command with each request refused in turn.
try() {
    normal=$(run -1 "$work/normal.out" "$work/normal.err" "$@")
    requests=$(cat "$work/count")
    same=0 refused=0 number=0
    while [ "$number" -lt "$requests" ]; do
        status=$(run "$number" "$work/out" "$work/err" "$@")
        if [ "$status" = 7 ] && [ ! -s "$work/out" ] && [ "$(cat "$work/err")" = "no memory" ]; then
            refused=$((refused + 1))
        elif [ "$status" = "$normal" ] && cmp -s "$work/out" "$work/normal.out" &&
            cmp -s "$work/err" "$work/normal.err"; then
            same=$((same + 1))
        else
            failures=$((failures + 1))
            echo "request $number of '$*': status $status"
        fi
        number=$((number + 1))
    done
    echo "$1 (status $normal): $requests requests, $refused end with no memory, $same end as with enough memory"
}

try convert --lead-in 0 -- "$work/blocks"
try screen --lead-in 0 --at 00:00:02 -- "$work/blocks"
try state --lead-in 0 --at 00:00:02 -- "$work/blocks"
try check --lead-in 0 -- "$work/blocks"
try q --lead-in 0 -- "$work/blocks"
try planar -- "$work/blocks"
try raw -- "$work/blocks"
try scratch --lead-in 0 --seed 1 -- "$work/blocks"
try gen --seed 1 --pictures 1
try merge --lead-in 0 -- "$work/blocks" "$work/blocks"
try press --lead-in 12 --length 00:00:01 -- "$work/titled" "$work/packs"
try thin -- "$work/packs"
try save --lead-in 0 -- "$work/blocks"
try resume --at 00:00:02 -- "$work/saved" "$work/empty"
try author --lead-in 0 --length 00:00:01 -- "$work/sheet" "$work/late"
try author --lead-in 0 --length 00:00:01 -- "$work/sheet" "$work/empty"
try text --lead-in 12 -- "$work/texts"
try trial --seed 42 --pictures 1
[ "$failures" = 0 ] || { echo "$failures runs ended in another way"; exit 1; }

# careless NAME STATEMENT: a program that allocates memory, and executes the statement if this fails
careless() {
    printf '#include <stdio.h>\n#include <stdlib.h>\nint main(void) {
    char *volatile memory = malloc(1000);
    if (!memory) { %s }
    return 0;\n}\n' "$2" >"$work/$1.c"
    cc -o "$work/$1" "$work/$1.c"
    program=$work/$1 failures=0
    try "$1" >"$work/log"
    [ "$failures" -gt 0 ] || { echo "a program that is $1 is not detected"; exit 1; }
}

careless hasty 'puts("half"); fputs("no memory\n", stderr); return 7;'
careless mistaken 'fputs("usage\n", stderr); return 2;'
echo "two careless programs are detected"
