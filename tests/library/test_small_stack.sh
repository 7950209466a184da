#!/bin/sh
# Measures the stack use of the library and the program. Each call of lib/libribjasper.a runs on a painted stack and may use 16 KiB
# of it; a call that mends may use 80 KiB (tests/library/test_small_stack.c). Each command of bin/ribjasper must have the same output
# with a stack of 64 KiB as with the default stack. Skipped if a compiler or something that make builds is missing.
set -e
cd "$(dirname "$0")/../.."
command -v cc >/dev/null || { echo "small_stack: skipped, there is no cc"; exit 0; }
[ -f lib/libribjasper.a ] || { echo "small_stack: skipped, there is no lib/libribjasper.a (make library)"; exit 0; }
[ -x bin/ribjasper ] || { echo "small_stack: skipped, there is no bin/ribjasper (make)"; exit 0; }
work=$(mktemp -d)
trap 'rm -rf "$work"' EXIT
cat >"$work/sheet" <<'SHEET'
TITLE "Demo"
PERFORMER "Somebody"
FILE "a.wav" WAVE
TRACK 01 AUDIO
TITLE "One"
SONGWRITER "Nobody"
INDEX 01 00:00:00
SHEET
bin/ribjasper gen --seed 42 --pictures 1 >"$work/script"
bin/ribjasper author --lead-in 300 --length 00:20:00 -- "$work/sheet" "$work/script" >"$work/authored"
cc -O2 -Wall -Wextra -Werror -std=gnu99 -Iinclude tests/library/test_small_stack.c lib/libribjasper.a -o "$work/test_small_stack"
"$work/test_small_stack" "$work/authored"

# A stack that is too small must be detected.
if (ulimit -s 8 && exec bin/ribjasper check --lead-in 300 -- "$work/authored") >"$work/refused" 2>&1; then
    echo "small_stack: a stack limit of 8 KiB has no effect"
    exit 1
fi

# try WORDS ..: compares the output of a command with a stack of 64 KiB and with the default stack.
try() {
    bin/ribjasper "$@" <"$work/authored" >"$work/default" || true
    (ulimit -s 64 && exec bin/ribjasper "$@") <"$work/authored" >"$work/small" || true
    [ -s "$work/default" ] && cmp "$work/default" "$work/small" || { echo "small_stack: $1 needs more than 64 KiB"; exit 1; }
}
try convert --lead-in 300
try check --lead-in 300
try q --lead-in 300
try text --lead-in 300
try screen --lead-in 300 --at 00:00:05
try state --lead-in 300 --at 00:00:05
try save --lead-in 300
try merge --lead-in 300 -- "$work/authored" "$work/authored"
try author --lead-in 300 --length 00:20:00 -- "$work/sheet" "$work/script"
try gen --seed 7 --pictures 2
try trial --seed 7 --pictures 1
echo "small_stack: the commands run with 64 KiB of stack"
