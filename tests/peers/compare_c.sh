#!/bin/sh
# Compares the pictures of the player in plain C (tools/build/make_c.sh) with those of the command `screen`. gcc and clang compile
# the player; mingw does too if wine is installed. Skipped if a tool or something that make builds is missing. With the argument
# `measure` the script also measures a block and a picture.
set -e
cd "$(dirname "$0")/../.."
[ -f lib/web/ribjasper32.wasm ] || { echo "compare_c: skipped, there is no lib/web/ribjasper32.wasm (make web)"; exit 0; }
[ -x bin/ribjasper ] || { echo "compare_c: skipped, there is no bin/ribjasper (make)"; exit 0; }
command -v wasm2c >/dev/null || { echo "compare_c: skipped, there is no wasm2c (Debian: wabt)"; exit 0; }
work=$(mktemp -d)
trap 'rm -rf "$work"' EXIT
export WINEPREFIX="${WINEPREFIX:-${XDG_CACHE_HOME:-$HOME/.cache}/ribjasper/wine}" WINEDEBUG=-all DISPLAY=
mkdir -p "${WINEPREFIX%/*}"
tools/build/make_c.sh "$work/c" >/dev/null
cp examples/hello.cue examples/hello.script "$work"
top=$PWD
(cd "$work" && "$top/bin/ribjasper" author --lead-in 0 --length 00:22:00 -- hello.cue hello.script >stream)
# A scratched stream is also corrected.
bin/ribjasper scratch --lead-in 0 --seed 3 <"$work/stream" >"$work/scratched"
failed=0
try() {
    name=$1 compiler=$2 run=$3
    command -v "$compiler" >/dev/null && { [ -z "$run" ] || command -v "$run" >/dev/null; } ||
        { echo "compare_c: $name is skipped, there is no $compiler or no $run"; return; }
    (cd "$work/c" && "$compiler" -O2 -DWASM_RT_MEMCHECK_SIGNAL_HANDLER=0 player.c ribjasper_c.c ribjasper_wasm.c wasm-rt-impl.c \
        -lm -o "$work/$name.exe")
    for blocks in 77 535 1649; do
        time=$(printf '%02d:%02d:%02d' $((blocks / 4500)) $((blocks / 75 % 60)) $((blocks % 75)))
        bin/ribjasper screen --lead-in 0 --at "$time" <"$work/scratched" >"$work/expected"
        $run "$work/$name.exe" $blocks <"$work/scratched" | cmp - "$work/expected" || { failed=1; return; }
    done
    echo "compare_c: three pictures of the player that $name compiled equal those of the program"
    [ "$4" != measure ] || echo "compare_c: $name: $($run "$work/$name.exe" -m <"$work/stream")"
}
(cd "$work/c" && cc -O2 -Wall -Wextra -Werror -c ribjasper_c.c -o "$work/checked.o" &&
    cc -O2 -Wall -Wextra -Werror -c player.c -o "$work/checked.o")
try gcc gcc "" "$1"
try clang clang "" "$1"
try mingw x86_64-w64-mingw32-gcc wine "$1"
exit "$failed"
