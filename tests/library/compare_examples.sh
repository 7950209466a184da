#!/bin/sh
# Compares the screens of the examples in C++, Python and Rust, which use the shared library, with those of the command `screen`,
# byte for byte, after seeking forward and back. Skipped if something that make builds is missing; an example is skipped if its
# compiler is missing.
set -e
cd "$(dirname "$0")/../.."
top=$PWD
[ -f lib/libribjasper.so.0 ] || { echo "compare_examples: skipped, there is no lib/libribjasper.so.0 (make library)"; exit 0; }
[ -x bin/ribjasper ] || { echo "compare_examples: skipped, there is no bin/ribjasper (make)"; exit 0; }
work=$(mktemp -d)
trap 'rm -rf "$work"' EXIT
cp examples/hello.cue examples/hello.script "$work"
cd "$work"
"$top/bin/ribjasper" author --lead-in 0 --length 00:22:00 -- hello.cue hello.script >stream
moments="2 77 150 301 449 535 777 1111 1350 1649"
mkdir expected
for blocks in $moments; do
    time=$(printf '%02d:%02d:%02d' $((blocks / 4500)) $((blocks / 75 % 60)) $((blocks % 75)))
    "$top/bin/ribjasper" screen --lead-in 0 --at "$time" <stream >expected/$blocks.ppm
done
export LD_LIBRARY_PATH="$top/lib"
failed=0

# compare NAME MOMENTS COMMAND ..: runs an example in its own folder, and compares its screens.
compare() {
    name=$1 order=$2
    shift 2
    mkdir "$name"
    if ! (cd "$name" && "$@" $order <../stream); then
        echo "compare_examples: the example in $name fails" >&2
        failed=1
        return
    fi
    for blocks in $order; do
        cmp "expected/$blocks.ppm" "$name/$blocks.ppm" || { failed=1; return; }
    done
    echo "compare_examples: the screens of the example in $name are equal"
}

backwards=$(echo $moments | tr ' ' '\n' | tac | tr '\n' ' ')
if command -v c++ >/dev/null; then
    for standard in c++11 c++17 c++20; do
        c++ -std=$standard -O2 -Wall -Wextra -Werror -I"$top/include" "$top/examples/player.cpp" -L"$top/lib" -lribjasper -o player_cpp
    done
    compare C++ "$moments" ../player_cpp
    compare C++-back "$backwards" ../player_cpp
else
    echo "compare_examples: skipped, there is no c++"
fi
compare Python "$moments" "$top/examples/player.py"
if command -v rustc >/dev/null; then
    rustc -O --edition 2021 -D warnings "$top/examples/player.rs" -L "$top/lib" -l dylib=ribjasper -o player_rs
    compare Rust "$moments" ../player_rs
else
    echo "compare_examples: skipped, there is no rustc"
fi
exit "$failed"
