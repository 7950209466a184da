#!/bin/sh
# Copies the program that the gate has just proved to bin/, and builds the library and the player for web pages in lib/ over
# the crates that the gate proved. `make check` calls it right after `rt ci`, so all later checks use proved code.
set -e
cd "$(dirname "$0")/../.."
program=crates/ribjasper/out/ribjasper
[ -x "$program" ] || { echo "take_gate: the gate left no program" >&2; exit 1; }
mkdir -p bin
cp "$program" bin/.ribjasper
mv bin/.ribjasper bin/ribjasper
if command -v "${CC:-cc}" >/dev/null; then
    OVER_GATE=1 tools/build/build_library.sh
else
    echo "take_gate: skipped the library, there is no C compiler"
fi
if command -v wasm-ld-14 >/dev/null || command -v wasm-ld >/dev/null; then
    OVER_GATE=1 tools/build/build_web.sh
else
    echo "take_gate: skipped the player for web pages, there is no wasm-ld"
fi
