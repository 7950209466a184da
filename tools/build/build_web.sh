#!/bin/sh
# Proves the calls for web pages, compiles them to WebAssembly, and writes to lib/web: ribjasper.wasm, ribjasper.mjs with its
# types, and index.html, the page of examples/web with both inside, which needs no server. If wasm-opt is installed (Debian:
# binaryen), ribjasper32.wasm is the same module with a 32-bit memory, which every browser supports, and the page has this
# module inside. With OVER_GATE=1 the calls are built over the crates that `rt ci` has just proved, if all are there.
set -e
cd "$(dirname "$0")/../.."
target=wasm64-unknown-unknown
command -v wasm-ld-14 >/dev/null || command -v wasm-ld >/dev/null ||
    { echo "build_web: there is no wasm-ld (Debian: lld)" >&2; exit 1; }
build() { tools/build/build_crate.py ribjasper_web --target "$target" ${JOBS:+--jobs "$JOBS"} "$@"; }
if [ -z "$OVER_GATE" ] || ! build --gate; then
    tools/build/prove_crates.py ribjasper_web
    build
fi

kit=$(dirname "$(readlink -f "$(command -v rt)")")
mkdir -p lib/web
"$kit/rattle-link" --target "$target" --toolchain "$kit/../toolchain" -o lib/web/.ribjasper.wasm \
    crates/ribjasper_web/out/libribjasper_web.a
version=$(cat VERSION)
sed "s/^export const VERSION = .*/export const VERSION = \"$version\";/" web/ribjasper.mjs >lib/web/.ribjasper.mjs
cp web/ribjasper.d.mts lib/web/.ribjasper.d.mts
inside=ribjasper.wasm
rm -f lib/web/ribjasper32.wasm
if command -v wasm-opt >/dev/null; then
    inside=ribjasper32.wasm
    # Addresses in the module's calls stay 64 bits wide; no call passes or returns one above 4 GiB.
    wasm-opt --enable-memory64 --enable-bulk-memory --enable-simd --memory64-lowering lib/web/.ribjasper.wasm \
        -o "lib/web/.$inside"
else
    echo "build_web: skipped the module with a 32-bit memory, there is no wasm-opt (Debian: binaryen)"
fi
tools/build/one_page.py examples/web/index.html lib/web/.ribjasper.mjs "lib/web/.$inside" >lib/web/.index.html
for file in ribjasper.wasm "$inside" ribjasper.mjs ribjasper.d.mts index.html; do
    [ ! -f "lib/web/.$file" ] || mv "lib/web/.$file" "lib/web/$file"
done
echo "lib/web/ribjasper.wasm and lib/web/index.html are built and proved"
