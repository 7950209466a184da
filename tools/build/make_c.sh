#!/bin/sh
# Writes the player of lib/web as plain C to FOLDER, for systems without a library: make_c.sh FOLDER. wasm2c (Debian: wabt)
# translates the module with a 32-bit memory. The runtime files of wasm2c and the calls of web/c are copied to FOLDER too.
set -e
cd "$(dirname "$0")/../.."
[ -f lib/web/ribjasper32.wasm ] || { echo "make_c: there is no lib/web/ribjasper32.wasm (make web, with binaryen)" >&2; exit 1; }
command -v wasm2c >/dev/null || { echo "make_c: there is no wasm2c (Debian: wabt)" >&2; exit 1; }
for runtime in /usr/share/wabt/wasm2c /usr/src/wasm2c; do
    [ ! -f "$runtime/wasm-rt-impl.c" ] || break
done
mkdir -p "$1"
cp web/c/ribjasper_c.h web/c/ribjasper_c.c web/c/player.c LICENSE-MIT LICENSE-APACHE "$1"
cp "$runtime/wasm-rt-impl.c" "$runtime/wasm-rt-impl.h" /usr/include/wasm-rt.h "$1"
wasm2c lib/web/ribjasper32.wasm -n ribjasper -o "$1/ribjasper_wasm.c"
# On Windows, also with MinGW, malloc.h declares alloca.
sed -i 's|^#include <alloca.h>$|#ifdef _WIN32\n#include <malloc.h>\n#else\n#include <alloca.h>\n#endif|' "$1/ribjasper_wasm.c"
echo "$1/ribjasper_wasm.c"
