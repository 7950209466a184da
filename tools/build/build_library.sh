#!/bin/sh
# Proves the library for programs in C, and builds it in lib/: libribjasper.so.0, with a link to it, and
# libribjasper.a, which includes the heap. Proofs of earlier calls are reused.
#
# TARGET is another system; its library is written to a separate folder in lib/ (tools/build/build_target.sh). CPU is the
# oldest processor that the library must run on: x86-64, or a newer one (rt lib --help lists them). CC is the C compiler
# that links the library. With OVER_GATE=1 the library is built over the crates that `rt ci` has just proved, if all are
# there, so no crate below it is proved again. lib/modules has its LLVM module, the source for other systems.
set -e
cd "$(dirname "$0")/../.."
host=x86_64-unknown-linux-gnu
if [ -n "$TARGET" ] && [ "$TARGET" != "$host" ]; then
    exec tools/build/build_target.sh library "$TARGET"
fi
folder=lib cpu=${CPU:-x86-64} compiler=${CC:-cc} module=lib/modules/ribjasper_c.bc
for tool in "$compiler" ld objcopy ar; do
    command -v "$tool" >/dev/null || { echo "build_library: there is no $tool" >&2; exit 1; }
done
mkdir -p lib/modules
build() { tools/build/build_crate.py ribjasper_c --cpu "$cpu" --module "$module.new" ${JOBS:+--jobs "$JOBS"} "$@"; }
if [ -z "$OVER_GATE" ] || ! build --gate; then
    tools/build/prove_crates.py ribjasper_c
    build
fi
if [ "$cpu" = x86-64 ]; then
    chmod 644 "$module.new"
    mv "$module.new" "$module"
fi
rm -f "$module.new"

work=$(mktemp -d)
trap 'rm -rf "$work"' EXIT
(cd "$work" && ar x "$OLDPWD/crates/ribjasper_c/out/libribjasper_c.a")
(cd "$work" && ar x "$(dirname "$(readlink -f "$(command -v rt)")")/../c/liblibc_c.a")
ld -r -o "$work/all" "$work"/*.o
objcopy --wildcard --keep-global-symbol='ribjasper_*' "$work/all" "$work/libribjasper.o"
mkdir -p "$folder"
(cd "$work" && ar rcsD libribjasper.a libribjasper.o)
"$compiler" -shared -Wl,-soname,libribjasper.so.0 -Wl,--version-script=tools/build/libribjasper.map -Wl,--no-undefined \
    -Wl,-z,relro -Wl,-z,now -Wl,-z,noexecstack -o "$work/libribjasper.so.0" "$work/libribjasper.o"
tools/write/library_page.py >"$work/ribjasper.3"
# Running programs keep the old files, because the new files only take over their names.
for file in libribjasper.a libribjasper.so.0 ribjasper.3; do
    cp "$work/$file" "$folder/.$file"
    mv "$folder/.$file" "$folder/$file"
done
ln -sf libribjasper.so.0 "$folder/libribjasper.so"
echo "$folder/libribjasper.so.0 and $folder/libribjasper.a are built and proved"
