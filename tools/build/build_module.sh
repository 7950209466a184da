#!/bin/sh
# Writes lib/modules/CRATE.bc, the LLVM module of a proved crate for x86-64: build_module.sh CRATE
# The kit passes this module to its clang. An existing module is kept if no source is newer.
set -e
cd "$(dirname "$0")/../.."
crate=$1
module=lib/modules/$crate.bc
if [ -f "$module" ] && [ -z "$(find crates/*/src crates/*/specs crates.txt -newer "$module" | head -n 1)" ]; then
    exit 0
fi
mkdir -p lib/modules
build() { tools/build/build_crate.py "$crate" --cpu x86-64 --module "$module.new" ${JOBS:+--jobs "$JOBS"} "$@"; }
# The libraries of the gate are used if all are there and current (otherwise the status is 3).
status=0
build --gate || status=$?
if [ "$status" = 3 ]; then
    tools/build/prove_crates.py "$crate"
    build
elif [ "$status" != 0 ]; then
    exit "$status"
fi
chmod 644 "$module.new"
mv "$module.new" "$module"
echo "$module is proved"
