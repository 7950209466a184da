#!/bin/sh
# Checks that no code leaks memory, because no clause can state this. Only one place uses `Box::into_raw_with_allocator`: it
# makes the pointer to a player for C.
cd "$(dirname "$0")/../.." || exit 1
found=$(grep -rnE '\b(forget|leak|into_raw|into_raw_parts|ManuallyDrop)\b' --include='*.rt' crates/*/src)
[ -z "$found" ] || { echo "check_forgotten: this code may leak memory: $found" >&2; exit 1; }
raw=$(grep -rlE '\binto_raw_with_allocator\b' --include='*.rt' crates/*/src)
[ "$raw" = crates/ribjasper_c/src/handle/parts.rt ] || { echo "check_forgotten: into_raw_with_allocator is used in: $raw" >&2; exit 1; }
# No code gets the allocator of a box, because a player could then allocate memory.
asked=$(grep -rnE "\ballocator[[:space:]]*\(" --include="*.rt" crates/*/src)
[ -z "$asked" ] || { echo "check_forgotten: this code gets the allocator of a box: $asked" >&2; exit 1; }
echo "check_forgotten: no code leaks memory"
