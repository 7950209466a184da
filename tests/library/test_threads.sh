#!/bin/sh
# Reads one player in eight threads at the same time. It runs without a tool, with ThreadSanitizer in the program, and under DRD.
# ThreadSanitizer sees the memory that the program passes to the library; DRD sees each read and write of the library too.
set -e
cd "$(dirname "$0")/../.."
[ -f lib/libribjasper.a ] || { echo "test_threads: skipped, there is no lib/libribjasper.a (make library)"; exit 0; }
work=$(mktemp -d)
trap 'rm -rf "$work"' EXIT
strict="-O1 -g -Wall -Wextra -Wpedantic -Werror -Iinclude"
cc $strict tests/library/test_threads.c lib/libribjasper.a -lpthread -o "$work/threads"
"$work/threads"
runs="without a tool"
if clang -fsanitize=thread $strict tests/library/test_threads.c lib/libribjasper.a -lpthread -o "$work/sanitized" 2>"$work/errors"; then
    setarch "$(uname -m)" -R "$work/sanitized" 20
    runs="$runs, under ThreadSanitizer"
fi
if command -v valgrind >/dev/null; then
    valgrind -q --tool=drd --error-exitcode=3 --check-stack-var=yes "$work/threads" 1
    runs="$runs, under DRD"
fi
echo "test_threads: eight threads read one player at the same time and get the same data: $runs"
