#!/bin/sh
# Follows README.md like a new user, from the first line to the last: in a fresh clone of the commit, with a clean
# environment, it runs every block unchanged, and `make demo`, `make` and `make library`. Prints the time of each. It is run
# by hand before a release, because it proves everything from nothing. With --kept it reuses the proofs of this checkout.
cd "$(dirname "$0")/../.." || exit 1
work=$(mktemp -d)
trap 'rm -rf "$work"' EXIT
mkdir "$work/home"
git clone -q . "$work/ribjasper" || exit 1
if [ "$1" = --kept ]; then
    for proofs in crates/*/out; do
        cp -a "$proofs" "$work/ribjasper/$proofs" || exit 1
    done
fi
cd "$work/ribjasper" || exit 1

# The first block has no language; all others are shell blocks.
awk '/^```$/ && !inside && !seen { inside = 1; next } /^```$/ && inside { exit } inside' README.md >"$work/first"
awk '/^```sh/ { inside = 1; next } /^```$/ { inside = 0; next } inside' README.md >"$work/blocks"

# run_step FILE NAME: runs the commands of a file in a clean environment, and prints the time.
run_step() {
    began=$(date +%s)
    if ! env -i HOME="$work/home" PATH=/usr/local/bin:/usr/bin:/bin sh -e "$1" >"$work/printed" 2>&1; then
        tail -n 20 "$work/printed" >&2
        echo "stranger: $2 fails" >&2
        exit 1
    fi
    echo "stranger: $2: $((($(date +%s) - began + 30) / 60)) minutes"
}

while read -r line; do
    echo "$line" >"$work/line"
    run_step "$work/line" "${line%%  *}"
done <"$work/first"
run_step "$work/blocks" "the blocks of README"
