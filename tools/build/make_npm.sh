#!/bin/sh
# Makes the npm package of lib/web: make_npm.sh FOLDER. It has the module with a 32-bit memory, which runs in every browser and
# in Node without a flag. `npm pack` gives all files the same time, so the archive is reproducible. No network is needed.
set -e
cd "$(dirname "$0")/../.."
[ -f lib/web/ribjasper32.wasm ] || { echo "make_npm: there is no lib/web/ribjasper32.wasm (make web, with binaryen)" >&2; exit 1; }
command -v npm >/dev/null || { echo "make_npm: there is no npm" >&2; exit 1; }
mkdir -p "$1"
folder=$(cd "$1" && pwd)
work=$(mktemp -d)
trap 'rm -rf "$work"' EXIT
mkdir "$work/package"
sed "s/\"version\": \"[^\"]*\"/\"version\": \"$(cat VERSION)\"/" web/package.json >"$work/package/package.json"
cp web/README.md LICENSE-MIT LICENSE-APACHE lib/web/ribjasper.mjs lib/web/ribjasper.d.mts "$work/package"
cp lib/web/ribjasper32.wasm "$work/package/ribjasper.wasm"
chmod 644 "$work/package"/*
(cd "$work/package" && npm pack --silent --offline --cache "$work/cache" --pack-destination "$folder" >/dev/null)
echo "$1/ribjasper-$(cat VERSION).tgz"
