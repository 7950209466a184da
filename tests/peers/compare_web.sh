#!/bin/sh
# Compares lib/web with the program. It tests both modules in Node (tests/peers/test_web.mjs), sixty screens in the engine of WebKit
# (test_webkit.mjs), the npm package (test_npm.mjs), parts of the page in Node (test_zip.mjs, test_detect.mjs, test_one_page.py),
# and the page in Chromium (test_page.mjs). Skipped if a tool, or something that `make` and `make web` build, is missing. With the
# argument `measure` the modules are also measured, and compared with a plain player in JavaScript.
set -e
cd "$(dirname "$0")/../.."
top=$PWD
[ -f lib/web/ribjasper.wasm ] || { echo "compare_web: skipped, there is no lib/web/ribjasper.wasm (make web)"; exit 0; }
[ -x bin/ribjasper ] || { echo "compare_web: skipped, there is no bin/ribjasper (make)"; exit 0; }
command -v node >/dev/null || { echo "compare_web: skipped, there is no node"; exit 0; }
work=$(mktemp -d)
trap 'rm -rf "$work"' EXIT

# runs FLAG MODULE: whether Node can compile the module.
runs() { node $1 -e 'new WebAssembly.Module(require("fs").readFileSync(process.argv[1]))' "$2" 2>/dev/null; }

# Node has 64-bit memories without a flag from version 24 on, and some older versions with a flag. Every Node has 32-bit memories.
for name in ribjasper ribjasper32; do
    module=lib/web/$name.wasm
    [ -f "$module" ] || { echo "compare_web: $name is skipped, there is no $module (make web, with binaryen)"; continue; }
    flag=
    runs "" "$module" || flag=--experimental-wasm-memory64
    if [ "$name" = ribjasper32 ] && [ -n "$flag" ]; then
        echo "compare_web: Node refuses $module" >&2
        exit 1
    fi
    runs "$flag" "$module" || { echo "compare_web: $name is skipped, this Node has no 64-bit memories"; continue; }
    echo "compare_web: $name"
    mkdir "$work/$name"
    node $flag tests/peers/test_web.mjs "$top/bin/ribjasper" "$module" "$work/$name" "$@"
    node $flag tests/peers/test_web_calls.mjs "$module"
    mkdir "$work/dumps"
    node $flag tests/peers/test_detect.mjs "$module" "$work/dumps"
    rm -rf "$work/dumps"
done
mkdir "$work/zips"
node tests/peers/test_zip.mjs "$work/zips"
tests/peers/test_one_page.py

# A stream, the same stream scratched, and thirty screens of each.
lead_in=300
cp examples/hello.cue examples/hello.script "$work"
streams="$work/streams"
mkdir "$streams" "$work/page"
(cd "$work" && "$top/bin/ribjasper" author --lead-in $lead_in --length 00:22:00 -- hello.cue hello.script >"$streams/whole")
bin/ribjasper scratch --lead-in $lead_in --seed 3 <"$streams/whole" >"$streams/scratched"
printf 'whole\nscratched\n' >"$streams/names"
time_of() { printf '%02d:%02d:%02d' $(($1 / 4500)) $(($1 / 75 % 60)) $(($1 % 75)); }
pictures() {
    blocks=$(($(wc -c <"$streams/$1") / 96 - lead_in))
    echo $lead_in >"$streams/$1.moments"
    for k in $(seq 1 30); do
        at=$((k * blocks / 30 - k % 7))
        echo $at >>"$streams/$1.moments"
        bin/ribjasper screen --lead-in $lead_in --at "$(time_of $at)" <"$streams/$1" | tail -c 194400 >>"$streams/$1.screens"
    done
}
if [ ! -f lib/web/ribjasper32.wasm ]; then
    echo "compare_web: WebKit's engine and the npm package are skipped, there is no lib/web/ribjasper32.wasm"
else
    if command -v jsc >/dev/null; then
        pictures whole
        pictures scratched
        jsc -m tests/peers/test_webkit.mjs -- "$top/lib/web/ribjasper32.wasm" "$streams"
    else
        echo "compare_web: WebKit's engine is skipped, there is no jsc"
    fi
    if command -v npm >/dev/null; then
        mkdir "$work/npm"
        package=$(tools/build/make_npm.sh "$work/npm")
        (cd "$work/npm" && echo '{"private":true}' >package.json &&
            npm install --silent --offline --no-audit --no-fund --cache "$work/cache" "$package")
        tail -c +$((96 * lead_in + 1)) "$streams/whole" >"$work/npm/stream"
        blocks=$(($(wc -c <"$work/npm/stream") / 96))
        bin/ribjasper screen --lead-in 0 --at "$(time_of $blocks)" <"$work/npm/stream" >"$work/picture"
        node tests/peers/test_npm.mjs "$work/npm" "$work/picture" "$(command -v esbuild)" "$(command -v chromium)"
    else
        echo "compare_web: the npm package is skipped, there is no npm"
    fi
fi

chromium=$(command -v chromium || command -v chromium-browser || command -v google-chrome || true)
[ -n "$chromium" ] || { echo "compare_web: the page is skipped, there is no chromium"; exit 0; }
flag=
node -e 'process.exit(typeof WebSocket === "undefined" ? 1 : 0)' || flag=--experimental-websocket
if ! node $flag -e 'process.exit(typeof WebSocket === "undefined" ? 1 : 0)' 2>/dev/null; then
    echo "compare_web: the page is skipped, this Node has no WebSocket"
    exit 0
fi
# The page plays in real time, so its test may fail on a busy machine. It is then run again.
page() { node $flag tests/peers/test_page.mjs "$chromium" "$top/bin/ribjasper" lib/web/index.html "$1"; }
if ! page "$work/page"; then
    echo "compare_web: the test of the page failed and is run again"
    mkdir "$work/again"
    page "$work/again"
fi
if [ -n "$PICTURES" ]; then
    mkdir -p "$PICTURES"
    cp "$work"/page/*.png "$PICTURES"
fi
