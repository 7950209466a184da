#!/bin/sh
# Proves the program and builds bin/ribjasper. Proofs of earlier calls are reused. Then the program runs once.
set -e
cd "$(dirname "$0")/../.."
tools/build/prove_crates.py ribjasper
tools/build/build_crate.py ribjasper ${JOBS:+--jobs "$JOBS"}
mkdir -p bin
cp crates/ribjasper/out/ribjasper bin/.ribjasper
mv bin/.ribjasper bin/ribjasper
cd crates/ribjasper
../../bin/ribjasper $(cat args) <stdin | cmp - stdout
echo "bin/ribjasper is built and proved"
