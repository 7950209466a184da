#!/bin/sh
# Runs the tests of the desk, with the Python that has its packages. Tests without their packages are skipped and named.
cd "$(dirname "$0")/../.." || exit 1
python=/usr/bin/python3
[ -x "$python" ] || python=$(command -v python3) || { echo "test_desk: skipped, there is no python3"; exit 0; }
cd desk && exec "$python" -m tests
