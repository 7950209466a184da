#!/bin/sh
# Checks the style of the desk's Python: the layout of black with 120 columns, and no unused names (pyflakes).
cd "$(dirname "$0")/../.." || exit 1
status=0
if command -v black >/dev/null; then
    black -q --check -l 120 desk || { echo "check_style: run black -l 120 desk" >&2; status=1; }
else
    echo "check_style: skipped black, it is not installed"
fi
if command -v pyflakes3 >/dev/null; then
    pyflakes3 desk || status=1
else
    echo "check_style: skipped pyflakes, it is not installed"
fi
exit "$status"
