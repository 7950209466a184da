#!/bin/sh
# Runs the gate and prints the processor seconds of each crate for its proof, its tests and its must-fail edits, slowest
# first: tools/check/gate_times.sh [--anew] [LOG]. With --anew everything is proved and tested from the beginning;
# otherwise a kit whose gate stores proofs skips everything that an earlier run proved. The log of the gate has no times, so
# the script measures the processes of the run. The log (default: gate.log) ends with the table; tools/check/gate_times.sh --again LOG
# prints it again.
cd "$(dirname "$0")/../.." || exit 1
exec python3 tools/check/gate_times.py "$@"
