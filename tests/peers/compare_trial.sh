#!/bin/sh
# Compares the lines of `ribjasper trial` for several seeds with those that tests/peers/reckon_trial.py computes independently. Also
# compares its counts with those of the commands `gen`, `author`, `scratch` and `check`, run one after another. A script without
# pictures, and lines with one different number, must be detected. Not part of the gate; skipped if python3 is missing.
set -e
cd "$(dirname "$0")/../.."
command -v python3 >/dev/null || { echo "no python3: skipped"; exit 0; }
[ -x bin/ribjasper ] || tools/build/build.sh
work=$(mktemp -d)
trap 'rm -rf "$work"' EXIT
for trial in "42 1" "7 40" "0 3" "18446744073709551615 5"; do
    set -- $trial
    bin/ribjasper trial --seed "$1" --pictures "$2" >"$work/ours"
    python3 tests/peers/reckon_trial.py "$1" "$2" >"$work/computed"
    cmp "$work/ours" "$work/computed" || { echo "seed $1: the lines differ"; exit 1; }
    if sed 's/^bad 0$/bad 1/' "$work/ours" | cmp -s - "$work/computed"; then
        echo "seed $1: a bad word is not detected"
        exit 1
    fi
    echo "seed $1, $2 pictures: the same nine lines"
done

printf 'FILE "trial" WAVE\nTRACK 01 AUDIO\nINDEX 01 00:00:00\n' >"$work/sheet"
bin/ribjasper gen --seed 42 --pictures 1 >"$work/script"
# The script of this seed, computed by hand from the rule of the generator.
printf 'rect 119 28 113 72 4\nrect 144 29 36 6 2\nrect 267 100 12 42 0\nshow 00:10:50 00:10:70\n' >"$work/pictures"
# same_pictures SCRIPT: whether a script has these pictures
same_pictures() { sed 1,16d "$1" | cmp -s - "$work/pictures"; }
same_pictures "$work/script" || { echo "the script of seed 42 differs"; exit 1; }
if same_pictures /dev/null; then
    echo "an empty script is not detected"
    exit 1
fi
bin/ribjasper author --lead-in 0 --length 00:10:70 -- "$work/sheet" "$work/script" >"$work/stream"
bin/ribjasper scratch --lead-in 0 --seed 42 <"$work/stream" >"$work/scratched"
bin/ribjasper check --lead-in 0 <"$work/scratched" | grep -E '^(packs|one|two|bad) ' >"$work/checked"
bin/ribjasper trial --seed 42 --pictures 1 | grep -E '^(packs|one|two|bad) ' >"$work/tried"
cmp "$work/checked" "$work/tried" || { echo "the counts of the single commands differ"; exit 1; }
echo "the single commands have the same counts"
