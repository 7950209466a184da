#!/bin/sh
# Compares the CD-TEXT packs in the lead-in of authored streams, byte for byte, with those that libburn, the library of cdrskin,
# makes from the same cue sheets. This covers titles, performers, songwriters, catalogue numbers, ISRC, the positions in strings of
# every length, the sizes and the checks. Then cdrskin lists our packs, and its lines must contain each title. The sheets only contain
# what both read in the same way: plain ASCII, tracks from 1 on, at most 255 packs (we also write 256). Then one bit is flipped in
# the first and in a later cycle of packs, and this must be detected. Skipped if cdrskin or bin/ribjasper is missing.
set -e
cd "$(dirname "$0")/../.."
command -v cdrskin >/dev/null || { echo "compare_cdrskin: skipped, there is no cdrskin (apt-get install cdrskin)"; exit 0; }
[ -x bin/ribjasper ] || { echo "compare_cdrskin: skipped, there is no bin/ribjasper (make)"; exit 0; }
work=$(mktemp -d)
trap 'rm -rf "$work"' EXIT

# Eight seconds of silence, which libburn requires.
python3 - "$work/silence.wav" <<'END'
import sys, wave
with wave.open(sys.argv[1], "wb") as audio:
    audio.setnchannels(2)
    audio.setsampwidth(2)
    audio.setframerate(44100)
    audio.writeframes(bytes(8 * 44100 * 4))
END

cat >"$work/titles.cue" <<END
TITLE "Demo"
FILE "$work/silence.wav" WAVE
TRACK 01 AUDIO
TITLE "One"
INDEX 01 00:00:00
END

# Strings of twelve letters, of more than fifteen letters, and empty ones; a catalogue number and ISRC.
cat >"$work/kinds.cue" <<END
CATALOG 0123456789012
TITLE "ABCDEFGHIJKL"
PERFORMER "A band with a name that takes more than three packs"
SONGWRITER "Somebody"
FILE "$work/silence.wav" WAVE
TRACK 01 AUDIO
TITLE "One"
ISRC GBAAA2400001
INDEX 01 00:00:00
TRACK 02 AUDIO
PERFORMER "Another band"
INDEX 01 00:02:00
TRACK 03 AUDIO
TITLE "Three"
SONGWRITER "Somebody else"
ISRC GBAAA2400003
INDEX 01 00:04:00
END

# Thirty tracks whose titles have one to thirty letters.
{
    printf 'TITLE "Letters"\nFILE "%s/silence.wav" WAVE\n' "$work"
    letters=
    for track in $(seq -w 30); do
        letters="${letters}x"
        printf 'TRACK %s AUDIO\nTITLE "%s"\nINDEX 01 00:00:%s\n' "$track" "$letters" "$track"
    done | sed 's/00:00:01$/00:00:00/'
} >"$work/lengths.cue"

: >"$work/empty.script"
failed=0
# same_packs STREAM SHEET: whether the packs in a lead-in equal those of libburn
same_packs() {
    head -c $((150 * 96)) "$1" | python3 tests/peers/lead_in_packs.py >"$work/ours" 2>"$work/errors" &&
        [ -s "$work/ours" ] && cmp -s "$work/ours" "$work/$2.theirs"
}

# flip_bit FILE PLACE: flips the last bit of a byte of a file
flip_bit() {
    python3 -c '
import sys
name, place = sys.argv[1], int(sys.argv[2])
content = bytearray(open(name, "rb").read())
content[place] ^= 1
open(name, "wb").write(content)' "$1" "$2"
}

for sheet in titles kinds lengths; do
    bin/ribjasper author --lead-in 150 --length 00:08:00 -- "$work/$sheet.cue" "$work/empty.script" \
        >"$work/$sheet.raw"
    python3 tests/peers/libburn_packs.py "$work/$sheet.cue" >"$work/$sheet.theirs"
    if same_packs "$work/$sheet.raw" $sheet; then
        echo "compare_cdrskin: the $(($(wc -c <"$work/ours") / 18)) packs of $sheet are equal"
    else
        echo "compare_cdrskin: the packs of $sheet differ" >&2
        failed=1
    fi
    cdrskin textfile_to_v07t="$work/ours" >"$work/$sheet.list" 2>/dev/null
    sed -n 's/^TITLE "\(.*\)"$/\1/p' "$work/$sheet.cue" | while read -r title; do
        grep -q "Title  *= $title\$" "$work/$sheet.list" || {
            echo "compare_cdrskin: cdrskin does not list $title" >&2
            exit 1
        }
    done || failed=1
    for place in 5 $((149 * 96 + 40)); do
        cp "$work/$sheet.raw" "$work/broken.raw"
        flip_bit "$work/broken.raw" $place
        if same_packs "$work/broken.raw" $sheet; then
            echo "compare_cdrskin: a flipped bit at byte $place is not detected" >&2
            failed=1
        fi
    done
done
[ "$failed" = 1 ] || echo "compare_cdrskin: each flipped bit is detected"
exit "$failed"
