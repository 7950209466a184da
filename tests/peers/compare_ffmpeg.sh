#!/bin/sh
# Compares our screens with ffmpeg's, at several frames of a stream with all nine graphics instructions. ffmpeg decodes the packs
# that we convert. The pixels of the window inside the border must be equal. The scene only contains what both show in the same
# way: presets repeat 0, the border has the colour of the memory, and no horizontal offset is set (docs/GUIDE.md lists the
# differences). ffmpeg does not show the border and the transparency levels, so they are compared with the values in
# examples/graphics_stream.py. Then each instruction is omitted in turn, and this must be detected. Skipped if ffmpeg or
# bin/ribjasper is missing.
set -e
cd "$(dirname "$0")/../.."
command -v ffmpeg >/dev/null || { echo "compare_ffmpeg: skipped, there is no ffmpeg (apt-get install ffmpeg)"; exit 0; }
[ -x bin/ribjasper ] || { echo "compare_ffmpeg: skipped, there is no bin/ribjasper (make)"; exit 0; }
work=$(mktemp -d)
trap 'rm -rf "$work"' EXIT
frames="30 45 46 47 48 50 55 64"
python3 examples/graphics_stream.py >"$work/scene.raw"
python3 examples/graphics_stream.py cdg >"$work/scene.cdg"
python3 examples/graphics_stream.py state >"$work/state"
blocks=$(($(wc -c <"$work/scene.raw") / 96))
end=$(printf '00:%02d:%02d' $((blocks / 75)) $((blocks % 75)))

# same_picture STREAM FRAME: whether the picture of a stream at a frame equals ffmpeg's
same_picture() {
    bin/ribjasper screen --lead-in 0 --at "$(printf '00:00:%02d' "$2")" <"$1" >"$work/ours.ppm"
    python3 tests/peers/same_window.py "$work/ours.ppm" "$work/theirs.$2.ppm"
}

# same_state STREAM: whether border, offsets, colours and levels at the end of a stream are those that were set
same_state() {
    bin/ribjasper state --lead-in 0 --at "$end" <"$1" | tr A-F a-f | cmp -s - "$work/state"
}

bin/ribjasper convert --lead-in 0 <"$work/scene.raw" >"$work/converted.cdg"
cmp -n "$(wc -c <"$work/scene.cdg")" "$work/scene.cdg" "$work/converted.cdg"
failed=0
for frame in $frames; do
    head -c $((24 * (4 * frame - 7))) "$work/converted.cdg" >"$work/cut.cdg"
    ffmpeg -v error -y -f cdg -i "$work/cut.cdg" -update 1 -pix_fmt rgb24 "$work/theirs.$frame.ppm"
    if same_picture "$work/scene.raw" "$frame"; then
        echo "compare_ffmpeg: the pictures at frame $frame are equal"
    else
        echo "compare_ffmpeg: the pictures at frame $frame differ" >&2
        failed=1
    fi
done
if same_state "$work/scene.raw"; then
    echo "compare_ffmpeg: border, offsets, colours and levels at the end are those that were set"
else
    echo "compare_ffmpeg: border, offsets, colours or levels at the end differ from those that were set" >&2
    failed=1
fi

for code in 1 2 6 20 24 28 30 31 38; do
    python3 examples/graphics_stream.py without $code >"$work/broken.raw"
    detected=no
    same_state "$work/broken.raw" || detected=yes
    for frame in $frames; do
        same_picture "$work/broken.raw" "$frame" || detected=yes
    done
    if [ $detected = no ]; then
        echo "compare_ffmpeg: the loss of instruction $code is not detected" >&2
        failed=1
    fi
done
[ "$failed" = 1 ] || echo "compare_ffmpeg: each omitted instruction is detected"
exit "$failed"
