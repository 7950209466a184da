#!/bin/sh
# Runs the commands of README.md, docs/FORMATS.md and docs/GUIDE.md unchanged, in a clean environment: each document in a
# separate home folder, starting in this checkout, with only HOME and the system's PATH set. The other two documents use the
# variables of README's first block, as they state. Blocks marked `sh` need bin/ribjasper, `sh desk` also lib/ and Pillow, `sh
# library` a C compiler and lib/, `sh song` also ffmpeg and a font. Blocks that cannot run are counted as skipped.
cd "$(dirname "$0")/../.." || exit 1
[ -x bin/ribjasper ] || { echo "guide: skipped, there is no bin/ribjasper (make)"; exit 0; }
work=$(mktemp -d)
trap 'rm -rf "$work"' EXIT

# blocks KINDS DOCUMENT: prints the blocks of these kinds.
blocks() { awk -v kinds="$1" '$0 ~ kinds { inside = 1; next } /^```$/ { inside = 0; next } inside' "$2"; }

kinds='^```sh$' skipped=
with() { kinds="$kinds|^\`\`\`sh $1\$"; }
if [ -e lib/libribjasper.so ] && /usr/bin/python3 -c 'import PIL' 2>/dev/null; then
    with desk
    if command -v ffmpeg >/dev/null && ls /usr/share/fonts/truetype/dejavu/*.ttf >/dev/null 2>&1; then
        with song
    else
        skipped=" (skipped the song: ffmpeg, fonts-dejavu-core)"
    fi
else
    skipped=" (skipped the blocks for the desk and the song: make library, python3-pil)"
fi
if [ -e lib/libribjasper.a ] && command -v cc >/dev/null; then
    with library
else
    skipped="$skipped (skipped the blocks for the library: make library, cc)"
fi

# The first block of README sets the paths and makes the folder for a first result.
awk '/^```sh$/ { inside = 1; next } /^```$/ && inside { exit } inside' README.md >"$work/begin"
failed=0
for document in README.md docs/FORMATS.md docs/GUIDE.md; do
    home=$work/$(basename "$document" .md)
    mkdir "$home"
    {
        [ "$document" = README.md ] || cat "$work/begin"
        blocks "$kinds" "$document"
    } >"$work/commands"
    if ! env -i HOME="$home" PATH=/usr/local/bin:/usr/bin:/bin sh -e "$work/commands" >"$work/printed" 2>&1; then
        tail -n 5 "$work/printed" >&2
        echo "guide: a command of $document fails" >&2
        failed=1
    fi
done
[ "$failed" = 0 ] && echo "guide: the commands in README, FORMATS and the guide work$skipped"
exit "$failed"
