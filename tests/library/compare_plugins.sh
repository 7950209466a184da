#!/bin/sh
# Builds the plug-ins of examples/gstreamer and examples/vlc without warnings, and compares their pictures with those of the
# command `screen`. The inputs are a .cdg file and a raw stream. Their form is set by properties of the decoder, or detected. A
# plug-in is skipped if its headers or programs are missing.
set -e
cd "$(dirname "$0")/../.."
top=$PWD
[ -f lib/libribjasper.a ] || { echo "compare_plugins: skipped, there is no lib/libribjasper.a (make library)"; exit 0; }
[ -x bin/ribjasper ] || { echo "compare_plugins: skipped, there is no bin/ribjasper (make)"; exit 0; }
command -v cc >/dev/null && command -v pkg-config >/dev/null ||
    { echo "compare_plugins: skipped, there is no cc or no pkg-config"; exit 0; }
work=$(mktemp -d)
trap 'rm -rf "$work"' EXIT
failed=0
complain() {
    echo "compare_plugins: $*" >&2
    failed=1
}

cp examples/hello.cue examples/hello.script "$work"
cd "$work"
"$top/bin/ribjasper" author --lead-in 30 --length 00:22:00 -- hello.cue hello.script >stream.raw
"$top/bin/ribjasper" convert --lead-in 30 <stream.raw >song.cdg
# `screen` shows all packs except the last seven. With one pack before the file and two blocks after it, `screen` shows the first
# 4 k packs of the file at block k + 2.
{ head -c 24 /dev/zero; head -c $((1798 * 96)) song.cdg; head -c $((96 * 3 - 24)) /dev/zero; } >shifted.cdg
time_of() { printf '%02d:%02d:%02d' $(($1 / 4500)) $(($1 / 75 % 60)) $(($1 % 75)); }
cd "$top"

# same_frames WHAT FILE BLOCKS LATER WORD ..: picture k of the raw RGB pictures equals the output of `screen` with these words
# for FILE at block k + LATER.
same_frames() {
    what=$1 file=$work/$2 blocks=$3 later=$4
    shift 4
    [ "$(wc -c <"$work/frames")" = $((194400 * blocks)) ] ||
        { complain "$what: $(($(wc -c <"$work/frames") / 194400)) pictures for $blocks blocks"; return; }
    for moment in 40 200 777 1500 $blocks; do
        tail -c +$((194400 * (moment - 1) + 1)) "$work/frames" | head -c 194400 >"$work/picture"
        bin/ribjasper screen "$@" --at "$(time_of $((moment + later)))" <"$file" | tail -c 194400 >"$work/expected"
        cmp "$work/picture" "$work/expected" || { complain "$what: the picture after $moment blocks differs"; return; }
    done
    echo "compare_plugins: $what: $blocks pictures; the compared ones are equal"
}

if ! pkg-config --exists gstreamer-video-1.0 || ! command -v gst-launch-1.0 >/dev/null; then
    echo "compare_plugins: GStreamer is skipped, there are no headers or no gst-launch-1.0"
else
    mkdir "$work/gst"
    make -s -C examples/gstreamer CFLAGS="-O2 -Werror" OUT="$work/gst/libgstribjasper.so"
    export GST_PLUGIN_PATH="$work/gst" GST_REGISTRY="$work/registry" GST_REGISTRY_FORK=no
    rgb="videoconvert ! video/x-raw,format=RGB,width=300,height=216 ! filesink location=$work/frames"
    play() {
        rm -f "$work/frames"
        gst-launch-1.0 -q filesrc location="$work/$1" ! $2 ! $rgb >"$work/output" 2>&1 ||
            { cat "$work/output" >&2; complain "GStreamer fails for $1 with $2"; }
    }
    play stream.raw "ribjasperdec layout=raw lead-in=30"
    mv "$work/frames" "$work/all"
    # The decoder outputs a black picture for each block of the lead-in.
    tail -c +$((194400 * 30 + 1)) "$work/all" >"$work/frames"
    same_frames "GStreamer, a raw stream" stream.raw 1800 0 --lead-in 30
    play song.cdg ribjasperdec
    same_frames "GStreamer, a .cdg file" shifted.cdg 1798 2 --lead-in 0 --form cooked
    mv "$work/frames" "$work/pack_frames"
    play song.cdg decodebin
    cmp "$work/frames" "$work/pack_frames" || complain "GStreamer: the pictures of a .cdg file differ if its type is detected"
    play stream.raw decodebin
    [ "$(wc -c <"$work/frames")" = $((194400 * 1830)) ] || complain "GStreamer: the type of a raw stream is not detected"
fi

if ! pkg-config --exists vlc-plugin; then
    echo "compare_plugins: VLC is skipped, there are no headers (Debian: libvlccore-dev)"
else
    mkdir "$work/vlc"
    make -s -C examples/vlc CFLAGS="-O2 -Werror" OUT="$work/vlc/libribjasper_plugin.so"
    echo "compare_plugins: the decoder for VLC is built"
    if ! command -v cvlc >/dev/null || ! /usr/bin/python3 -c 'import PIL' 2>/dev/null; then
        echo "compare_plugins: the run in VLC is skipped, there is no cvlc (Debian: vlc-bin, vlc-plugin-base) or no PIL"
    else
        mkdir "$work/scenes"
        chmod -R a+rX "$work"
        chmod 777 "$work/scenes"
        # VLC does not run as root.
        as_user=
        [ "$(id -u)" != 0 ] || as_user="setpriv --reuid=65534 --regid=65534 --clear-groups"
        (cd "$work/scenes" && $as_user env HOME="$work/scenes" VLC_PLUGIN_PATH="$work/vlc" timeout 120 cvlc -q -I dummy --codec ribjasper \
            --no-audio --no-drop-late-frames --no-skip-frames --vout=vdummy --video-filter=scene --scene-format=png \
            --scene-ratio=1 --scene-path="$work/scenes" --play-and-exit "$work/song.cdg" >"$work/output" 2>&1) || { cat "$work/output" >&2; complain "VLC fails"; }
        /usr/bin/python3 tests/library/compare_vlc.py bin/ribjasper "$work/shifted.cdg" "$work/scenes" ||
            complain "the pictures of VLC differ"
    fi
fi
exit "$failed"
