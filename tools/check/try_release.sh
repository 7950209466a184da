#!/bin/sh
# Tests a release like a new user: try_release.sh [wheel] [deb] [archive]. For each form, it makes a fresh Debian without the kit
# and without a checkout, installs the files of dist/ (make dist), and produces the first results of README. It prints the time,
# without that for making the Debian, and fails if the time is two minutes or more. It is run by hand before a release, as root,
# and needs mmdebstrap and a Debian mirror.
set -e
cd "$(dirname "$0")/../.."
top=$PWD
[ "$(id -u)" = 0 ] && command -v mmdebstrap >/dev/null || { echo "try_release: skipped, this needs root and mmdebstrap"; exit 0; }
[ -f dist/SHA256SUMS ] || { echo "try_release: there is no dist/ (make dist)" >&2; exit 1; }
(cd dist && sha256sum --quiet -c SHA256SUMS)
work=$(mktemp -d)
trap 'umount "$work"/*/proc 2>/dev/null || true; rm -rf "$work"' EXIT
failed=0

# The first results of README: a publisher's disc with one picture of it, and an archivist's tables. EXAMPLES is the folder of
# the inputs.
cat >"$work/first_result" <<'END'
set -e
mkdir /tmp/first-result
cd /tmp/first-result
cp "$EXAMPLES/hello.cue" "$EXAMPLES/hello.script" .
ribjasper author --lead-in 30 --length 00:22:00 -- hello.cue hello.script >hello.raw
ribjasper check --lead-in 30 -- hello.raw
ribjasper screen --lead-in 30 --at 00:07:10 -- hello.raw >third.ppm
[ "$(wc -c <third.ppm)" = 194415 ]
ribjasper-desk --version
ribjasper-desk identify hello.raw
ribjasper-desk damage hello.raw
ribjasper-desk report . -o report
ls report
END
# A player that uses the library; this needs a C compiler.
cat >"$work/first_player" <<'END'
set -e
cd /tmp/first-result
cc "$EXAMPLES_OF_LIBRARY/player.c" $FLAGS -o player
tail -c +2881 hello.raw | ./player 535
cmp third.ppm 535.ppm
END

# try NAME PACKAGES SCRIPT: runs SCRIPT in a fresh Debian with these packages, where /dist is a copy of dist/.
try() {
    root=$work/$1
    mmdebstrap --quiet --variant=minbase ${2:+--include="$2"} bookworm "$root" 2>"$work/printed" ||
        { cat "$work/printed" >&2; echo "try_release: $1: mmdebstrap fails" >&2; exit 1; }
    cp -r dist "$work/first_result" "$work/first_player" "$root/"
    mount -t proc proc "$root/proc" 2>/dev/null || true
    began=$(date +%s)
    if chroot "$root" env -i PATH=/usr/local/bin:/usr/bin:/bin:/usr/sbin:/sbin HOME=/root LC_ALL=C.UTF-8 sh -ec "$3" \
        >"$work/printed" 2>&1; then
        seconds=$(($(date +%s) - began))
        echo "try_release: $1: the first result after $seconds seconds"
        [ "$seconds" -lt 120 ] || failed=1
    else
        tail -n 20 "$work/printed" >&2
        echo "try_release: $1 fails" >&2
        failed=1
    fi
    umount "$root/proc" 2>/dev/null || true
    rm -rf "$root"
}

[ $# -gt 0 ] || set -- wheel deb archive
for form in "$@"; do
    case $form in
        wheel)
            # Pillow, which the extra `pictures` needs, is Debian's package here, because the Python index may be unreachable.
            try wheel python3,python3-venv,python3-pil,fonts-dejavu-core '
                python3 -m venv --system-site-packages /root/ribjasper
                . /root/ribjasper/bin/activate
                pip install --quiet --no-index /dist/*manylinux*x86_64.whl
                EXAMPLES=/root/ribjasper/share/doc/ribjasper/examples; export EXAMPLES
                sh /first_result' ;;
        deb)
            try deb ca-certificates '
                apt-get update -qq
                apt-get install -y --no-install-recommends /dist/*_amd64.deb /dist/*_all.deb python3-pil fonts-dejavu-core gcc libc6-dev
                EXAMPLES=/usr/share/doc/ribjasper/examples; export EXAMPLES
                sh /first_result
                EXAMPLES_OF_LIBRARY=/usr/share/doc/libribjasper-dev/examples FLAGS=-lribjasper sh /first_player' ;;
        archive)
            try archive python3,python3-pil,gcc,libc6-dev,fonts-dejavu-core '
                tar -C /opt -xf /dist/ribjasper-*-x86_64-linux.tar.gz
                cd /opt/ribjasper-*; PATH=$PWD/bin:$PATH; export PATH
                EXAMPLES=$PWD/share/doc/ribjasper/examples; export EXAMPLES
                top=$PWD
                sh /first_result
                EXAMPLES_OF_LIBRARY=$EXAMPLES FLAGS="-I$top/include $top/lib/libribjasper.a" sh /first_player' ;;
        *) echo "try_release: unknown form $form" >&2; exit 2 ;;
    esac
done
exit "$failed"
