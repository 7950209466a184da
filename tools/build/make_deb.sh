#!/bin/sh
# Makes Debian packages from the results of `make` and `make library` with dpkg-deb, and writes them to deb/:
# ribjasper (the program, its page and completions), libribjasper0 (the shared library), libribjasper-dev (header,
# archive, pkg-config, CMake) and ribjasper-desk. Without lib/ it makes only the first, and reports this. Packages of the same
# commit are equal byte for byte (SOURCE_DATE_EPOCH, or the time of the commit).
set -e
cd "$(dirname "$0")/../.."
command -v dpkg-deb >/dev/null || { echo "make_deb: dpkg-deb is missing (package dpkg)" >&2; exit 1; }
[ -x bin/ribjasper ] || { echo "make_deb: there is no bin/ribjasper (make)" >&2; exit 1; }
# Debian marks a version before a release with a tilde. The number after the hyphen counts the packages of a version.
upstream=$(sed 's/-dev$/~dev/' VERSION)
version=$upstream-1
architecture=$(dpkg --print-architecture)
multiarch=$(command -v dpkg-architecture >/dev/null && dpkg-architecture -qDEB_HOST_MULTIARCH || echo "$(uname -m)-linux-gnu")
SOURCE_DATE_EPOCH=${SOURCE_DATE_EPOCH:-$(git log -1 --format=%ct 2>/dev/null || date +%s)}
export SOURCE_DATE_EPOCH
maintainer="Ribjasper maintainers <maintainers@users.noreply.ribjasper.example>"
umask 022
work=$(mktemp -d)
trap 'rm -rf "$work"' EXIT
mkdir -p deb

# Prints the newest version of the C library that a file needs, as a dependency.
libc_for() {
    newest=$(readelf --version-info --wide "$1" | grep -oE 'GLIBC_[0-9.]+' | sed 's/GLIBC_//' | sort -uV | tail -n 1)
    echo "libc6 (>= ${newest:-2.17})"
}

# Prints the entries of the package's changelog: this version, and the earlier versions with a date in CHANGELOG.md.
entry() {
    echo "ribjasper ($1) unstable; urgency=medium"
    echo
    echo "  * New upstream release; changelog.gz lists what changed."
    echo
    echo " -- $maintainer  $(LC_ALL=C date -u -R -d "$2")"
    echo
}
entries() {
    entry "$version" "@$SOURCE_DATE_EPOCH"
    sed -n 's/^## \([0-9.]*\), \([0-9-]*\)$/\1 \2/p' CHANGELOG.md | while read -r number day; do
        [ "$number" = "$upstream" ] || entry "$number-1" "$day"
    done
}

# begin NAME: installs the files that tools/build/installed.txt lists for a package into the package's own folder.
begin() {
    name=$1 folder=$work/$1
    tools/build/install.sh "$folder" /usr "/usr/lib/$multiarch" "$name"
    doc=$folder/usr/share/doc/$name
    install -D -m 644 share/copyright "$doc/copyright"
    mkdir -p "$folder/DEBIAN"
}

documents() { install -m 644 "$@" "$doc"; }

# control_file NAME MODE: writes a file of the package's control area from standard input.
control_file() { cat >"$folder/DEBIAN/$1" && chmod "$2" "$folder/DEBIAN/$1"; }

# finish SUMMARY SECTION ARCHITECTURE DEPENDS [RECOMMENDS]: makes the package; standard input is its description.
finish() {
    # Debian compresses manual pages, so the links to them also end with .gz.
    find "$folder/usr/share/man" -type l 2>/dev/null | while read -r link; do
        ln -s "$(readlink "$link").gz" "$link.gz"
        rm "$link"
    done
    find "$folder/usr/share/man" -type f ! -name '*.gz' -exec gzip -9n {} + 2>/dev/null || true
    gzip -9nc CHANGELOG.md >"$doc/changelog.gz"
    entries | gzip -9n >"$doc/changelog.Debian.gz"
    (cd "$folder" && find usr -type f -print0 | LC_ALL=C sort -z | xargs -0 md5sum) | control_file md5sums 644
    {
        echo "Package: $name"
        echo "Source: ribjasper"
        echo "Version: $version"
        echo "Architecture: $3"
        echo "Maintainer: $maintainer"
        echo "Section: $2"
        echo "Priority: optional"
        [ "$name" = ribjasper-desk ] || [ "$name" = ribjasper ] || echo "Multi-Arch: same"
        [ "$name" != ribjasper ] || echo "Multi-Arch: foreign"
        [ -z "$4" ] || echo "Depends: $4"
        [ -z "$5" ] || echo "Recommends: $5"
        [ -z "$suggests" ] || echo "Suggests: $suggests"
        echo "Installed-Size: $(du -sk --apparent-size "$folder/usr" | cut -f1)"
        echo "Description: $1"
        sed 's/^/ /'
    } | control_file control 644
    find "$folder" -newermt "@$SOURCE_DATE_EPOCH" -exec touch -hd "@$SOURCE_DATE_EPOCH" {} +
    dpkg-deb --root-owner-group -Zxz --build "$folder" "deb/${name}_${version}_$3.deb" >/dev/null
    echo "deb/${name}_${version}_$3.deb"
}

suggests=ribjasper-desk
begin ribjasper
strip --remove-section=.note --strip-unneeded "$folder/usr/bin/ribjasper"
documents docs/FORMATS.md docs/PROVED.md
install -D -m 644 -t "$doc/examples" examples/hello.cue examples/hello.script
finish "subcode of Compact Discs: graphics, texts and Q frames, both ways" sound "$architecture" \
    "$(libc_for bin/ribjasper)" <<'END'
Ribjasper works on the subcode channels P to W of the Compact Disc: it
converts raw subcode to CD+G files with error correction, shows pictures,
checks words, lists Q frames and CD-TEXT, and authors the subcode of a disc
from a cue sheet and a picture script. Every function of it is proved.
END
if [ ! -e lib/libribjasper.so.0 ]; then
    echo "make_deb: skipped the library and the desk, since lib/ is not built (make library)"
    exit 0
fi

suggests=
begin libribjasper0
strip --strip-unneeded "$folder/usr/lib/$multiarch/libribjasper.so.0"
chmod 644 "$folder/usr/lib/$multiarch/libribjasper.so.0"
echo "activate-noawait ldconfig" | control_file triggers 644
echo "libribjasper 0 libribjasper0 (>= $upstream)" | control_file shlibs 644
# Lists each call with the version that added it.
{
    echo "libribjasper.so.0 libribjasper0 #MINVER#"
    echo "* Build-Depends-Package: libribjasper-dev"
    echo " RIBJASPER_1@RIBJASPER_1 1.1.0"
    sed -n 's/^\([0-9.]*\): call \(ribjasper_[a-z0-9_]*\)$/ \2@RIBJASPER_1 \1/p' tools/check/abi.txt | LC_ALL=C sort
} | control_file symbols 644
finish "player and tools for the subcode of Compact Discs - shared library" libs "$architecture" \
    "$(libc_for lib/libribjasper.so.0)" <<'END'
A proved player of CD+G, error correction, surveys, mending of several
readings and plans of discs, for programs in any language that calls C.
.
This package has the shared library.
END

begin libribjasper-dev
strip --strip-debug --enable-deterministic-archives "$folder/usr/lib/$multiarch/libribjasper.a"
install -D -m 644 -t "$doc/examples" examples/player.c examples/player.cpp examples/player.py examples/player.rs
finish "player and tools for the subcode of Compact Discs - development files" libdevel "$architecture" \
    "libribjasper0 (= $version)" <<'END'
A proved player of CD+G, error correction, surveys, mending of several
readings and plans of discs, for programs in any language that calls C.
.
This package has the header, the static library, pages of the manual, the
files of pkg-config and CMake, and examples.
END

begin ribjasper-desk
# Python files that are compiled on installation are removed together with their sources.
control_file postinst 755 <<'END'
#!/bin/sh
set -e
if [ "$1" = configure ] && command -v py3compile >/dev/null; then
    py3compile -p ribjasper-desk /usr/share/ribjasper-desk
fi
END
control_file prerm 755 <<'END'
#!/bin/sh
set -e
if command -v py3clean >/dev/null; then
    py3clean -p ribjasper-desk
else
    find /usr/share/ribjasper-desk -name __pycache__ -prune -exec rm -rf {} +
fi
END
documents docs/GUIDE.md docs/API.md docs/*.png
for example in album song; do
    for file in examples/$example/*; do
        [ ! -f "$file" ] || install -D -m 644 "$file" "$doc/$file"
    done
done
suggests="python3-distributed, python3-mido, python3-numpy, python3-pyphen"
finish "whole jobs over dumps and songs of the subcode of Compact Discs" sound all \
    "libribjasper0 (>= $upstream), python3 (>= 3.11)" \
    "ribjasper, python3-pil, python3-tqdm, ffmpeg, fonts-dejavu-core" <<'END'
Commands for archivists and publishers of CD+G: identify the form of a
dump, find and mend damage, report on folders, turn lyrics into discs,
pairs of files, films and web pages.
.
The desk is tested, not proved. It reads blocks, words and texts by the
proved library.
END
