#!/bin/sh
# Makes a release in dist/ from the commit and the built files (make, make library, make web), with SHA256SUMS:
#   ribjasper-V.tar.gz                   the source
#   ribjasper-V-x86_64-linux.tar.gz      program, desk, library, header and documents; it runs from any folder
#   ribjasper-V-aarch64-linux.tar.gz     the same for 64-bit ARM
#   ribjasper-V-x86_64-windows.zip       program, DLL, import and static libraries, header and documents
#   ribjasper-V-static-libraries.tar.gz  libraries for macOS, iOS and Android: built, not tested
#   ribjasper-V-c.tar.gz                 the calls for web pages as one C file, for any other system
#   ribjasper_desk-V-*.whl, .tar.gz      complete wheels and the source archive of the desk
#   ribjasper-npm-V.tgz                  the npm package
#   *.deb                                packages for Debian
# If a tool is missing, its outputs are skipped and reported. A complete release skips nothing. Two releases of the same commit
# are equal byte for byte, because all files have the time of the commit.
set -e
cd "$(dirname "$0")/../.."
version=$(cat VERSION)
[ -z "$(git status --porcelain --untracked-files=no)" ] || { echo "make_dist: there are uncommitted changes" >&2; exit 1; }
[ -x bin/ribjasper ] || { echo "make_dist: there is no bin/ribjasper (make)" >&2; exit 1; }
[ -f lib/libribjasper.a ] || { echo "make_dist: there is no lib/libribjasper.a (make library)" >&2; exit 1; }
SOURCE_DATE_EPOCH=$(git log -1 --format=%ct)
export SOURCE_DATE_EPOCH
umask 022
work=$(mktemp -d)
trap 'rm -rf "$work"' EXIT
name=ribjasper-$version
rm -rf dist
mkdir -p dist
skipped=0

skip() {
    echo "make_dist: skipped $*" >&2
    skipped=$((skipped + 1))
}

pack() { tools/build/archive.py "$1" "$2"; }

documents() { cp LICENSE-MIT LICENSE-APACHE share/copyright README.md CHANGELOG.md docs/GUIDE.md docs/FORMATS.md "$1"; }

git archive --format=tar --prefix="$name/" HEAD | gzip -n9 >"dist/$name.tar.gz"

# archive_for TARGET NAME: makes an archive that runs from any folder, with a statically linked program.
archive_for() {
    target=$1 folder=$work/$2
    tools/build/build_target.sh program "$target" >/dev/null
    mkdir -p "$folder"
    # The files for pkg-config and CMake contain paths in /usr/local, where users can copy the archive.
    tools/build/install.sh "$folder" /usr/local /usr/local/lib ribjasper libribjasper0 libribjasper-dev ribjasper-desk
    mv "$folder"/usr/local/* "$folder"
    rm -r "$folder/usr"
    cp "bin/$target/ribjasper" "$folder/bin/ribjasper"
    if [ "$target" != x86_64-unknown-linux-gnu ]; then
        cp "lib/$target/libribjasper.so.0" "lib/$target/libribjasper.a" "$folder/lib"
    fi
    mkdir -p "$folder/share/doc/ribjasper"
    documents "$folder/share/doc/ribjasper"
    cp -r examples "$folder/share/doc/ribjasper"
    pack "$folder" "dist/$2.tar.gz"
}

if command -v "${CC:-gcc}" >/dev/null; then
    archive_for x86_64-unknown-linux-gnu "$name-x86_64-linux"
else
    skip "the archive for Linux, there is no C compiler"
fi
if command -v aarch64-linux-gnu-gcc >/dev/null; then
    tools/build/build_target.sh library aarch64-unknown-linux-gnu >/dev/null
    archive_for aarch64-unknown-linux-gnu "$name-aarch64-linux"
else
    skip "the archive for 64-bit ARM, there is no aarch64-linux-gnu-gcc"
fi

windows=x86_64-pc-windows-gnu
if command -v x86_64-w64-mingw32-gcc >/dev/null; then
    tools/build/build_target.sh library $windows >/dev/null
    tools/build/build_target.sh program $windows >/dev/null
    folder=$work/$name-x86_64-windows
    mkdir -p "$folder/lib" "$folder/include" "$folder/doc"
    cp bin/$windows/ribjasper.exe lib/$windows/ribjasper.dll "$folder"
    cp lib/$windows/ribjasper.def lib/$windows/*.lib lib/$windows/*.a "$folder/lib"
    cp include/ribjasper.h "$folder/include"
    documents "$folder/doc"
    cp -r examples "$folder"
    pack "$folder" "dist/$name-x86_64-windows.zip"
else
    skip "the archive for Windows, there is no x86_64-w64-mingw32-gcc"
fi

folder=$work/$name-static-libraries
mkdir -p "$folder/include"
cp include/ribjasper.h LICENSE-MIT LICENSE-APACHE share/copyright "$folder/include/.."
mv "$folder/ribjasper.h" "$folder/include"
for target in x86_64-apple-darwin aarch64-apple-darwin aarch64-apple-ios aarch64-linux-android; do
    tools/build/build_target.sh library $target >/dev/null
    mkdir -p "$folder/lib/$target"
    cp lib/$target/libribjasper.a "$folder/lib/$target"
done
pack "$folder" "dist/$name-static-libraries.tar.gz"

python3=/usr/bin/python3
[ -x $python3 ] || python3=python3
for platform in manylinux_2_17_x86_64 manylinux_2_17_aarch64 win_amd64; do
    (cd desk && $python3 -B build_wheel.py ../dist $platform >/dev/null) || skip "the wheel for $platform"
done
(cd desk && $python3 -B -c 'import build_wheel; build_wheel.build_sdist("../dist")')

if [ -f lib/web/ribjasper32.wasm ] && command -v npm >/dev/null; then
    tools/build/make_npm.sh "$work/npm" >/dev/null
    cp "$work/npm/$name.tgz" "dist/ribjasper-npm-$version.tgz"
else
    skip "the npm package, there is no lib/web/ribjasper32.wasm (make web, with binaryen) or no npm"
fi
if [ -f lib/web/ribjasper32.wasm ] && command -v wasm2c >/dev/null; then
    tools/build/make_c.sh "$work/$name-c" >/dev/null
    pack "$work/$name-c" "dist/$name-c.tar.gz"
else
    skip "the C file, there is no lib/web/ribjasper32.wasm or no wasm2c (Debian: wabt)"
fi
if command -v dpkg-deb >/dev/null; then
    rm -f deb/*.deb
    tools/build/make_deb.sh >/dev/null
    cp deb/*.deb dist
else
    skip "the packages for Debian, there is no dpkg-deb"
fi
(cd dist && LC_ALL=C sha256sum -- * >"$work/SHA256SUMS" && mv "$work/SHA256SUMS" .)
cat dist/SHA256SUMS
[ "$skipped" = 0 ] || echo "make_dist: $skipped parts were skipped, so this release is incomplete" >&2
