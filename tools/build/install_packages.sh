#!/bin/sh
# Installs the packages that the checks need in addition to Python, if it runs as root, with apt-get, in some minutes: Python
# packages, fonts, compilers, a browser, and the programs for comparisons. The exit status is 0 in any case: checks without
# their packages are skipped and counted.
packages="black pyflakes3 python3-venv python3-pil python3-tqdm python3-distributed python3-hypothesis python3-mido python3-numpy
python3-pyphen hyphen-en-us python3-chardet python3-shtab zsh mypy fonts-dejavu-core
fonts-vlgothic ffmpeg cdrdao cdrskin libburn-dev valgrind gcc g++ clang binutils pkg-config cmake lld nodejs chromium
wine wine64 gcc-mingw-w64-x86-64 g++-mingw-w64-x86-64 qemu-user gcc-aarch64-linux-gnu g++-aarch64-linux-gnu libc6-dev-arm64-cross
binaryen wabt esbuild libjavascriptcoregtk-4.0-bin lintian libunwind-dev libdw-dev libgstreamer-plugins-base1.0-dev
gstreamer1.0-tools gstreamer1.0-plugins-base libvlccore-dev vlc-bin vlc-plugin-base gddrescue"
[ "$(id -u)" = 0 ] && command -v apt-get >/dev/null && command -v dpkg-query >/dev/null || exit 0
# A Rust compiler from another source also works.
command -v rustc >/dev/null || packages="$packages rustc"
missing=
for package in $packages; do
    dpkg-query --show --showformat='${db:Status-Status}' "$package" 2>/dev/null | grep -qx installed || missing="$missing $package"
done
[ -n "$missing" ] || exit 0
get() { DEBIAN_FRONTEND=noninteractive timeout 480 apt-get -qq -o Acquire::Retries=1 -o DPkg::Lock::Timeout=60 "$@"; }
# If one package is not available, the others are installed one by one.
{ get install -y --no-install-recommends $missing || { get update && get install -y --no-install-recommends $missing; } ||
    for package in $missing; do get install -y --no-install-recommends "$package"; done; } </dev/null >/dev/null 2>&1
exit 0
