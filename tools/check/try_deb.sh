#!/bin/sh
# Tests the packages of deb/. First lintian must find no errors and no warnings. Then, as root and with dpkg, the script installs
# the packages, checks that all their files exist, and removes them again. It does not do this if one of the packages is already
# installed.
set -e
cd "$(dirname "$0")/../.."
ls deb/*.deb >/dev/null 2>&1 || { echo "try_deb: skipped, there are no packages (make deb)"; exit 0; }
if command -v lintian >/dev/null; then
    found=$(lintian --fail-on none --tag-display-limit 0 --display-level '>=warning' deb/*.deb 2>&1 |
        grep -v -e '^running with root' -e '^N:' || true)
    [ -z "$found" ] || { echo "try_deb: lintian finds: $found" >&2; exit 1; }
    echo "try_deb: lintian finds no error and no warning"
else
    echo "try_deb: skipped lintian, it is not installed"
fi
[ "$(id -u)" = 0 ] && command -v dpkg >/dev/null || { echo "try_deb: skipped, packages cannot be installed here"; exit 0; }
names=$(for file in deb/*.deb; do dpkg-deb --field "$file" Package; done)
for name in $names; do
    ! dpkg --status "$name" >/dev/null 2>&1 || { echo "try_deb: skipped, $name is installed"; exit 0; }
done
dpkg --install deb/*.deb >/dev/null
trap 'dpkg --purge $names >/dev/null 2>&1 || true' EXIT
files=$(for name in $names; do dpkg --listfiles "$name"; done | sort -u)
for file in $files; do
    [ -e "$file" ] || { echo "try_deb: $file was not installed" >&2; exit 1; }
done
[ "$(printf '' | ribjasper convert --lead-in 0 | wc -c)" = 0 ]
! command -v ribjasper-desk >/dev/null || [ "$(ribjasper-desk --version)" = "ribjasper-desk $(sed 's/-dev$//' VERSION)" ]
dpkg --purge $names >/dev/null
[ ! -e /usr/bin/ribjasper ] || { echo "try_deb: the program was not removed" >&2; exit 1; }
echo "try_deb: the packages were installed and removed again"
