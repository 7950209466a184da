#!/bin/sh
# Installs packages, or removes their installed files: install.sh [--remove] DESTDIR PREFIX LIBDIR PACKAGE ..
# tools/build/installed.txt lists the files of each package. DESTDIR, which may be empty, is put in front of each name. Names
# may contain spaces. Removing a package also removes folders that become empty, except those of the system.
set -e
cd "$(dirname "$0")/../.."
act=put
[ "$1" != --remove ] || { act=remove; shift; }
destination=$1 prefix=$2 libraries=$3
shift 3
version=$(cat VERSION)

# The calls of the library, by name.
calls() { grep -oE '\bribjasper_[a-z0-9_]+\(' include/ribjasper.h | tr -d '(' | sort -u; }

# Escapes a name for the replacement of sed, which then writes it unchanged.
escaped() { printf '%s' "$1" | sed 's/[&|\\]/\\&/g'; }

# Prints a file with the values of its @NAMES@.
filled() {
    headers=$(realpath --canonicalize-missing --relative-to="$libraries/cmake/ribjasper" "$prefix/include")
    sed -e "s|@PREFIX@|$(escaped "$prefix")|" -e "s|@LIBDIR@|$(escaped "$libraries")|" -e "s|@VERSION@|$version|" \
        -e "s|@MAJOR@|${version%%.*}|" -e "s|@HEADERS@|$(escaped "$headers")|" "$1"
}

# put HOW SOURCE PLACE: installs the files of one line of installed.txt.
put() {
    install -d "$(dirname "$3")"
    case $1 in
        755 | 644) install -m "$1" "$2" "$3" ;;
        filled) filled "$2" >"$3" && chmod 644 "$3" ;;
        written) "$2" >"$3" && chmod 644 "$3" ;;
        bash | zsh)
            if "$2" "$1" >"$3"; then chmod 644 "$3"; else rm -f "$3" && rmdir "$(dirname "$3")" 2>/dev/null || true; fi
            ;;
        link) ln -sf "$2" "$3" ;;
        calls)
            install -d "$3"
            if command -v python3 >/dev/null; then
                tools/write/library_page.py --into "$3" && (cd "$3" && chmod 644 ribjasper_*.3)
            else
                for call in $(calls); do ln -sf "$2" "$3/$call.3"; done
            fi
            ;;
        web)
            for file in ribjasper.mjs ribjasper32.wasm ribjasper.wasm index.html; do
                [ ! -f "$2/$file" ] || install -D -m 644 "$2/$file" "$3/$file"
            done
            ;;
        tree)
            (cd "$2" && find . -type f -not -path '*__pycache__*') | while read -r file; do
                install -D -m 644 "$2/$file" "$3/$file"
            done
            ;;
    esac
}

# remove HOW SOURCE PLACE: removes the files of one line of installed.txt, and folders that become empty.
remove() {
    case $1 in
        tree | web) rm -rf "$3" ;;
        calls) rm -f "$3"/ribjasper_*.3 ;;
        *) rm -f "$3" ;;
    esac
    folder=$(dirname "$3")
    case $folder in
        */ribjasper-desk) rmdir "$folder" 2>/dev/null || true ;;
        */cmake/ribjasper) rmdir "$folder" "$(dirname "$folder")" 2>/dev/null || true ;;
    esac
    case $prefix:$folder in
        /usr:* | /usr/local:*) ;;
        *:"$destination$prefix"/*)
            (cd "$destination$prefix" && rmdir -p "${folder#"$destination$prefix/"}") 2>/dev/null || true ;;
    esac
}

for package in "$@"; do
    grep -q "^$package " tools/build/installed.txt || { echo "install: there is no package $package" >&2; exit 2; }
    sed "/^$package /!d" tools/build/installed.txt | while read -r _ how source place; do
        case $place in
            PREFIX/*) place=$destination$prefix/${place#PREFIX/} ;;
            LIBDIR/*) place=$destination$libraries/${place#LIBDIR/} ;;
        esac
        "$act" "$how" "$source" "$place"
    done
done
