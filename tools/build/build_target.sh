#!/bin/sh
# Builds the library or the program for another system: build_target.sh library|program TARGET
#
# The kit's LLVM module of the proved crate is compiled again for TARGET (tools/build/translate.py) and linked with the tools
# of that system. The targets, their other names, and the Debian packages that they need:
#   x86_64-pc-windows-gnu      x86_64-w64-mingw32, x86_64-windows   gcc-mingw-w64-x86-64
#   aarch64-unknown-linux-gnu  aarch64-linux-gnu                    gcc-aarch64-linux-gnu, libc6-dev-arm64-cross
#   x86_64-unknown-linux-gnu   (program) statically linked          gcc, libc6-dev
#   x86_64-apple-darwin, aarch64-apple-darwin, aarch64-apple-ios, aarch64-linux-android: (library) static, built but not tested
# The library is written to lib/TARGET, the program to bin/TARGET. CPU is clang's name of the oldest processor that the code
# must run on (default: any processor of the architecture).
set -e
cd "$(dirname "$0")/../.."
what=$1
case $2 in
    x86_64-pc-windows-gnu | x86_64-w64-mingw32 | x86_64-windows) target=x86_64-pc-windows-gnu prefix=x86_64-w64-mingw32- ;;
    aarch64-unknown-linux-gnu | aarch64-linux-gnu) target=aarch64-unknown-linux-gnu prefix=aarch64-linux-gnu- ;;
    x86_64-unknown-linux-gnu | x86_64-linux-gnu) target=x86_64-unknown-linux-gnu prefix= ;;
    x86_64-apple-darwin | x86_64-apple-macos*) target=x86_64-apple-darwin prefix=none ;;
    aarch64-apple-darwin | arm64-apple-darwin | arm64-apple-macos*) target=aarch64-apple-darwin prefix=none ;;
    aarch64-apple-ios | arm64-apple-ios*) target=aarch64-apple-ios prefix=none ;;
    aarch64-linux-android*) target=aarch64-linux-android prefix=none ;;
    *) echo "build_target: there is no target $2" >&2; exit 2 ;;
esac
compiler=${CC:-${prefix}gcc}
if [ "$prefix" != none ]; then
    for tool in "$compiler" "${prefix}strip"; do
        command -v "$tool" >/dev/null || { echo "build_target: there is no $tool" >&2; exit 1; }
    done
fi
kit=$(dirname "$(readlink -f "$(command -v rt)")")/..
work=$(mktemp -d)
trap 'rm -rf "$work"' EXIT
built=$work/built
mkdir "$built"

# The LLVM tools of the kit are one file under several names.
llvm() {
    tool=$1
    shift
    ln -sf "$kit/toolchain/bin/clang" "$work/$tool"
    "$work/$tool" "$@"
}

translate() { tools/build/translate.py "$@" ${CPU:+--cpu "$CPU"}; }

# place FOLDER: moves the built files to FOLDER. Running programs keep the old files.
place() {
    mkdir -p "$1"
    for file in "$built"/*; do
        name=${file##*/}
        cp -P "$file" "$1/.$name"
        mv "$1/.$name" "$1/$name"
    done
}

calls() { grep -oE '\bribjasper_[a-z0-9_]+\(' include/ribjasper.h | tr -d '(' | sort -u; }

# inspect OBJECT: checks that the object defines the calls of the header and nothing else, except constants that MSVC shares
# between objects, and that it needs only the listed functions.
inspect() {
    named=$(llvm llvm-nm -g --defined-only -j "$1" | sed 's/^_//' | grep '^ribjasper_' | sort)
    [ "$named" = "$(calls)" ] || { echo "build_target: the names of $1 are not those of the header" >&2; exit 1; }
    others=$(llvm llvm-nm -g --defined-only -j "$1" | sed 's/^_//' | grep -v -e '^ribjasper_' -e ':$' -e '^$' -e '^_xmm@' -e '^_real@' || true)
    [ -z "$others" ] || { echo "build_target: $1 also defines $others" >&2; exit 1; }
    needed=$(llvm llvm-nm -u -j "$1" | sed 's/^_//' | grep -vxE \
        '(mem(cpy|move|set|cmp)|malloc|realloc|free|_?_?bzero|memset_pattern16|_?_?_chkstk(_ms)?|_GLOBAL_OFFSET_TABLE_|.*:|)' || true)
    [ -z "$needed" ] || { echo "build_target: $1 needs $needed" >&2; exit 1; }
}

library() {
    tools/build/build_module.sh ribjasper_c
    module=lib/modules/ribjasper_c.bc
    translate "$module" "$target" "$work/ribjasper.o"
    inspect "$work/ribjasper.o"
    case $target in
        *-windows-gnu)
            { echo "LIBRARY ribjasper.dll"; echo EXPORTS; calls | sed 's/^/    /'; } >"$built/ribjasper.def"
            # The linker derives a base from the path of the output, and an archive keeps paths of its members: neither may
            # depend on the folder for temporary files.
            "$compiler" -shared -static-libgcc -s -Wl,--no-insert-timestamp,--disable-auto-image-base -o "$built/ribjasper.dll" \
                "$work/ribjasper.o" "$built/ribjasper.def"
            # One import library works for both linkers; each searches for another name.
            llvm llvm-dlltool -m i386:x86-64 -D ribjasper.dll -d "$built/ribjasper.def" -l "$built/ribjasper.lib"
            cp "$built/ribjasper.lib" "$built/libribjasper.dll.a"
            llvm llvm-ar rcsD "$built/libribjasper.a" "$work/ribjasper.o"
            # In the static library for MSVC, large frames probe the stack with the function of the C library of MSVC.
            translate "$module" x86_64-pc-windows-msvc "$work/ribjasper.obj"
            inspect "$work/ribjasper.obj"
            cp "$work/ribjasper.obj" "$built"
            (cd "$built" && llvm llvm-lib /out:ribjasper_static.lib ribjasper.obj && rm ribjasper.obj)
            ;;
        *-linux-gnu)
            llvm llvm-ar rcsD "$built/libribjasper.a" "$work/ribjasper.o"
            "$compiler" -shared -Wl,-soname,libribjasper.so.0 -Wl,--version-script=tools/build/libribjasper.map \
                -Wl,--no-undefined -Wl,-z,relro -Wl,-z,now -Wl,-z,noexecstack -o "$built/libribjasper.so.0" "$work/ribjasper.o"
            ln -s libribjasper.so.0 "$built/libribjasper.so"
            ;;
        *-apple-*) llvm llvm-libtool-darwin -static -D -o "$built/libribjasper.a" "$work/ribjasper.o" ;;
        *) llvm llvm-ar rcsD "$built/libribjasper.a" "$work/ribjasper.o" ;;
    esac
    place "lib/$target"
    echo "lib/$target is built"
}

program() {
    crate=${CRATE:-ribjasper}
    tools/build/build_module.sh "$crate"
    module=lib/modules/$crate.bc
    strict="-O2 -Wall -Wextra -Werror"
    case $target in
        *-windows-gnu)
            translate "$module" "$target" "$work/program.o" --rename open=windows_open --rename read=windows_read \
                --rename write=windows_write --rename close=windows_close --rename __sysv_signal=windows_signal \
                --rename __xpg_strerror_r=windows_error_text
            "$compiler" $strict -c tools/build/program_windows.c -o "$work/system.o"
            "$compiler" -static -s -Wl,--no-insert-timestamp -mconsole -o "$built/$crate.exe" \
                "$work/program.o" "$work/system.o" -lshell32
            ;;
        *-linux-gnu)
            translate "$module" "$target" "$work/program.o"
            "$compiler" $strict -fPIC -c tools/build/program_linux.c -o "$work/system.o"
            "$compiler" -static-pie -s -Wl,-z,relro -Wl,-z,now -Wl,-z,noexecstack -Wl,--build-id=none -o "$built/$crate" \
                "$work/program.o" "$work/system.o"
            ;;
        *) echo "build_target: there is no program for $target" >&2; exit 2 ;;
    esac
    place "bin/$target"
    echo "bin/$target is built"
}

case $what in
    library | program) "$what" ;;
    *) echo "build_target: the first argument is library or program" >&2; exit 2 ;;
esac
