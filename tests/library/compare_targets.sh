#!/bin/sh
# Compares the libraries and programs for other systems with those for this machine. `make library TARGET=..` and `make program
# TARGET=..` build them in lib/ and bin/. Those for Windows run in wine, those for 64-bit ARM in qemu-user. The script runs all of
# tests/library, all rows (crates/rows), and the tests of the refusals and sentences of docs/FORMATS.md. It also compares the screens
# of the player, and random command lines with bin/ribjasper. Libraries for macOS, iOS and Android are only inspected. Tests whose
# files or tools are missing are skipped. With the argument `measure` the script also measures a block and a picture, and compares
# them with the native library.
set -e
cd "$(dirname "$0")/../.."
top=$PWD
[ -x bin/ribjasper ] || { echo "compare_targets: skipped, there is no bin/ribjasper (make)"; exit 0; }
command -v rt >/dev/null || { echo "compare_targets: skipped, there is no rt"; exit 0; }
kit=$(dirname "$(readlink -f "$(command -v rt)")")/..
work=$(mktemp -d)
trap 'rm -rf "$work"' EXIT
strict="-O2 -Wall -Wextra -Werror -I$top/include"
# The wine prefix is cached, since wine needs half a minute to create it.
export WINEPREFIX="${WINEPREFIX:-${XDG_CACHE_HOME:-$HOME/.cache}/ribjasper/wine}" WINEDEBUG=-all DISPLAY= LC_ALL=C.UTF-8
mkdir -p "${WINEPREFIX%/*}"
number=$(sed 's/-dev$//' VERSION)
failed=0

complain() {
    echo "compare_targets: $*" >&2
    failed=1
}

mkdir "$work/input" "$work/expected" "$work/tools"
cd "$work/input"
cp "$top/examples/hello.cue" "$top/examples/hello.script" .
"$top/bin/ribjasper" author --lead-in 0 --length 00:22:00 -- hello.cue hello.script >stream
"$top/bin/ribjasper" author --lead-in 300 --length 00:22:00 -- hello.cue hello.script >whole
"$top/bin/ribjasper" scratch --lead-in 300 --seed 3 <whole >scratched
for disc in whole scratched; do
    "$top/bin/ribjasper" check --lead-in 300 <$disc >$disc.check
    "$top/bin/ribjasper" text --lead-in 300 <$disc >$disc.text
done
moments="2 77 150 301 449 535 777 1111 1350 1649"
for blocks in $moments; do
    time=$(printf '%02d:%02d:%02d' $((blocks / 4500)) $((blocks / 75 % 60)) $((blocks % 75)))
    "$top/bin/ribjasper" screen --lead-in 0 --at "$time" <stream >"$work/expected/$blocks.ppm"
done
cd "$top"

llvm() {
    tool=$1
    shift
    ln -sf "$kit/toolchain/bin/clang" "$work/tools/$tool"
    "$work/tools/$tool" "$@"
}

# same_screens PLAYER ..: whether the screens of the player equal those of the program.
same_screens() {
    rm -rf "$work/screens"
    mkdir "$work/screens"
    (cd "$work/screens" && "$@" $moments <"$work/input/stream") || return 1
    for blocks in $moments; do
        cmp "$work/expected/$blocks.ppm" "$work/screens/$blocks.ppm" || return 1
    done
}

# run_library NAME CC CXX RUNNER END: runs all of tests/library with the static library of a target. The library's calls of
# malloc, realloc and free are counted; those of the C library itself are not.
run_library() {
    name=$1 cc=$2 cxx=$3 run=$4 end=$5 folder=$work/$1
    mkdir "$folder"
    llvm llvm-objcopy --redefine-sym malloc=__wrap_malloc --redefine-sym realloc=__wrap_realloc \
        --redefine-sym free=__wrap_free "lib/$name/libribjasper.a" "$folder/counted.a"
    counted="-D__real_malloc=malloc -D__real_realloc=realloc -D__real_free=free"
    for test in test_library test_plan test_desk_calls test_pixels test_sheets test_given_back; do
        $cc $strict $counted -std=c99 tests/library/$test.c "$folder/counted.a" -static -o "$folder/$test$end"
    done
    for test in test_mend test_layout test_closed test_narrow; do
        $cc $strict -std=c99 tests/library/$test.c "lib/$name/libribjasper.a" -static -o "$folder/$test$end"
    done
    for test in test_library test_plan test_sheets; do
        $cxx $strict $counted -x c++ tests/library/$test.c -x none "$folder/counted.a" -static -o "$folder/${test}_of_cxx$end"
    done
    $cc $strict -std=c99 examples/player.c "lib/$name/libribjasper.a" -static -o "$folder/player$end"
    cd "$work/input"
    for test in test_library test_plan test_sheets test_mend test_closed test_narrow test_library_of_cxx test_plan_of_cxx \
        test_sheets_of_cxx; do
        $run "$folder/$test$end" >"$work/output" || { cat "$work/output" >&2; complain "$name: $test fails"; }
    done
    $run "$folder/test_pixels$end" stream >"$work/output" || complain "$name: test_pixels fails"
    $run "$folder/test_given_back$end" hello.cue hello.script whole >"$work/output" || complain "$name: test_given_back fails"
    for disc in whole scratched; do
        $run "$folder/test_desk_calls$end" $disc 300 $disc.check $disc.text >"$work/output" || complain "$name: test_desk_calls fails"
    done
    [ "$($run "$folder/test_layout$end" | tr -d '\r')" = "$number" ] || complain "$name: the library has another version"
    cd "$top"
    same_screens $run "$folder/player$end" || complain "$name: the screens of the static library differ"
    echo "compare_targets: $name: tests/library runs, as C and C++, and ten screens are equal"
}

# run_program NAME PROGRAM ROWS RUNNER: compares the program of a target with that of this machine.
run_program() {
    name=$1 program=$top/$2 rows=$top/$3 run=$4
    printf '#!/bin/sh\nexec %s "%s" "$@"\n' "$run" "$program" >"$work/program"
    chmod +x "$work/program"
    if [ -x "$rows" ]; then
        (cd crates/rows/data && $run "$rows" $(cat ../args)) >"$work/output" || true
        cmp "$work/output" crates/rows/stdout && echo "compare_targets: $name: all rows pass" || complain "$name: rows differ"
    else
        echo "compare_targets: the rows of $name are skipped, there is no $3 (CRATE=rows tools/build/build_target.sh program TARGET)"
    fi
    tests/program/try_refusals.py "$work/program" >"$work/output" 2>&1 || { cat "$work/output" >&2; complain "$name: refusals differ"; }
    tests/program/try_formats.py "$work/program" $5 >"$work/output" 2>&1 || { cat "$work/output" >&2; complain "$name: formats differ"; }
    tests/peers/compare_programs.py bin/ribjasper "$work/program" --calls "${CALLS:-150}" $5 >"$work/output" ||
        { cat "$work/output" >&2; complain "$name: the programs differ"; }
    echo "compare_targets: $name: $(tail -n 1 "$work/output")"
}

# The header with the compiler of each system: the layout of its structs, in C and C++.
freestanding="-ffreestanding -nostdlibinc -fsyntax-only -Wall -Wextra -Werror -Iinclude -DLAYOUT_ONLY"
if command -v clang >/dev/null; then
    for triple in x86_64-pc-windows-msvc x86_64-w64-windows-gnu aarch64-linux-gnu x86_64-apple-macos11 arm64-apple-macos11 \
        arm64-apple-ios13 aarch64-linux-android24; do
        clang --target=$triple $freestanding -std=c11 tests/library/test_layout.c &&
            clang --target=$triple $freestanding -std=c++17 -x c++ tests/library/test_layout.c ||
            complain "the header does not compile for $triple"
    done
    echo "compare_targets: the header compiles for seven systems, with the same layout of structs"
else
    echo "compare_targets: the header on other systems is skipped, there is no clang"
fi

windows=x86_64-pc-windows-gnu
if [ ! -f lib/$windows/ribjasper.dll ]; then
    echo "compare_targets: $windows is skipped, there is no lib/$windows (make library TARGET=$windows)"
elif ! command -v wine x86_64-w64-mingw32-gcc x86_64-w64-mingw32-g++ >/dev/null; then
    echo "compare_targets: $windows is skipped, there is no wine or no mingw"
else
    run_library $windows x86_64-w64-mingw32-gcc x86_64-w64-mingw32-g++ wine .exe
    # The DLL, with the import libraries of mingw and of MSVC, and the static library for MSVC. For large stack frames, MSVC calls
    # __chkstk; the function ___chkstk_ms of mingw has the same calling convention.
    for import in libribjasper.dll.a ribjasper.lib; do
        x86_64-w64-mingw32-gcc $strict -std=c99 examples/player.c lib/$windows/$import -o "$work/player.exe"
        cp lib/$windows/ribjasper.dll "$work"
        same_screens wine "$work/player.exe" || complain "$windows: the screens with $import differ"
    done
    x86_64-w64-mingw32-gcc $strict -std=c99 examples/player.c lib/$windows/ribjasper_static.lib \
        -Wl,--defsym,__chkstk=___chkstk_ms -o "$work/player.exe"
    same_screens wine "$work/player.exe" || complain "$windows: the screens of ribjasper_static.lib differ"
    needed=$(llvm llvm-objdump -p lib/$windows/ribjasper.dll | sed -n 's/ *DLL Name: //p' | tr 'A-Z' 'a-z' | sort | tr '\n' ' ')
    [ "$needed" = "kernel32.dll msvcrt.dll " ] || complain "ribjasper.dll needs $needed"
    echo "compare_targets: $windows: the screens of the DLL with both import libraries are equal"
    if [ -f bin/$windows/ribjasper.exe ]; then
        run_program $windows bin/$windows/ribjasper.exe bin/$windows/rows.exe wine --windows
    else
        echo "compare_targets: the program for $windows is skipped, there is no bin/$windows/ribjasper.exe"
    fi
fi

arm=aarch64-unknown-linux-gnu
qemu=$(command -v qemu-aarch64-static || command -v qemu-aarch64 || true)
if [ ! -f lib/$arm/libribjasper.so.0 ]; then
    echo "compare_targets: $arm is skipped, there is no lib/$arm (make library TARGET=$arm)"
elif [ -z "$qemu" ] || ! command -v aarch64-linux-gnu-gcc aarch64-linux-gnu-g++ >/dev/null; then
    echo "compare_targets: $arm is skipped, there is no qemu-aarch64 or no compiler for it"
else
    run_library $arm aarch64-linux-gnu-gcc aarch64-linux-gnu-g++ "$qemu" ""
    aarch64-linux-gnu-gcc $strict -std=c99 examples/player.c -Llib/$arm -lribjasper -o "$work/player"
    same_screens env QEMU_LD_PREFIX=/usr/aarch64-linux-gnu LD_LIBRARY_PATH="$top/lib/$arm" "$qemu" "$work/player" ||
        complain "$arm: the screens of the shared library differ"
    echo "compare_targets: $arm: the screens of the shared library are equal"
    if [ -f bin/$arm/ribjasper ]; then
        run_program $arm bin/$arm/ribjasper bin/$arm/rows "$qemu" ""
    else
        echo "compare_targets: the program for $arm is skipped, there is no bin/$arm/ribjasper"
    fi
fi

# These libraries cannot run here. Their file format and their names are checked.
calls=$(grep -oE '\bribjasper_[a-z0-9_]+\(' include/ribjasper.h | tr -d '(' | sort -u)
for name in x86_64-apple-darwin:mach-o aarch64-apple-darwin:mach-o aarch64-apple-ios:mach-o aarch64-linux-android:elf64; do
    library=lib/${name%:*}/libribjasper.a
    [ -f "$library" ] || { echo "compare_targets: ${name%:*} is skipped, there is no $library"; continue; }
    format=$(llvm llvm-objdump -f "$library" 2>/dev/null | sed -n 's/.*file format //p')
    case $format in
        ${name#*:}*) ;;
        *) complain "the file format of $library is $format" ;;
    esac
    [ "$(llvm llvm-nm -g --defined-only -j "$library" | sed 's/^_//' | grep '^ribjasper_' | sort)" = "$calls" ] ||
        complain "the names of $library are not those of the header"
    echo "compare_targets: ${name%:*}: $format with the calls of the header; it was built, but not run"
done

if [ "$1" = measure ]; then
    for name in . $windows $arm; do
        [ "$name" = . ] || [ -d "$work/$name" ] || continue
        case $name in
            .) cc $strict -std=c99 examples/player.c lib/libribjasper.a -o "$work/native" && set -- "$work/native" ;;
            $windows) set -- wine "$work/$windows/player.exe" ;;
            *) set -- "$qemu" "$work/$arm/player" ;;
        esac
        echo "$name: $("$@" -m <"$work/input/stream" | tr '\r\n' '  ')"
    done
fi
exit "$failed"
