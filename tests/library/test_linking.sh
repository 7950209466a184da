#!/bin/sh
# Tests how programs link the library: the header in each standard of C and C++, the layout of its structs, and the exported
# names. A program must also find the installed library with pkg-config and with CMake, and link it dynamically and statically.
# Skipped if a compiler or the library is missing.
set -e
cd "$(dirname "$0")/../.."
top=$PWD
for tool in cc c++ nm readelf; do
    command -v $tool >/dev/null || { echo "test_linking: skipped, there is no $tool"; exit 0; }
done
[ -f lib/libribjasper.so.0 ] || { echo "test_linking: skipped, there is no lib/libribjasper.so.0 (make library)"; exit 0; }
work=$(mktemp -d)
trap 'rm -rf "$work"' EXIT
version=$(cat VERSION)
# The version of the library. Between two releases, VERSION also has the suffix -dev.
number=${version%-dev}
failed=0

complain() {
    echo "test_linking: $*" >&2
    failed=1
}

# The header compiles without warnings.
strict="-Wall -Wextra -Wpedantic -Werror -Wno-long-long -Iinclude"
for compiler in cc clang; do
    command -v $compiler >/dev/null || continue
    for standard in c89 c99 c11 c17 c2x; do
        for test in layout closed; do
            # In C89, clang calls the bool of <stdbool.h> an extension.
            $compiler -std=$standard $strict -Wno-c99-extensions -DSTRICT -c tests/library/test_$test.c -o "$work/$test.o" ||
                complain "$compiler -std=$standard of test_$test.c"
        done
    done
done
for compiler in c++ clang++; do
    command -v $compiler >/dev/null || continue
    for standard in c++98 c++11 c++14 c++17 c++20; do
        for test in layout closed; do
            $compiler -std=$standard $strict -x c++ -c tests/library/test_$test.c -o "$work/$test.o" ||
                complain "$compiler -std=$standard of test_$test.c"
        done
    done
done

# The library exports only its own names, so another library that was built with the same kit can be linked too.
exported=$(nm -g --defined-only lib/libribjasper.a | awk 'NF == 3 { print $3 }' | sort)
[ -z "$(echo "$exported" | grep -v '^ribjasper_')" ] || complain "libribjasper.a exports names of others"
shared_names=$(nm -D --defined-only lib/libribjasper.so.0 | awk '$2 == "T" { sub("@.*", "", $3); print $3 }' | sort)
[ "$shared_names" = "$exported" ] || complain "libribjasper.so.0 and libribjasper.a export different names"
declared=$(grep -oE '\bribjasper_[a-z_]+\(' include/ribjasper.h | tr -d '(' | sort -u)
[ "$declared" = "$exported" ] || complain "the header and the library differ: $(echo "$declared $exported" | tr ' ' '\n' |
    sort | uniq -u | tr '\n' ' ')"
readelf -d lib/libribjasper.so.0 | grep -q 'SONAME.*\[libribjasper.so.0\]' || complain "the soname of the library is wrong"

# The library can be linked with another one of the same kit, which has its own heap.
cc -c tests/library/other_heap.c -o "$work/heap.o"
cc $strict tests/library/test_layout.c "$work/heap.o" lib/libribjasper.a -o "$work/two_heaps"
[ "$("$work/two_heaps")" = "$number" ] || complain "the version of the static library is not that of VERSION"

# The library is installed as in a distribution, and found by pkg-config.
libraries=/usr/lib/$(cc -dumpmachine)
tools/build/install.sh "$work/root" /usr "$libraries" libribjasper0 libribjasper-dev
installed="$work/root$libraries"
grep -qx "Version: $version" "$installed/pkgconfig/ribjasper.pc" || complain "the version in ribjasper.pc is not that of VERSION"
grep -q "Ribjasper $version" "$work/root/usr/share/man/man3/ribjasper.3" || complain "the version in the manual page is not that of VERSION"
if command -v pkg-config >/dev/null; then
    flags=$(PKG_CONFIG_SYSROOT_DIR=$work/root PKG_CONFIG_PATH=$installed/pkgconfig PKG_CONFIG_ALLOW_SYSTEM_CFLAGS=1 \
        PKG_CONFIG_ALLOW_SYSTEM_LIBS=1 pkg-config --cflags --libs ribjasper)
else
    flags="-I$work/root/usr/include -L$installed -lribjasper"
fi
cc tests/library/test_layout.c $flags -o "$work/shared"
reported=$(LD_LIBRARY_PATH=$installed "$work/shared")
[ "$reported" = "$number" ] || complain "the version of the shared library is not that of VERSION"
readelf -d "$work/shared" | grep -q 'NEEDED.*\[libribjasper.so.0\]' || complain "a program needs the library under another name"

# The name of the installation folder has blanks and other odd characters; pkg-config, CMake and man find the files there.
odd="$work/a prefix & more"
tools/build/install.sh "" "$odd" "$odd/lib" libribjasper0 libribjasper-dev
if command -v pkg-config >/dev/null; then
    eval "cc tests/library/test_layout.c $(PKG_CONFIG_PATH=$odd/lib/pkgconfig pkg-config --cflags --libs ribjasper) -o \"$work/odd\"" &&
        [ "$(LD_LIBRARY_PATH=$odd/lib "$work/odd")" = "$number" ] || complain "ribjasper.pc fails if the name of its folder has blanks"
fi
if command -v cmake >/dev/null; then
    mkdir "$work/cmake"
    cp tests/library/test_layout.c "$work/cmake"
    cat >"$work/cmake/CMakeLists.txt" <<'END'
cmake_minimum_required(VERSION 3.10)
project(layout C)
find_package(ribjasper 1.1 REQUIRED CONFIG)
add_executable(shared test_layout.c)
target_link_libraries(shared ribjasper::ribjasper)
add_executable(static test_layout.c)
target_link_libraries(static ribjasper::static)
END
    if cmake -S "$work/cmake" -B "$work/cmake/built" -DCMAKE_PREFIX_PATH="$odd" >"$work/cmake/output" 2>&1 &&
        cmake --build "$work/cmake/built" >>"$work/cmake/output" 2>&1; then
        for program in shared static; do
            [ "$("$work/cmake/built/$program")" = "$number" ] || complain "a program that CMake built has another version"
        done
    else
        tail -n 5 "$work/cmake/output" >&2
        complain "CMake does not find the library"
    fi
    sed -i 's/ribjasper 1.1/ribjasper 2.0/' "$work/cmake/CMakeLists.txt"
    ! cmake -S "$work/cmake" -B "$work/cmake/other" -DCMAKE_PREFIX_PATH="$odd" >/dev/null 2>&1 ||
        complain "CMake accepts the library for version 2.0"
fi
for call in $exported; do
    grep -q "^\\.TH $(echo "$call" | tr a-z A-Z) " "$odd/share/man/man3/$call.3" || complain "there is no page for $call"
done

[ "$failed" = 0 ] && echo "test_linking: $(echo "$exported" | wc -l) calls are exported, and no other names"
exit "$failed"
