#!/bin/sh
# Tests lib/libribjasper.a from programs in C. Builds examples/player.c with it, as C and as C++, and compares its screens with
# those of the command `screen`, byte for byte, at ten blocks of the stream of the tour: fed as blocks and drawn as packs. The
# screens of a stream with twenty lost blocks must differ. Runs tests/library/test_library.c, test_mend.c, test_plan.c,
# test_desk_calls.c, test_pixels.c, test_seeking.c, test_parity.c and test_sheets.c. If the address sanitizer is available, each of
# these also runs with it. tests/library/test_closed.c tests closed players, tests/library/test_given_back.c counts what the calls
# allocate and free, and tests/library/test_threads.sh reads one player in eight threads. Skipped if a compiler or something that
# make builds is missing. With the argument `measure` it also prints how many blocks per second the player processes, the time of
# a block and of a pack (with a call for each, and with a call for all), and the time of a picture compared with plain C.
set -e
cd "$(dirname "$0")/../.."
top=$PWD
for compiler in cc c++; do
    command -v $compiler >/dev/null || { echo "compare_player: skipped, there is no $compiler"; exit 0; }
done
[ -f lib/libribjasper.a ] || { echo "compare_player: skipped, there is no lib/libribjasper.a (make library)"; exit 0; }
[ -x bin/ribjasper ] || { echo "compare_player: skipped, there is no bin/ribjasper (make)"; exit 0; }
work=$(mktemp -d)
trap 'rm -rf "$work"' EXIT
flags="-O2 -Wall -Wextra -Werror -I$top/include"
wrap="-Wl,--wrap=malloc,--wrap=realloc,--wrap=free"
cc $flags -std=c99 examples/player.c lib/libribjasper.a -o "$work/player"
c++ $flags -x c++ examples/player.c -x none lib/libribjasper.a -o "$work/player_of_cxx"
cc $flags -std=c99 tests/library/test_library.c lib/libribjasper.a $wrap -o "$work/test_library"
c++ $flags -x c++ tests/library/test_library.c -x none lib/libribjasper.a $wrap -o "$work/test_library_of_cxx"
"$work/test_library"
"$work/test_library_of_cxx" >/dev/null
cc $flags -std=c99 tests/library/test_mend.c lib/libribjasper.a -o "$work/test_mend"
c++ $flags -x c++ tests/library/test_mend.c -x none lib/libribjasper.a -o "$work/test_mend_of_cxx"
for name in test_plan test_desk_calls test_pixels test_seeking test_parity test_sheets; do
    cc $flags -std=c99 tests/library/$name.c lib/libribjasper.a $wrap -o "$work/$name"
    c++ $flags -x c++ tests/library/$name.c -x none lib/libribjasper.a $wrap -o "$work/${name}_of_cxx"
done
for name in test_mend test_plan test_desk_calls test_pixels test_seeking test_parity test_sheets; do
    "$work/$name"
    "$work/${name}_of_cxx" >/dev/null
done
cc $flags -std=c99 tests/library/test_closed.c lib/libribjasper.a -o "$work/test_closed"
c++ $flags -x c++ tests/library/test_closed.c -x none lib/libribjasper.a -o "$work/test_closed_of_cxx"
"$work/test_closed"
"$work/test_closed_of_cxx"
tests/library/test_threads.sh
tests/peers/compare_mending.py --cases 1000 >"$work/mending" || { cat "$work/mending" >&2; exit 1; }
cp examples/hello.cue examples/hello.script "$work"
cd "$work"
"$top/bin/ribjasper" author --lead-in 0 --length 00:22:00 -- hello.cue hello.script >stream
"$top/bin/ribjasper" convert --lead-in 0 <stream >file.cdg
"$top/bin/ribjasper" author --lead-in 300 --length 00:22:00 -- hello.cue hello.script >whole
"$top/bin/ribjasper" scratch --lead-in 300 --seed 3 <whole >scratched
for disc in whole scratched; do
    "$top/bin/ribjasper" check --lead-in 300 <$disc >$disc.check
    "$top/bin/ribjasper" text --lead-in 300 <$disc >$disc.text
    ./test_desk_calls $disc 300 $disc.check $disc.text
done
./test_pixels stream >/dev/null
cc $flags -std=c99 "$top/tests/library/test_given_back.c" "$top/lib/libribjasper.a" $wrap -o test_given_back
./test_given_back hello.cue hello.script whole
moments="2 77 150 301 449 535 777 1111 1350 1649"
packs=
for blocks in $moments; do
    packs="$packs $((4 * blocks - 7))"
done
mkdir cxx drawn
./player $moments <stream
(cd cxx && ../player_of_cxx $moments <../stream)
(cd drawn && ../player -p $packs <../file.cdg)
failed=0
for blocks in $moments; do
    time=$(printf '%02d:%02d:%02d' $((blocks / 4500)) $((blocks / 75 % 60)) $((blocks % 75)))
    "$top/bin/ribjasper" screen --lead-in 0 --at "$time" <stream >expected.ppm
    if cmp expected.ppm "$blocks.ppm" && cmp expected.ppm "cxx/$blocks.ppm" &&
        cmp expected.ppm "drawn/$((4 * blocks - 7)).ppm"; then
        echo "compare_player: the screens at $time are equal"
    else
        echo "compare_player: the screens at $time differ"
        failed=1
    fi
done
# Programs that were compiled with the header of 1.1.0 must run with this library.
older="-O2 -Wall -Wextra -Werror -std=c99 -I$top/tests/library/older"
cc $older "$top/examples/player.c" -L"$top/lib" -lribjasper -o player_of_older
cc $older "$top/tests/library/test_library.c" "$top/lib/libribjasper.a" $wrap -o test_library_of_older
cc $older "$top/tests/library/test_plan.c" "$top/lib/libribjasper.a" $wrap -o test_plan_of_older
mkdir older
if (cd older && LD_LIBRARY_PATH=$top/lib ../player_of_older $moments <../stream) && ./test_library_of_older >/dev/null &&
    ./test_plan_of_older >/dev/null && (for blocks in $moments; do cmp $blocks.ppm older/$blocks.ppm || exit 1; done); then
    echo "compare_player: programs that were compiled for 1.1.0 run, and their screens are equal"
else
    echo "compare_player: programs that were compiled for 1.1.0 fail or show other screens" >&2
    failed=1
fi
mkdir broken
{ head -c $((96 * 300)) stream; tail -c +$((96 * 320 + 1)) stream; } >shorter
(cd broken && ../player 449 777 <../shorter)
for blocks in 449 777; do
    if cmp -s $blocks.ppm broken/$blocks.ppm; then
        echo "compare_player: the loss of blocks is not detected at block $blocks" >&2
        failed=1
    fi
done
sanitize="-g -fsanitize=address -fno-omit-frame-pointer"
echo 'int main(void) { return 0; }' >empty.c
if cc $sanitize empty.c -o empty 2>/dev/null && ./empty 2>/dev/null; then
    cc $flags $sanitize -std=c99 "$top/examples/player.c" "$top/lib/libribjasper.a" -o player_sanitized
    cc $flags $sanitize -std=c99 "$top/tests/library/test_library.c" "$top/lib/libribjasper.a" $wrap -o test_sanitized
    cc $flags $sanitize -std=c99 "$top/tests/library/test_mend.c" "$top/lib/libribjasper.a" -o test_mend_sanitized
    cc $flags $sanitize -std=c99 "$top/tests/library/test_plan.c" "$top/lib/libribjasper.a" $wrap -o test_plan_sanitized
    cc $flags $sanitize -std=c99 "$top/tests/library/test_desk_calls.c" "$top/lib/libribjasper.a" $wrap -o test_desk_sanitized
    ./test_desk_sanitized scratched 300 scratched.check scratched.text >/dev/null
    for name in test_pixels test_seeking test_parity test_sheets; do
        cc $flags $sanitize -std=c99 "$top/tests/library/$name.c" "$top/lib/libribjasper.a" $wrap -o ${name}_sanitized
        ./${name}_sanitized stream >/dev/null
    done
    mkdir sanitized
    (cd sanitized && ../player_sanitized $moments <../stream && ../test_sanitized >/dev/null && ../test_mend_sanitized >/dev/null &&
        ../test_plan_sanitized >/dev/null)
    echo "compare_player: the address sanitizer finds no error"
else
    echo "compare_player: the address sanitizer is skipped, it is not installed"
fi
if [ "$1" = measure ]; then
    ./player -m <stream
    cc $flags "$top/tests/library/measure_feeding.c" "$top/lib/libribjasper.a" -o measure_feeding
    head -c 960000 /dev/zero >idle.raw
    head -c 960000 /dev/urandom >random.raw
    ./measure_feeding idle.raw idle.raw
    ./measure_feeding stream file.cdg
    ./measure_feeding random.raw file.cdg
    command -v gcc >/dev/null && command -v clang >/dev/null ||
        { echo "compare_player: pixels are not measured, there is no gcc or no clang"; exit "$failed"; }
    for compiler in gcc clang; do
        $compiler -O3 -Wall -Wextra -Werror -I"$top/include" -DPLAIN=plain_by_$compiler -c "$top/tests/library/plain_pixels.c" \
            -o by_$compiler.o
    done
    cc $flags "$top/tests/library/measure_pixels.c" by_gcc.o by_clang.o "$top/lib/libribjasper.a" -o measure_pixels
    ./measure_pixels
fi
exit "$failed"
