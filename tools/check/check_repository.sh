#!/bin/sh
# Checks everything that no proof covers: handles, documents, tools, tests and the desk.
cd "$(dirname "$0")/../.." || exit 1
failed=0

complain() {
    echo "check: $*" >&2
    failed=1
}

# try COMMAND ..: runs a check for at most LIMIT seconds and prints its time. Stores its messages about skipped tests, which
# are printed at the end.
LIMIT=1200
skipped=$(mktemp)
trap 'rm -f "$skipped" "$skipped.output"' EXIT
try() {
    began=$(date +%s)
    timeout -k 10 "$LIMIT" "$@" >"$skipped.output" 2>&1 </dev/null
    status=$?
    cat "$skipped.output"
    [ "$status" != 124 ] || echo "check: stopped after $LIMIT s: $*"
    echo "check: $(($(date +%s) - began)) s: $*"
    grep -i 'skipped' "$skipped.output" | grep -v ' 0 skipped' >>"$skipped"
    return "$status"
}

# No handle is allowed.
[ "$(cat HANDLES)" = "Handles allowed: none." ] || complain "HANDLES has changed"

# No document outside the repository is cited.
cited=$(git grep -nIE '\b(paper|request|demand|rung) [0-9]+|\bpapers?/[0-9]' -- . ':!tools/check/check_repository.sh')
[ -z "$cited" ] || complain "an external document is cited: $cited"

# crates.txt lists the crates that exist.
listed=$(sed -n 's/^\([a-z0-9_]*\):.*/\1/p; s/^\([a-z0-9_]*\) staticlib:.*/\1/p' crates.txt | sort)
present=$(ls crates | sort)
[ "$listed" = "$present" ] || complain "crates.txt and crates/ differ"

# DEFINITIONS.md is current, and ARCHITECTURE.md names each crate.
tools/write/list_definitions.py --check || complain "docs/DEFINITIONS.md is not current: run tools/write/list_definitions.py"
for crate in $present; do
    grep -qw "$crate" docs/ARCHITECTURE.md || complain "docs/ARCHITECTURE.md omits $crate"
done

# No name is defined twice, and no line is too long.
tools/check/check_names.py || complain "tools/check/check_names.py finds wrong names or lines"

# `make` proves the right crates, in the right order.
output=$(tools/build/test_proving.py 2>&1) || complain "tools/build/test_proving.py fails: $(echo "$output" | tail -n 6)"

# The script that wraps proof lines changes only white space.
output=$(tools/write/test_wrapping.py 2>&1) || complain "tools/write/test_wrapping.py fails: $(echo "$output" | tail -n 6)"

# The old text of each edit occurs exactly once in the file that it names.
tools/check/check_edits.py || complain "tools/check/check_edits.py finds wrong edits"

# The checker refuses the wrong bodies of slow crates, function by function, over the libraries of the gate.
LIMIT=3000
try tools/check/try_wrong_bodies.py --by-function || complain "a wrong body is not refused"
LIMIT=1200

# The tables of numbers in the code are correct.
try tests/peers/tables.py || complain "a table of numbers differs from the result of tests/peers/tables.py"

# The expected values of rows follow from their definitions.
try tests/peers/reckon_rows.py --check || complain "a row expects another value than tests/peers/reckon_rows.py computes"

# The manual page, the completions and README.md list the commands of FORMATS, and the commands in the guide work.
tools/write/commands.py --check || complain "share/ is not current: run tools/write/commands.py"
try tools/check/run_guide.sh || complain "a command in README, FORMATS or the guide fails"

# If the program is built: the tour works, and the examples and refusals of FORMATS are as documented.
for program in bin/ribjasper crates/ribjasper/out/ribjasper; do
    if [ -x "$program" ]; then
        folder=$(mktemp -d)
        output=$(examples/demo.py "$folder" 2>&1) || complain "the tour fails: $(echo "$output" | tail -n 3)"
        rm -rf "$folder"
        tests/program/try_refusals.py "$program" || complain "an example of docs/FORMATS.md is not refused as documented"
        output=$(tests/program/try_formats.py "$program" 2>&1) ||
            complain "the program differs from docs/FORMATS.md: $(echo "$output" | tail -n 6)"
        break
    fi
done

# If the library is built and a C compiler is installed: the library and its example agree with the program.
try tests/library/compare_player.sh || complain "the C library differs from the program"
try tests/library/test_linking.sh || complain "linking with the C library fails"

# If they are built: the libraries and programs for other systems and the plug-ins agree with the program.
try tests/library/compare_targets.sh || complain "a library or program for another system differs from the program"
try tests/library/compare_plugins.sh || complain "a plug-in shows other pictures than the program"

# The ABI is unchanged, examples show the same as the program, mending equals that of another implementation, no call needs
# more stack than documented, and no memory leaks.
try tools/check/check_abi.py || complain "the library differs from tools/check/abi.txt"
try tests/library/compare_examples.sh || complain "an example player shows other pictures than the program"
[ ! -e lib/libribjasper.so.0 ] || try tests/peers/compare_mending.py --cases 300 || complain "the mending of readings breaks its rule"
try tests/library/test_small_stack.sh || complain "a call needs more stack than documented"
try tools/check/check_stack.py || complain "the program may need too much stack"
tools/check/check_forgotten.sh || complain "code may leak memory"

# The program writes what it has read from a slow pipe before it waits for more.
try tests/program/test_live_stream.py || complain "a live stream is held back"

# If they are built and Node and Chromium are installed: the module and the page for browsers agree with the program.
try tests/peers/compare_web.sh || complain "the player for web pages differs from the program"
try tests/peers/compare_c.sh || complain "the player in plain C differs from the program"

# If the program and the library are built: the tests of the desk.
LIMIT=3000
try tools/check/test_desk.sh || complain "a test of the desk fails"

LIMIT=1200
# If possible, packages are made, installed and removed again.
if [ -x bin/ribjasper ] && command -v dpkg-deb >/dev/null; then
    try tools/build/make_deb.sh || complain "make deb fails"
    try tools/check/try_deb.sh || complain "the packages cannot be installed and removed"
else
    echo "try_deb: skipped, there is no bin/ribjasper (make) or no dpkg-deb" | tee -a "$skipped"
fi

# All Python functions have types, and no command needs more instructions than before.
try tools/check/check_types.sh || complain "the types of the Python code are wrong"
try tools/check/check_style.sh || complain "the style of the desk's Python is wrong"
try bench/instructions.py --check || complain "a command needs more instructions than bench/instructions.tsv states"

# At most 2 % more code runs than tools/check/way_of.tsv states.
try tools/check/way_of.py --check || complain "a command runs more code than tools/check/way_of.tsv states"

# Other programs agree, if they are installed.
for other in compare_ffmpeg compare_cdrskin; do
    try tests/peers/$other.sh || complain "tests/peers/$other.sh fails"
done
[ ! -x bin/ribjasper ] || try tests/peers/compare_trial.sh || complain "tests/peers/compare_trial.sh fails"

# Each file that a document links to exists.
for document in $(git ls-files '*.md'); do
    folder=$(dirname "$document")
    for link in $(grep -oE '\]\([^)#: ]+' "$document" | sed 's/^](//'); do
        [ -e "$folder/$link" ] || complain "$document links to the missing file $link"
    done
done

# Documents are short and easy to read.
tools/check/check_words.py || complain "a document has a long sentence or a phrase to avoid, or the documents have too many lines"

# Each target of make and each script that README.md names exists.
if [ -f README.md ]; then
    for target in $(grep -oE '`make [a-z]+`' README.md | tr -d '`' | cut -d' ' -f2); do
        grep -q "^$target:" Makefile || complain "README.md names the missing target $target"
    done
    for script in $(grep -oE '`(tools|tests|bench|examples)/[A-Za-z0-9_./]+' README.md | tr -d '`'); do
        [ -e "$script" ] || complain "README.md names the missing file $script"
    done
fi

# Scripts are executable.
for script in .ci/run $(git ls-files 'tools/*.sh' 'tests/*.sh' 'bench/*.py') tools/write/*.py tools/check/*.py \
    tests/peers/compare_*.py tests/program/*.py examples/demo.py desk/ribjasper-desk desk/manual_page.py; do
    [ -x "$script" ] || complain "$script is not executable"
done

if [ -s "$skipped" ]; then
    echo "check: $(wc -l <"$skipped") checks were skipped, in whole or in part:"
    sort -u "$skipped"
fi
[ "$failed" = 0 ] && echo "check: the repository is in order"
exit "$failed"
