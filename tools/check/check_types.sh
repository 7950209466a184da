#!/bin/sh
# Checks the types of all Python code of the repository with mypy in strict mode. Skipped if mypy is not installed.
cd "$(dirname "$0")/../.." || exit 1
command -v mypy >/dev/null || { echo "check_types: skipped, mypy is not installed"; exit 0; }
check() {
    MYPYPATH=$path mypy --config-file desk/pyproject.toml "$@"
}
files() { git ls-files --cached --others --exclude-standard "$@" | sort -u; }
# mypy must find modules in the folder of the importing module, as Python does.
path=desk:desk/tests:$(files 'tools/*.py' 'tests/*.py' 'examples/*.py' | xargs -n 1 dirname | sort -u | paste -sd :)
check $(files 'tools/*.py' 'tests/*.py' 'bench/*.py' 'examples/*.py')
tools=$?
check $(files 'desk/*.py')
[ "$tools$?" = 00 ]
