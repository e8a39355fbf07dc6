#!/usr/bin/env bash
# Tests the package: pytest over the program that DDSERVE names (or the built one of this repository), mypy --strict, and the examples
# of its README. How a page of hand records is printed is tested by print.sh. Ends with 77 where a tool is missing, and says which.
# PYTHON names another interpreter.
set -eu
here=$(cd -- "$(dirname -- "$0")" && pwd)
missing() {
    echo "python/test.sh: $1 is missing" >&2
    exit 77
}
program=${DDSERVE:-$here/../crates/ddserve/out/ddserve}
[ -x "$program" ] || missing "the program $program"
DDSERVE=$(readlink -f -- "$program")
export DDSERVE PYTHONPATH=$here PYTHONDONTWRITEBYTECODE=1
python=${PYTHON:-}
if [ -z "$python" ]; then
    # Of two Pythons the one that has pytest.
    for python in python3 /usr/bin/python3; do
        command -v "$python" > /dev/null && "$python" -c 'import pytest' 2> /dev/null && break
    done
fi
command -v "$python" > /dev/null || missing 'the command python3'
"$python" -c 'import pytest' 2> /dev/null || missing 'pytest (package python3-pytest)'
if "$python" -c 'import mypy' 2> /dev/null; then
    mypy=("$python" -m mypy)
elif command -v mypy > /dev/null; then
    mypy=(mypy)
else
    missing 'mypy (package mypy)'
fi
# What the test of the wheel builds with.
for name in pip setuptools wheel; do
    "$python" -c "import $name" 2> /dev/null || missing "$name (package python3-$name)"
done
cd "$here"
"${mypy[@]}" --strict --cache-dir=/dev/null ddserve tests
"$python" -m pytest -q "$@"
"$python" -m doctest README.md
echo 'python: the package agrees with DDS, its types are whole, and its examples are true'
