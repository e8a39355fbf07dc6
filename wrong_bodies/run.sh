#!/usr/bin/env bash
# Tries the wrong bodies that the gate leaves out: in a copy of the last commit they stand in their crates' must-fail/, and
# the prover has to refuse each. Words: crates (all that have a folder here). It takes long.
set -eu
here=$(cd -- "$(dirname -- "$0")" && pwd)
top=$(cd -- "$here/.." && pwd)
for tool in git rt; do
    command -v "$tool" > /dev/null || { echo "wrong_bodies: the command $tool is missing" >&2; exit 1; }
done
[ $# -gt 0 ] || set -- $(cd "$here" && ls -d -- dd*/ | tr -d /)

work=$(mktemp -d)
trap 'rm -rf "$work"' EXIT
git -C "$top" archive HEAD | tar -x -C "$work"
for name in "$@"; do
    if [ ! -d "$work/wrong_bodies/$name" ]; then
        echo "wrong_bodies: there is no folder $name in the last commit" >&2
        exit 1
    fi
    # These alone: the gate tries the others.
    rm -rf "$work/crates/$name/must-fail"
    cp -r "$work/wrong_bodies/$name" "$work/crates/$name/must-fail"
done
cd "$work"
rt must-fail "$@"
