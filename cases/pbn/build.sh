#!/usr/bin/env bash
# Proves and builds the program `cuts` in a copy of the crates. Words: an empty directory, where the copy and then the program
# `cuts` will stand.
set -eu
here=$(cd -- "$(dirname -- "$0")" && pwd)
top=$(cd -- "$here/../.." && pwd)
work=$1

for tool in git rt; do
    command -v "$tool" > /dev/null || { echo "cases: the command $tool is missing" >&2; exit 1; }
done
git -C "$top" archive HEAD crates crates.txt HANDLES | tar -x -C "$work"
mkdir -p "$work/crates/cuts/src"
cp "$here/cuts.txt" "$work/crates/cuts/src/main.rt"
echo 'cuts: dd_cards dd_file dd_lines dd_score itoa' >> "$work/crates.txt"
(cd "$work/crates/cuts" && rt run < /dev/null > "$work/cuts.log" 2>&1) || true
if ! grep -q '^logic=proved' "$work/cuts.log" || [ ! -x "$work/crates/cuts/out/cuts" ]; then
    tail -n 20 "$work/cuts.log" >&2
    echo "cases: the program cuts is not proved, so it was not built" >&2
    exit 1
fi
cp "$work/crates/cuts/out/cuts" "$work/cuts"
