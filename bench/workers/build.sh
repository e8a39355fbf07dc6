#!/usr/bin/env bash
# Proves and builds the program `workers` in a copy of the crates. Words: an empty directory, where the copy and then the
# program `workers` will stand.
set -eu
here=$(cd -- "$(dirname -- "$0")" && pwd)
top=$(cd -- "$here/../.." && pwd)
work=$1

for tool in git rt; do
    command -v "$tool" > /dev/null || { echo "bench/workers: the command $tool is missing" >&2; exit 1; }
done
git -C "$top" archive HEAD crates crates.txt HANDLES | tar -x -C "$work"
mkdir -p "$work/crates/workers/src" "$work/crates/workers/proofs/worked"
cp "$here/workers.txt" "$work/crates/workers/src/main.rt"
cp "$here/journal.txt" "$work/crates/workers/src/journal.rt"
cp "$here/Invariants.txt" "$work/crates/workers/proofs/worked/Invariants.antt"
echo 'workers: dd_book dd_bounds dd_cache dd_desk dd_pbn dd_request dd_table dd_wire dd_work once_cell' >> "$work/crates.txt"
# With no word the program ends at once, with status 1.
(cd "$work/crates/workers" && rt run < /dev/null > "$work/workers.log" 2>&1) || true
if ! grep -q '^logic=proved' "$work/workers.log" || [ ! -x "$work/crates/workers/out/workers" ]; then
    tail -n 20 "$work/workers.log" >&2
    echo "bench/workers: the program workers is not proved, so it was not built" >&2
    exit 1
fi
cp "$work/crates/workers/out/workers" "$work/workers"
