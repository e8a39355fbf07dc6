#!/usr/bin/env bash
# One job book, without a desk, beside a job book of plain Rust at -O3 without its lock and journal (`bench/desk/desk.rs`): calls a
# second at a book that holds 1,000, 100,000 and 1,000,000 jobs, and the bytes that a job takes. A round is four calls: submit,
# claim, finish, fetch; 1,000 rounds are timed at 1,000 jobs and 40,000 at the others, the least time of several runs taken in
# turns. It fails where a job takes more than 1,024 bytes. The program `book` is proved and built in a copy of the crates. Words: the
# number of runs (5).
set -eu
here=$(cd -- "$(dirname -- "$0")" && pwd)
top=$(cd -- "$here/../.." && pwd)
runs=${1:-5}

for tool in git python3 rt rustc; do
    command -v "$tool" > /dev/null || { echo "bench/book: the command $tool is missing" >&2; exit 1; }
done
work=$(mktemp -d)
trap 'rm -rf "$work"' EXIT

git -C "$top" archive HEAD crates crates.txt HANDLES | tar -x -C "$work"
mkdir -p "$work/crates/book/src"
cp "$here/book.txt" "$work/crates/book/src/main.rt"
echo 'book: dd_book dd_bounds dd_cards dd_play dd_request dd_solve' >> "$work/crates.txt"
# With no word the program ends at once, with status 1.
(cd "$work/crates/book" && rt run < /dev/null > "$work/book.log" 2>&1) || true
if ! grep -q '^logic=proved' "$work/book.log" || [ ! -x "$work/crates/book/out/book" ]; then
    tail -n 20 "$work/book.log" >&2
    echo "bench/book: the program book is not proved, so it was not built" >&2
    exit 1
fi
rustc -C opt-level=3 -C target-cpu=x86-64-v2 --edition 2021 -o "$work/plain" "$here/../desk/desk.rs"

python3 - "$runs" "$work/crates/book/out/book" "$work/plain" <<'PY'
import os
import subprocess
import sys

runs, book, plain = int(sys.argv[1]), sys.argv[2], sys.argv[3]


# What the program wrote, and the most memory that it had, in bytes.
def run(*words):
    child = subprocess.Popen([str(word) for word in words], stdout=subprocess.PIPE, text=True)
    output = child.stdout.read()
    _, status, usage = os.wait4(child.pid, 0)
    numbers = [int(word) for word in output.split()]
    if status != 0 or len(numbers) != 3:
        sys.exit(f"bench/book: {words} ended with {status}")
    return numbers, usage.ru_maxrss * 1024


too_large = False
print("     jobs   calls  book M/s  plain M/s  rate  bytes a job  plain")
for jobs, rounds in ((1_000, 1_000), (100_000, 40_000), (1_000_000, 40_000)):
    ours, theirs = [], []
    for _ in range(runs):
        ours.append(run(book, jobs, rounds))
        theirs.append(run(plain, 0, rounds, jobs))
    if any(numbers[2] != rounds for numbers, _ in ours):
        sys.exit("bench/book: a job was not done")
    mine, other = (4 * rounds / min(numbers[0] for numbers, _ in all) * 1e3 for all in (ours, theirs))
    # What it has beyond a book of no jobs.
    bytes, others = ((all[0][1] - run(*empty)[1]) / (jobs + rounds) for all, empty in ((ours, (book, 0, 0)), (theirs, (plain, 0, 0, 0))))
    too_large = too_large or bytes > 1024
    print(f"{jobs:9} {4 * rounds:>7}  {mine:8.2f} {other:10.2f}  {mine / other:4.2f}  {bytes:11.0f}  {others:5.0f}", flush=True)
if too_large:
    sys.exit("bench/book: a job takes more than 1,024 bytes")
PY
