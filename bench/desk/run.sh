#!/usr/bin/env bash
# One desk beside a job book of plain Rust at -O3 behind a Mutex, with its journal: calls a second by 1, 2 and 4 threads, a
# million calls in all, least time of several runs taken in turns; and the memory of a row of 1,048,576 events with none and
# with all but four of them made, of which one is kept for a shut. A round is four calls: submit, claim, finish, fetch. The
# program `desk` is proved and built in a copy of the crates. Words: the number of runs (5).
set -eu
here=$(cd -- "$(dirname -- "$0")" && pwd)
top=$(cd -- "$here/../.." && pwd)
runs=${1:-5}

for tool in git python3 rt rustc; do
    command -v "$tool" > /dev/null || { echo "bench/desk: the command $tool is missing" >&2; exit 1; }
done
work=$(mktemp -d)
trap 'rm -rf "$work"' EXIT

git -C "$top" archive HEAD crates crates.txt HANDLES | tar -x -C "$work"
mkdir -p "$work/crates/desk/src" "$work/crates/desk/proofs/measured"
cp "$here/desk.txt" "$work/crates/desk/src/main.rt"
cp "$here/Invariants.txt" "$work/crates/desk/proofs/measured/Invariants.antt"
echo 'desk: dd_book dd_bounds dd_cards dd_desk dd_play dd_request dd_solve dd_wire once_cell' >> "$work/crates.txt"
# With no word the program ends at once, with status 1.
(cd "$work/crates/desk" && rt run < /dev/null > "$work/desk.log" 2>&1) || true
if ! grep -q '^logic=proved' "$work/desk.log" || [ ! -x "$work/crates/desk/out/desk" ]; then
    tail -n 20 "$work/desk.log" >&2
    echo "bench/desk: the program desk is not proved, so it was not built" >&2
    exit 1
fi
rustc -C opt-level=3 -C target-cpu=x86-64-v2 --edition 2021 -o "$work/plain" "$here/desk.rs"

python3 - "$runs" "$work/crates/desk/out/desk" "$work/plain" <<'PY'
import subprocess
import sys

runs, desk, plain = int(sys.argv[1]), sys.argv[2], sys.argv[3]
# Rounds after which the journal has no room for another: four events are left, of which one is kept for a shut.
FULL = 262_143


# What the program wrote, and the most memory that it was seen to have, in bytes. (What the system counts for a child that
# has ended is no less than this program's own.)
def run(program, threads, rounds):
    child = subprocess.Popen([program, str(threads), str(rounds)], stdout=subprocess.PIPE, text=True)
    most = 0
    while rounds in (0, FULL) and child.poll() is None:
        with open(f"/proc/{child.pid}/status") as status:
            seen = [int(line.split()[1]) for line in status if line.startswith("VmHWM")]
        most = max([most] + seen)
    words = [int(word) for word in child.communicate()[0].split()]
    if child.returncode != 0 or len(words) != 3:
        sys.exit(f"bench/desk: {program} with {threads} threads ended with {child.returncode}")
    return words, most * 1024


print("threads     calls  desk s  plain s  desk M/s  plain M/s  rate  closing s")
for threads in (1, 2, 4):
    rounds = 250_000 // threads
    ours, theirs = [], []
    for _ in range(runs):
        ours.append(run(desk, threads, rounds)[0])
        theirs.append(run(plain, threads, rounds)[0])
    a, b = min(ours), min(theirs)
    mine, other = a[1] / a[0] * 1e3, b[1] / b[0] * 1e3
    closing = min(words[2] for words in ours) / 1e9
    print(f"{threads:7} {a[1]:>9}  {a[0] / 1e9:6.3f} {b[0] / 1e9:8.3f}  {mine:8.2f} {other:10.2f}  {mine / other:4.2f}  {closing:9.3f}", flush=True)
for rounds, what in ((0, "at the start"), (FULL, "full")):
    (words, bytes), (_, others) = run(desk, 1, rounds), run(plain, 1, rounds)
    print(f"memory {what}, {words[1]} events: desk {bytes / 1e6:.0f} MB, plain {others / 1e6:.0f} MB")
PY
