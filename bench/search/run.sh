#!/usr/bin/env bash
# The search beside the same search in plain Rust at -O3, which visits the same positions: positions a second, the least
# time of several runs taken in turns. (a) Over no table, deals of 10 cards a hand. (b) Over a shard of 65,536 shapes, empty
# for each deal and without the program's cache before it: the scores of all leads of full deals. (c) Over no table, deals of
# 9 cards a hand, by the Rust peer alone: the positions visited beside those with the cards in the order in which they are
# listed. Deals are from fixed seeds. It takes some minutes: the programs `ticks` (over no table) and `table`, a few lines
# each, are proved and built in a copy of the crates. Words: the number of runs (5), of full deals (20), the parts (abc).
set -eu
here=$(cd -- "$(dirname -- "$0")" && pwd)
top=$(cd -- "$here/../.." && pwd)
runs=${1:-5}
full=${2:-20}
parts=${3:-abc}

for tool in git python3 rt rustc; do
    command -v "$tool" > /dev/null || { echo "bench/search: the command $tool is missing" >&2; exit 1; }
done
work=$(mktemp -d)
trap 'rm -rf "$work"' EXIT

# copy FOLDER: the crates as they are in the last commit
copy() {
    mkdir "$1"
    git -C "$top" archive HEAD crates crates.txt HANDLES | tar -x -C "$1"
}

# build FOLDER NAME CRATES: the program over the crates as they are in the folder
build() {
    mkdir -p "$1/crates/$2/src"
    cp "$here/$2.txt" "$1/crates/$2/src/main.rt"
    echo "$2: $3" >> "$1/crates.txt"
    # With no word the program ends at once, with status 1.
    (cd "$1/crates/$2" && rt run < /dev/null > "$1/$2.log" 2>&1) || true
    if ! grep -q '^logic=proved' "$1/$2.log" || [ ! -x "$1/crates/$2/out/$2" ]; then
        tail -n 20 "$1/$2.log" >&2
        echo "bench/search: the program $2 is not proved, so it was not built" >&2
        exit 1
    fi
}

below='dd_cards dd_play dd_pbn'
copy "$work/weighed"
case $parts in *a*) build "$work/weighed" ticks "$below dd_bounds dd_equal dd_search" ;; esac
case $parts in *b*) build "$work/weighed" table "$below dd_bounds dd_request dd_solve dd_table dd_wire" ;; esac
rustc -C opt-level=3 -C target-cpu=x86-64-v2 --edition 2021 -o "$work/search" "$top/bench/peer/search.rs"

python3 - "$runs" "$full" "$parts" "$work" "$top/bench/tools/deals.py" <<'PY'
import math
import subprocess
import sys
import time

runs, full, parts, work, deals = int(sys.argv[1]), int(sys.argv[2]), *sys.argv[3:]
names = ["spades", "hearts", "diamonds", "clubs", "notrump"]


def lines(cards, number, *words):
    done = subprocess.run(["python3", deals, str(cards), str(number), *words], capture_output=True, text=True, check=True)
    return done.stdout.splitlines()


def timed(command, given=None):
    start = time.perf_counter()
    done = subprocess.run(command, input=given, capture_output=True, text=True, check=True)
    return [int(word) for word in done.stdout.split()], time.perf_counter() - start


def proved(order, program, line):
    (ticks, scores), seconds = timed([f"{work}/{order}/crates/{program}/out/{program}", *line.split(" ", 2)])
    return (ticks, scores), seconds


# The program's words are the scores as the digits of a number: of the classes in their order, or the greatest first.
def peer(line, *words, greatest_first=False):
    (ticks, *scores), seconds = timed([f"{work}/search", *words], line + "\n")
    number = 0
    for score in sorted(scores, reverse=True) if greatest_first else scores:
        number = (14 * number + score) % 2**64
    return (ticks, number), seconds


def mean(ratios):
    return math.exp(sum(map(math.log, ratios)) / len(ratios))


def rates(rows, program, *words, greatest_first=False):
    print("strain    positions   dd_search s  rust -O3 s  dd_search M/s  rust M/s  rate")
    for strain in sorted({int(line.split()[0]) for line in rows}, reverse=True):
        count, ours, theirs = 0, 0.0, 0.0
        for line in rows:
            if int(line.split()[0]) != strain:
                continue
            mine = [math.inf, math.inf]
            for _ in range(runs):
                (a, s), (b, t) = proved("weighed", program, line), peer(line, *words, greatest_first=greatest_first)
                if a != b:
                    sys.exit(f"bench/search: positions and scores differ: {a} and {b} for {line}")
                mine = [min(mine[0], s), min(mine[1], t)]
            count, ours, theirs = count + a[0], ours + mine[0], theirs + mine[1]
        print(f"{names[strain]:8} {count:>10}  {ours:11.3f} {theirs:11.3f}  {count / ours / 1e6:12.1f} {count / theirs / 1e6:9.1f}  {theirs / ours:5.2f}", flush=True)


if "a" in parts:
    print("(a) no table, 10 cards a hand: 10 deals of each strain, the time of all of them, least of", runs)
    rates(lines(10, 10, "--strain", "4") + lines(10, 10, "--strain", "0"), "ticks", "singly")
if "b" in parts:
    print(f"(b) a shard of 65,536 shapes, {full} full deals, each strain in turn, the time of all of a strain, least of", runs)
    rates(lines(13, full, "--seed", "1013"), "table", "65536", greatest_first=True)
if "c" in parts:
    print("(c) no table, 9 cards a hand, positions visited: 20 deals of each strain")
    print("strain    in the order listed  by the order of moves  geometric mean of the ratios")
    for strain in (4, 0):
        pairs = [(peer(line, "singly", "legal")[0][0], peer(line, "singly")[0][0]) for line in lines(9, 20, "--strain", str(strain))]
        print(f"{names[strain]:8} {sum(a for a, _ in pairs):>20} {sum(b for _, b in pairs):>22}  {mean([b / a for a, b in pairs]):.3f} (one {mean([a / b for a, b in pairs]):.1f}th)")
PY
