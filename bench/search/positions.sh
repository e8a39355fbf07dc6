#!/usr/bin/env bash
# How many positions the search visits, beside those on record (`bench/data/positions.tsv`): 100 full deals from a fixed seed, 20 of
# each strain, the scores of all leads, by the search in plain Rust (`bench/peer`, which follows `dd_search` move for move)
# over a table of 16,384 shapes with up to 64 bounds each, nearly what the program's cache keeps, that is empty at each deal.
# Prints by strain and for all deals the geometric mean and the mean of both, and their ratios. With `--record` it writes
# the record anew.
set -eu
here=$(cd -- "$(dirname -- "$0")" && pwd)
for tool in python3 rustc; do
    command -v "$tool" > /dev/null || { echo "bench/search: the command $tool is missing" >&2; exit 1; }
done
work=$(mktemp -d)
trap 'rm -rf "$work"' EXIT
rustc --cfg pages --check-cfg "cfg(pages)" -C opt-level=3 -C target-cpu=x86-64-v2 --edition 2021 -o "$work/search" "$here/../peer/search.rs"
python3 "$here/../tools/deals.py" 13 100 --seed 1013 > "$work/deals"
"$work/search" 16384 < "$work/deals" > "$work/found"
python3 - "$work" "$here/../data/positions.tsv" "${1:-}" <<'PY'
import math
import sys

work, record, word = sys.argv[1:]
with open(f"{work}/deals") as deals, open(f"{work}/found") as found:
    rows = [(number + 1, "SHDCN"[int(deal[0])], int(line.split()[0])) for number, (deal, line) in enumerate(zip(deals, found))]
if word == "--record":
    with open(record, "w") as file:
        file.write("deal\tstrain\tpositions\n")
        file.writelines(f"{number}\t{strain}\t{positions}\n" for number, strain, positions in rows)
with open(record) as file:
    before = [int(line.split("\t")[2]) for line in file.readlines()[1:]]


def means(numbers):
    return math.exp(sum(map(math.log, numbers)) / len(numbers)), sum(numbers) / len(numbers)


print("strain     geometric mean           on record  ratio          mean           on record  ratio")
for strain in "SHDCN*":
    chosen = [(old, row[2]) for old, row in zip(before, rows) if strain in (row[1], "*")]
    (a, b), (c, d) = means([new for _, new in chosen]), means([old for old, _ in chosen])
    print(f"{'all' if strain == '*' else strain:6}  {a:17,.0f}  {c:18,.0f}  {a / c:5.2f}  {b:12,.0f}  {d:18,.0f}  {b / d:5.2f}")
PY
