#!/usr/bin/env bash
# Does the built program keep to its budget? For each of the 40 recorded opening leads of full deals, each alone, the least budget with
# which it is answered is found by halving. With it the reply is the recorded one of DDS, and with one position fewer the line is spent.
# The search in plain Rust counts the same positions over nearly the same table: a line may need a quarter more than it visits, and all
# lines a tenth more or fewer by geometric mean. Takes two minutes.
set -eu
here=$(cd -- "$(dirname -- "$0")" && pwd)
for tool in python3 rustc; do
    command -v "$tool" > /dev/null || { echo "cases: the command $tool is missing" >&2; exit 1; }
done
work=$(mktemp -d)
trap 'rm -rf "$work"' EXIT
"${DDSERVE:-$here/../ddserve}" serve --help > /dev/null
rustc --cfg pages --check-cfg "cfg(pages)" -C opt-level=3 --edition 2021 -o "$work/peer" "$here/../bench/peer/search.rs"
python3 - "${DDSERVE:-$here/../crates/ddserve/out/ddserve}" "$work/peer" "$here/data" <<'PY'
import json
import math
import subprocess
import sys

program, peer, data = sys.argv[1:]
SPENT = '{"state":"spent"}'
with open(f"{data}/full.jsonl") as lines, open(f"{data}/full.expected") as answers:
    rows = list(zip(lines.read().splitlines(), answers.read().splitlines()))


def reply(line, budget):
    return subprocess.run([program, "solve", "--budget", str(budget)], input=line, capture_output=True, text=True, check=True).stdout.strip()


def peers_positions(line):
    fields = json.loads(line)
    text = f"{fields['trump']} {fields['first']} {fields['deal']}\n"
    found = subprocess.run([peer, "16384"], input=text, capture_output=True, text=True, check=True)
    return int(found.stdout.split()[0])


most, ratios = 0, []
for number, (line, answer) in enumerate(rows, 1):
    theirs = peers_positions(line)
    few, enough = 0, 1
    while reply(line, enough) == SPENT:
        few, enough = enough, 2 * enough
        if enough > 1_000_000_000:
            sys.exit(f"cases: line {number} is spent with each budget")
    while enough - few > 1:
        middle = (few + enough) // 2
        few, enough = (middle, enough) if reply(line, middle) == SPENT else (few, middle)
    if reply(line, enough) != answer or reply(line, enough - 1) != SPENT:
        sys.exit(f"cases: line {number} with {enough} positions and with one fewer")
    if enough > 1.25 * theirs:
        sys.exit(f"cases: line {number} needs {enough} positions, and the search in plain Rust visits {theirs}")
    most = max(most, enough)
    ratios.append(enough / theirs)
mean = math.exp(sum(map(math.log, ratios)) / len(ratios))
if not 0.9 <= mean <= 1.1:
    sys.exit(f"cases: the lines need {mean:.2f} times the positions that the search in plain Rust visits")
print(f"budgets: {len(rows)} lines are answered with the positions that they need, up to {most:,}, and spent with one fewer; {mean:.2f} times those of the search in plain Rust by geometric mean, {min(ratios):.2f} to {max(ratios):.2f} times a line")
PY
