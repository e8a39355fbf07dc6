#!/usr/bin/env bash
# The built program as a server with 4 workers, by clients in Rust (`clients/load.rs`).
#
# `rates`: requests a second for positions of one card and of six cards a hand, no deal twice, by 1, 8 and 64 connections, the
# greatest rate of several runs, each against a fresh program. A request is a submit and the fetches until its job is done, the
# first at once, then 0.1 ms apart and each time twice as long, up to 6.4 ms; then the same requests with a `wait`, each one line
# and its answer; then submits alone, of which some are refused where a client has 64 jobs open. `memory`: with 1 and with 1,000
# connections. `sizes`: memory by the events of a run, by workers and by entries. `deals`: full deals by 1 and 4 workers, which
# four clients submit and wait for, beside the line tool with as many on the same lines, in turns in one run, the least time of
# each: 40 deals whose replies are recorded, and 200 others. Where replies differ it ends with status 1. Words: the number of runs
# (3), the requests of one (10,000), and which of these parts to run (all).
set -eu
here=$(cd -- "$(dirname -- "$0")" && pwd)
top=$(cd -- "$here/../.." && pwd)
runs=${1:-3}
requests=${2:-10000}
parts=("${@:3}")
[ $# -gt 2 ] || parts=(rates memory sizes deals)

for tool in python3 rustc; do
    command -v "$tool" > /dev/null || { echo "bench/server: the command $tool is missing" >&2; exit 1; }
done
export DDSERVE=${DDSERVE:-$top/ddserve} PYTHONDONTWRITEBYTECODE=1
"$DDSERVE" serve --help > /dev/null
work=$(mktemp -d)
trap 'rm -rf "$work"' EXIT
rustc -O --edition 2021 -o "$work/load" "$here/clients/load.rs"
for cards in 1 6; do
    python3 "$top/bench/tools/deals.py" "$cards" "$requests" --seed $((1700 + cards)) --requests > "$work/$cards.jsonl"
done
python3 "$top/bench/tools/deals.py" 13 200 --seed 1016 --requests > "$work/deals.jsonl"
python3 "$here/measure.py" "$runs" "$requests" "$work" "${parts[@]}"
