#!/usr/bin/env bash
# Deals the cards below noted depths anew and solves again (`tools/redeal.rs`). (a) Of the peer, the search in plain Rust
# (`bench/peer`, which follows `dd_search` move for move): entries that it notes on small deals, against exhaustive play. (b) Of
# the program: full deals and the same with the cards below the depths of their value dealt anew, to which it must give one best
# score. Says how many were tried; ends with status 1 at a difference. Words: the number of entries (20000), and of full
# deals (500).
set -eu
here=$(cd -- "$(dirname -- "$0")" && pwd)
entries=${1:-20000}
deals=${2:-500}
command -v rustc > /dev/null || { echo 'cases: the command rustc is missing' >&2; exit 1; }
work=$(mktemp -d)
trap 'rm -rf "$work"' EXIT
rustc -C opt-level=3 --edition 2021 -o "$work/redeal" "$here/tools/redeal.rs"

"$work/redeal" small "$entries"

"$work/redeal" full "$deals" > "$work/pairs.jsonl"
# The deals in one run, those dealt anew in another: else what the one left in the table could answer the other.
sed -n 'p;n' "$work/pairs.jsonl" | "${DDSERVE:-$here/../ddserve}" solve --entries 65536 > "$work/first"
sed -n 'n;p' "$work/pairs.jsonl" | "${DDSERVE:-$here/../ddserve}" solve --entries 65536 > "$work/anew"
# Each reply is the one card of a best score that was asked for.
paste -d '\n' "$work/first" "$work/anew" | sed -n 's/.*"score":\([0-9]*\),.*/\1/p' > "$work/scores"
if [ "$(wc -l < "$work/scores")" -ne $((2 * deals)) ]; then
    echo "cases: $(wc -l < "$work/scores") scores for $((2 * deals)) full deals" >&2
    exit 1
fi
# A row of each deal: both scores and both requests.
paste <(paste - - < "$work/scores") <(paste - - < "$work/pairs.jsonl") | awk -F '\t' '$1 != $2' > "$work/differing"
cat "$work/differing" >&2
wrong=$(wc -l < "$work/differing")
echo "$deals full deals dealt anew below the depths of their value, $wrong with another best score"
[ "$wrong" -eq 0 ]
