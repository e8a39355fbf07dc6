#!/usr/bin/env bash
# Runs the built program over recorded lines for par, and compares its replies with those recorded: `par` are 635 tables, with
# the replies of DDS 2.9 (DealerPar, SidesPar), `par_deals` 14 deals, answered so too, `par_definition` 19 tables of no deal on
# which DDS's rule of thumb isn't par, by the definition, `par_faults` 12 lines with their first faults. Then 10,000 tables are
# drawn, and par of each is found by playing auctions out, all 35 bids, doubles and redoubles (`tools/auctions.rs`): the program
# has to find the same scores. So with the recorded tables. A word changes the seed of the draw (20261124). It takes a minute.
set -eu
here=$(cd -- "$(dirname -- "$0")" && pwd)
data=$here/data
ddserve=${DDSERVE:-$here/../ddserve}
seed=${1:-20261124}
for tool in cmp sed rustc; do
    command -v "$tool" > /dev/null || { echo "cases: the command $tool is missing" >&2; exit 1; }
done
work=$(mktemp -d)
trap 'rm -rf "$work"' EXIT
for name in par par_deals par_definition par_faults; do
    "$ddserve" solve < "$data/$name.jsonl" > "$work/replies"
    cmp "$work/replies" "$data/$name.expected"
    echo "$name: $(wc -l < "$data/$name.jsonl") replies are as recorded"
done
rustc -O --edition 2021 -o "$work/auctions" "$here/tools/auctions.rs"
score() { sed -n 's/.*"score":\(-\{0,1\}[0-9]*\)}$/\1/p'; }
"$work/auctions" draw 10000 "$seed" > "$work/drawn.jsonl"
"$work/auctions" < "$work/drawn.jsonl" > "$work/played"
"$ddserve" solve < "$work/drawn.jsonl" | score > "$work/told"
[ "$(wc -l < "$work/told")" = 10000 ] || { echo 'cases: some of the drawn tables have no par' >&2; exit 1; }
cmp "$work/told" "$work/played"
echo "drawn: par of $(wc -l < "$work/played") tables is what the auctions come to, $(sort -u "$work/played" | wc -l) different scores"
for name in par par_definition; do
    "$work/auctions" < "$data/$name.jsonl" > "$work/played"
    score < "$data/$name.expected" > "$work/told"
    cmp "$work/told" "$work/played"
    echo "$name: the auctions come to the recorded scores"
done
