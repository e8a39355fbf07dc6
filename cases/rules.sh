#!/usr/bin/env bash
# Each of the quick tricks of the peer alone, the search in plain Rust (`bench/peer/quick.rs`, which follows `dd_quick`),
# against exhaustive play (`tools/rules.rs`): its answers on random small deals, and the same with the cards below those on
# which they rest dealt anew. It says nothing of the program. Says of each how many were tried; ends with status 1 if one was
# wrong, or a rule never answered. Word: the number of answers of each rule (2000). With `--broken` instead: forms that are known
# to be wrong, and each rule on a card fewer; ends with status 1 unless each is found wrong.
set -eu
here=$(cd -- "$(dirname -- "$0")" && pwd)
word=${1:-2000}
[ "$word" != --broken ] || word=broken
command -v rustc > /dev/null || { echo 'cases: the command rustc is missing' >&2; exit 1; }
work=$(mktemp -d)
trap 'rm -rf "$work"' EXIT
rustc -C opt-level=3 --edition 2021 -o "$work/rules" "$here/tools/rules.rs"
"$work/rules" "$word"
