#!/usr/bin/env bash
# Runs the built program over recorded positions, and compares its replies with those of DDS 2.9: `written` are deals of up
# to four cards a hand in the written form, `small` 600 positions of up to five, 0 to 3 cards on the trick, solutions 1 to
# 3, `full` 40 opening leads of full deals, 8 of each strain, `tables` the twenty results of 20 full deals, `targets` 334 positions
# of up to thirteen cards with a target, solutions 1 and 2, `target_faults` what is wrong with a target, `plays` the tricks after
# each card of 100 plays of 1 to 13 cards a hand, `play_faults` what is wrong with a play. Exhaustive play (`tools/play.rs`) answers `written` and `small` too.
set -eu
here=$(cd -- "$(dirname -- "$0")" && pwd)
data=$here/data
ddserve=${DDSERVE:-$here/../ddserve}
for tool in cmp python3 rustc; do
    command -v "$tool" > /dev/null || { echo "cases: the command $tool is missing" >&2; exit 1; }
done
work=$(mktemp -d)
trap 'rm -rf "$work"' EXIT
for name in written small full tables targets target_faults plays play_faults; do
    "$ddserve" solve < "$data/$name.jsonl" > "$work/replies"
    cmp "$work/replies" "$data/$name.expected"
    echo "$name: $(wc -l < "$data/$name.jsonl") replies agree with DDS"
done
for workers in 2 4; do
    for name in written small full tables; do
        "$ddserve" solve --workers "$workers" < "$data/$name.jsonl" > "$work/replies"
        cmp "$work/replies" "$data/$name.expected"
    done
    echo "with $workers workers the same replies"
done
# The same with ids and words: each line gets the number of its place as its id, its reply has that id first, and is the recorded
# one behind it but for faults, which keep their number.
python3 - "$ddserve" "$data" <<'END'
import json, subprocess, sys
program, data = sys.argv[1:]
checked = 0
for name in "written small tables targets target_faults plays play_faults".split():
    lines = open(f"{data}/{name}.jsonl").read().splitlines()
    wanted = open(f"{data}/{name}.expected").read().splitlines()
    asked = "".join(line.rstrip()[:-1] + f',"id":{place}' + "}\n" for place, line in enumerate(lines))
    for workers in "1", "4":
        told = subprocess.run([program, "solve", "--explain", "--workers", workers], input=asked, capture_output=True, text=True, check=True).stdout.splitlines()
        assert len(told) == len(wanted), name
        for place, (reply, plain) in enumerate(zip(told, wanted)):
            begin = '{"id":%d,' % place
            assert reply.startswith(begin), reply
            if "fault" in json.loads(plain):
                fault = json.loads(reply)
                assert fault["fault"] == json.loads(plain)["fault"] and fault["text"], reply
            else:
                assert "{" + reply[len(begin):] == plain, reply
            checked += 1
print(f"explained: {checked} replies have their ids, and are the recorded ones behind them")
END
# How the built program ends: its status and what it says.
ends() { # STATUS TEXT COMMAND..
    status=$1 said=$2
    shift 2
    got=0
    "$@" > "$work/said" 2>&1 || got=$?
    [ "$got" = "$status" ] && { [ -z "$said" ] || grep -q -- "$said" "$work/said"; } || { echo "cases: $* ended with $got: $(cat "$work/said")" >&2; exit 1; }
}
version=$(sed -n 's/^## \([0-9.]*\)$/\1/p' "$here/../CHANGELOG.md" | head -1)
ends 0 "^ddserve $version\$" "$ddserve" --version
ends 0 'Usage: ddserve solve' "$ddserve" solve --help
ends 2 "unrecognized subcommand 'resolve'" "$ddserve" resolve
ends 2 '' bash -c '"$1" resolve 2>&-' - "$ddserve"
ends 2 "^ddserve: files are read from the standard input, as in: ddserve pbn < FILE\$" "$ddserve" pbn --workers 2 deals.pbn
ends 2 "^ddserve: files are read from the standard input, as in: ddserve solve < FILE\$" "$ddserve" solve -- lines.jsonl
ends 2 "unexpected argument '--limit'" "$ddserve" pbn --limit 5
! grep -q FILE "$work/said" || { echo "cases: an option that there isn't is taken for a file" >&2; exit 1; }
ends 2 "unexpected argument 'file'" "$ddserve" serve --listen 127.0.0.1:0 file
! grep -q FILE "$work/said" || { echo "cases: a server is said to take a file" >&2; exit 1; }
ends 1 '^ddserve: read failed$' bash -c '"$1" solve < /' - "$ddserve"
ends 1 '^ddserve: write failed$' bash -c '"$1" solve < "$2" > /dev/full' - "$ddserve" "$data/written.jsonl"
echo "endings: ten commands end as they should"
rustc -O --edition 2021 -o "$work/play" "$here/tools/play.rs"
for name in written small; do
    "$work/play" < "$data/$name.jsonl" > "$work/replies"
    cmp "$work/replies" "$data/$name.expected"
    echo "$name: exhaustive play agrees"
done
