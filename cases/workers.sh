#!/usr/bin/env bash
# Four workers, each with a cache before one table that they share, at one desk: 2,000 jobs of 3 to 6 cards a hand and 40 full
# deals, submitted while they work. Those of 3 to 5 cards are from `small`, those of 6 are `six`, again and again; the replies
# are compared with those of DDS 2.9. Then the journal is replayed on a plain list of jobs.
set -eu
here=$(cd -- "$(dirname -- "$0")" && pwd)
top=$(cd -- "$here/.." && pwd)
for tool in cmp git python3 rt; do
    command -v "$tool" > /dev/null || { echo "cases: the command $tool is missing" >&2; exit 1; }
done
work=$(mktemp -d)
trap 'rm -rf "$work"' EXIT
mkdir "$work/copy"
bash "$top/bench/workers/build.sh" "$work/copy"
python3 - "$here/data" "$work" <<'PY'
import json
import sys

data, work = sys.argv[1:]


def pairs(stem):
    with open(f"{stem}.jsonl") as lines, open(f"{stem}.expected") as replies:
        return list(zip(lines, replies, strict=True))


# The most cards of a hand.
def cards(line):
    hands = json.loads(line)["deal"][2:].split(" ")
    return max(len(hand.replace(".", "")) for hand in hands)


small = [pair for pair in pairs(f"{data}/small") if 3 <= cards(pair[0]) <= 5] + pairs(f"{data}/six")
jobs = [small[place % len(small)] for place in range(2_000)]
# A full deal after each fifty.
for number, pair in enumerate(pairs(f"{data}/full")):
    jobs.insert(51 * number + 50, pair)
with open(f"{work}/jobs.jsonl", "w") as lines, open(f"{work}/jobs.expected", "w") as replies:
    for line, reply in jobs:
        lines.write(line)
        replies.write(reply)
PY
"$work/copy/workers" table 4 journal < "$work/jobs.jsonl" > "$work/replies" 2> "$work/told"
cmp "$work/replies" "$work/jobs.expected"
echo "workers: $(wc -l < "$work/jobs.jsonl") replies of four workers agree"
echo "workers: $(python3 "$top/bench/workers/replay.py" < "$work/told")"
# What no run of the list replies is refused: a call left out, another reply, and a receipt left out.
for edit in '2d' '0,/\tclosing$/s//\tnothing waits/' '0,/\trecorded$/s//\tstale/' '0,/^receipt/{/^receipt/d}'; do
    sed "$edit" "$work/told" > "$work/altered"
    if cmp -s "$work/told" "$work/altered" || python3 "$top/bench/workers/replay.py" < "$work/altered" > "$work/said" 2>&1; then
        echo "cases: the journal altered by $edit is replayed" >&2
        exit 1
    fi
done
echo "workers: four altered journals are refused"
