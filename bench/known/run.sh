#!/usr/bin/env bash
# Known positions asked again, in two checkouts whose programs are built, by turns: OLD NEW [SEED]. 100 positions of eight, of nine and
# of ten cards a hand, each asked 600 times running through the line tool: for the scores of all cards, and for the cards that reach
# half of the tricks. Prints the median seconds of seven turns (the variable TURNS: of more) and their ratio, and stops with status 1
# where what the two print differs.
set -eu
here=$(cd -- "$(dirname -- "$0")" && pwd)
command -v python3 > /dev/null || { echo "bench/known: the command python3 is missing" >&2; exit 1; }
if [ $# -lt 2 ]; then
    echo "bench/known: two checkouts are wanted, OLD and NEW" >&2
    exit 1
fi
work=$(mktemp -d)
trap 'rm -rf "$work"' EXIT
for cards in 8 9 10; do
    python3 "$here/../tools/deals.py" "$cards" 100 --seed "${3:-20261127}" --requests > "$work/$cards"
done
python3 - "$work" "$1" "$2" <<'PY'
import os
import statistics
import subprocess
import sys
import time

WORK, OLD, NEW = sys.argv[1:]
AGAIN = 600
TURNS = max(7, int(os.environ.get("TURNS", "7")))


def run(checkout, lines):
    """Returns what the line tool of this checkout replies, and the seconds that it takes."""
    program = os.path.join(os.path.realpath(checkout), "crates", "ddserve", "out", "ddserve")
    begin = time.perf_counter()
    with open(lines, "rb") as given:
        done = subprocess.run([program, "solve"], stdin=given, stdout=subprocess.PIPE)
    took = time.perf_counter() - begin
    if done.returncode:
        sys.exit(f"{program} solve ended with status {done.returncode}")
    return done.stdout, took


print("| CARDS | ASKED FOR | OLD | NEW | OLD over NEW |")
print("|---|---|---|---|---|")
for cards in (8, 9, 10):
    with open(os.path.join(WORK, str(cards)), encoding="utf-8") as file:
        requests = file.read().splitlines()
    target = f'"solutions":2,"target":{cards // 2}}}'
    for name, end in (("all scores", '"solutions":3}'), ("a target", target)):
        lines = os.path.join(WORK, "lines")
        with open(lines, "w", encoding="utf-8") as file:
            for request in requests:
                file.write((request.replace('"solutions":3}', end) + "\n") * AGAIN)
        replies, taken = set(), ([], [])
        for turn in range(TURNS):
            # Each turn begins with the other one.
            for side in ((0, 1), (1, 0))[turn % 2]:
                text, took = run((OLD, NEW)[side], lines)
                taken[side].append(took)
                replies.add(text)
        if len(replies) != 1:
            sys.exit(f"{cards} cards, {name}: the replies differ")
        old, new = map(statistics.median, taken)
        print(f"| {cards} | {name} | {old:.3f} | {new:.3f} | {old / new:.2f} |", flush=True)
PY
