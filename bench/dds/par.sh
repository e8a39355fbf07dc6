#!/usr/bin/env bash
# Par, by `ddserve solve` and by DDS 2.9 built at -O3 (`peer.sh`; DealerParBin). First the recorded tables with a dealer, again and
# again until they are 20,000 lines, sent at once through a pipe to each program in turns: microseconds a line without the
# program's start, the least of several runs; the scores are compared. Then full deals: the line for par of a deal beside the
# line for its table, by two processes of ddserve in turns, each over a table of 65,536 entries: the sums of the least times
# of each. Words: the number of runs (5), of full deals (20), and their seed (1013). It ends with status 1 where scores differ.
set -eu
here=$(cd -- "$(dirname -- "$0")" && pwd)
top=$(cd -- "$here/../.." && pwd)
runs=${1:-5}
full=${2:-20}
seed=${3:-1013}
for tool in python3 g++; do
    command -v "$tool" > /dev/null || { echo "bench/dds: the command $tool is missing" >&2; exit 1; }
done
work=$(mktemp -d)
trap 'rm -rf "$work"' EXIT
bash "$here/peer.sh" "${DDS_PEER:-$work/peer}"
g++ -O3 -march=x86-64-v3 -flto=auto -pthread -I"${DDS_PEER:-$work/peer}/include" -o "$work/dds" "$here/dds.cpp" "${DDS_PEER:-$work/peer}/libdds.a"
"${DDSERVE:-$top/ddserve}" serve --help > /dev/null
python3 "$top/bench/tools/deals.py" 13 "$full" --seed "$seed" --requests > "$work/13.jsonl"
grep '"dealer"' "$top/cases/data/par.jsonl" > "$work/recorded.jsonl"
while [ "$(cat "$work/lines.jsonl" 2> /dev/null | wc -l)" -lt 20000 ]; do cat "$work/recorded.jsonl" >> "$work/lines.jsonl"; done
head -20000 "$work/lines.jsonl" > "$work/par.jsonl"
python3 - "$runs" "${DDSERVE:-$top/crates/ddserve/out/ddserve}" "$work" <<'PY'
import json
import math
import subprocess
import sys
import time

runs, ours, work = int(sys.argv[1]), sys.argv[2], sys.argv[3]
commands = {"ddserve": [ours, "solve", "--entries", "65536"], "DDS": [f"{work}/dds"]}
ONE_CARD = '{"do":"solve","deal":"N:A... K... Q... J...","trump":4,"first":0,"solutions":3}\n'


def answer(program, line):
    start = time.perf_counter()
    program.stdin.write(line)
    program.stdin.flush()
    reply = program.stdout.readline()
    if not reply.endswith("\n"):
        sys.exit(f"bench/dds: {program.args[0]} ended without a reply to {line}")
    return time.perf_counter() - start, reply


# One card a hand comes first, so that no line waits for a program to start.
def started(command):
    program = subprocess.Popen(command, stdin=subprocess.PIPE, stdout=subprocess.PIPE, text=True)
    answer(program, ONE_CARD)
    return program


# Microseconds a line where all are sent at once, and the replies.
def at_once(command):
    program = started(command)
    start = time.perf_counter()
    sender = subprocess.Popen(["cat", f"{work}/par.jsonl"], stdout=program.stdin)
    program.stdin.close()
    replies = program.stdout.read()
    end = time.perf_counter()
    if sender.wait() != 0 or program.wait() != 0:
        sys.exit(f"bench/dds: {program.args[0]} ended with status {program.returncode}")
    return 1e6 * (end - start) / replies.count("\n"), replies


least, replies = dict.fromkeys(commands, math.inf), {}
for _ in range(runs):
    for name, command in commands.items():
        found, replies[name] = at_once(command)
        least[name] = min(least[name], found)
with open(f"{work}/par.jsonl") as file:
    lines = file.readlines()
scores = {name: [json.loads(reply)["score"] for reply in text.splitlines()] for name, text in replies.items()}
differing = sum(a != b for a, b in zip(scores["ddserve"], scores["DDS"], strict=True))
print(f"par of a table, {len(lines)} lines at once through a pipe, least of {runs} runs: ddserve {least['ddserve']:.1f} microseconds a line, "
      f"DDS {least['DDS']:.1f}; {len(lines) - differing} of {len(lines)} scores agree", flush=True)

with open(f"{work}/13.jsonl") as file:
    deals = [json.loads(line)["deal"] for line in file]
kinds = {"table": {"do": "table"}, "par": {"do": "par", "dealer": 0, "vulnerable": 0}}
times = {kind: [math.inf] * len(deals) for kind in kinds}
for turn in range(runs):
    programs = {kind: started(commands["ddserve"]) for kind in kinds}
    for number, deal in enumerate(deals):
        # Who comes first changes, so that neither gains by it.
        for kind in sorted(kinds, reverse=(number + turn) % 2 == 0):
            taken, _ = answer(programs[kind], json.dumps({**kinds[kind], "deal": deal}) + "\n")
            times[kind][number] = min(times[kind][number], taken)
    for program in programs.values():
        program.stdin.close()
        program.wait()
table, par = sum(times["table"]), sum(times["par"])
print(f"par of a deal, {len(deals)} full deals, least of {runs} runs: {1000 * par / len(deals):.1f} ms a line, its table {1000 * table / len(deals):.1f} ms, "
      f"ratio {par / table:.3f}")
sys.exit(1 if differing else 0)
PY
