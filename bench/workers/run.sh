#!/usr/bin/env bash
# Full deals as jobs at one desk by 1, 2 and 4 workers: each with a cache of its own before one table that they share, beside
# each with its own cache alone, and DDS's SolveAllBoards (package libdds-dev) with as many threads. The least time of several
# runs taken in turns, the speed-up over one worker, the cost of the shared table, and whether all replies agree: where some
# don't it ends with status 1. Words: the number of runs (5), of deals, at most 200 (200), and the seed of the deals (1016).
set -eu
here=$(cd -- "$(dirname -- "$0")" && pwd)
top=$(cd -- "$here/../.." && pwd)
runs=${1:-5}
deals=${2:-200}
seed=${3:-1016}

for tool in git python3 rt g++; do
    command -v "$tool" > /dev/null || { echo "bench/workers: the command $tool is missing" >&2; exit 1; }
done
[ -e /usr/include/dds/dll.h ] || { echo 'bench/workers: the package libdds-dev is missing' >&2; exit 1; }
work=$(mktemp -d)
trap 'rm -rf "$work"' EXIT
mkdir "$work/copy"
bash "$here/build.sh" "$work/copy"
g++ -O2 -o "$work/dds" "$here/dds.cpp" -ldds
python3 "$top/bench/tools/deals.py" 13 "$deals" --seed "$seed" --requests > "$work/deals.jsonl"

python3 - "$runs" "$work/copy/workers" "$work/dds" "$work/deals.jsonl" <<'PY'
import os
import subprocess
import sys

runs, ours, dds, path = int(sys.argv[1]), sys.argv[2], sys.argv[3], sys.argv[4]
with open(path) as file:
    lines = file.read()
commands = {"table": lambda count: [ours, "table", count], "own": lambda count: [ours, "own", count], "DDS": lambda count: [dds, count]}
replies, differing = None, 0


# Nanoseconds of the work, and the number that comes after them.
def run(name, count):
    global replies, differing
    done = subprocess.run(commands[name](str(count)), input=lines, capture_output=True, text=True)
    if done.returncode != 0:
        sys.exit(f"bench/workers: {name} with {count} ended with {done.returncode}")
    replies = replies or done.stdout
    differing += replies != done.stdout
    nanoseconds, number = map(int, done.stderr.split())
    if name == "DDS" and number != count:
        sys.exit(f"bench/workers: DDS has {number} threads in place of {count}")
    return nanoseconds / 1e9


least = {}
for _ in range(runs):
    for count in (1, 2, 4):
        for name in commands:
            taken = run(name, count)
            least[name, count] = min(least.get((name, count), taken), taken)
print(f"{lines.count(chr(10))} full deals, least of {runs} runs, {os.cpu_count()} processors, load {os.getloadavg()[0]:.1f}")
print("workers  table s  speed-up    own s  speed-up  cost of the table    DDS s  speed-up  table/DDS")
for count in (1, 2, 4):
    a, b, c = (least[name, count] for name in commands)
    ups = [least[name, 1] / least[name, count] for name in commands]
    print(f"{count:7}  {a:7.2f}  {ups[0]:8.2f}  {b:7.2f}  {ups[1]:8.2f}  {100 * (a / b - 1):+16.1f}%  {c:7.2f}  {ups[2]:8.2f}  {a / c:9.2f}")
print(f"{differing} of {runs * 9} runs with other replies")
sys.exit(1 if differing else 0)
PY
