#!/usr/bin/env bash
# `ddserve solve --workers 1`, 2 and 4 over a file of full deals with the scores of all leads, beside DDS's SolveAllBoards, and
# then over the twenty results of deals, beside DDS's CalcAllTables, each with as many threads, of DDS 2.9 built at -O3
# (`bench/dds/peer.sh`); beside the same lines as jobs of one connection to a server with as many workers; and beside as many
# processes of one worker each, with the lines dealt out in turn, which is what the machine gives. The least time of several runs
# taken in turns, the speed-up over one thread, the least processor time, and whether all replies agree: where some don't it ends
# with status 1. Words: the number of runs (3), of deals with scores, at most 200 (200), of tables (40), and the seed of the deals
# (1016). `DDSERVE` names another built program, `DDS_PEER` the folder of a peer that is built.
set -eu
here=$(cd -- "$(dirname -- "$0")" && pwd)
top=$(cd -- "$here/../.." && pwd)
runs=${1:-3}
deals=${2:-200}
tables=${3:-40}
seed=${4:-1016}

for tool in python3 g++; do
    command -v "$tool" > /dev/null || { echo "bench/workers: the command $tool is missing" >&2; exit 1; }
done
work=$(mktemp -d)
trap 'rm -rf "$work"' EXIT
peer=${DDS_PEER:-$work/peer}
bash "$top/bench/dds/peer.sh" "$peer"
for kind in scores tables; do
    source=$here/dds.cpp
    [ "$kind" = scores ] || source=$here/dds_tables.cpp
    g++ -O3 -march=x86-64-v3 -flto=auto -pthread -I"$peer/include" -o "$work/$kind" "$source" "$peer/libdds.a"
done
"${DDSERVE:-$top/ddserve}" serve --help > /dev/null
python3 "$top/bench/tools/deals.py" 13 "$deals" --seed "$seed" --requests > "$work/scores.jsonl"
python3 "$top/bench/tools/deals.py" 13 "$tables" --seed "$seed" --requests \
    | sed 's/"do":"solve"/"do":"table"/; s/,"trump".*}$/}/' > "$work/tables.jsonl"

python3 - "$runs" "${DDSERVE:-$top/crates/ddserve/out/ddserve}" "$work" <<'PY'
import concurrent.futures
import json
import math
import os
import resource
import socket
import subprocess
import sys
import time

runs, ours, work = int(sys.argv[1]), sys.argv[2], sys.argv[3]
# A connection may have so many open jobs.
MOST_OPEN = 64
differing = 0


# Seconds of so many processes, each with each so manyth line, and their replies in the lines' order.
def run_apart(count, lines):
    rows = lines.splitlines(keepends=True)
    start = time.monotonic()
    processes = [subprocess.Popen([ours, "solve"], stdin=subprocess.PIPE, stdout=subprocess.PIPE, text=True) for _ in range(count)]
    with concurrent.futures.ThreadPoolExecutor(count) as pool:
        told = list(pool.map(lambda place: processes[place].communicate("".join(rows[place::count]))[0], range(count)))
    taken = time.monotonic() - start
    shares = [text.splitlines(keepends=True) for text in told]
    return taken, "".join(shares[place % count][place // count] for place in range(len(rows)))


# Seconds of a server's jobs, all of one connection, and their results as the line tool writes them.
def run_served(count, lines):
    server = subprocess.Popen([ours, "serve", "--listen", "127.0.0.1:0", "--workers", str(count), "--allow-stop"], stdout=subprocess.PIPE, text=True)
    port = int(server.stdout.readline().rsplit(":", 1)[1])
    told, jobs = [], []
    with socket.create_connection(("127.0.0.1", port)) as connection, connection.makefile("rw") as file:
        def ask(line):
            file.write(line + "\n")
            file.flush()
            return json.loads(file.readline())

        def fetch(job):
            while (reply := ask(json.dumps({"do": "fetch", "job": job, "wait": 60000})))["state"] != "done":
                pass
            result = {key: value for key, value in reply.items() if key not in ("job", "state")}
            told.append(json.dumps(result, separators=(",", ":")) + "\n")

        start = time.monotonic()
        for line in lines.splitlines():
            if len(jobs) == MOST_OPEN:
                fetch(jobs.pop(0))
            jobs.append(ask(line)["job"])
        for job in jobs:
            fetch(job)
        taken = time.monotonic() - start
        ask('{"do":"stop"}')
    server.wait()
    return taken, "".join(told)


# Seconds: of our program with its start, of DDS its one call.
def run(name, kind, count, lines):
    if name in ("apart", "server"):
        return (run_apart if name == "apart" else run_served)(count, lines)
    command = [ours, "solve", "--workers", str(count)] if name == "ddserve" else [f"{work}/{kind}", str(count)]
    start = time.monotonic()
    done = subprocess.run(command, input=lines, capture_output=True, text=True)
    taken = time.monotonic() - start
    if done.returncode != 0:
        sys.exit(f"bench/workers: {name} with {count} ended with {done.returncode}")
    if name == "DDS":
        nanoseconds, number = map(int, done.stderr.split())
        if number != count:
            sys.exit(f"bench/workers: DDS has {number} threads in place of {count}")
        taken = nanoseconds / 1e9
    return taken, done.stdout


# Processor seconds of all programs that have ended.
def worked():
    used = resource.getrusage(resource.RUSAGE_CHILDREN)
    return used.ru_utime + used.ru_stime


NAMES = ("ddserve", "server", "apart", "DDS")
for kind in ("scores", "tables"):
    with open(f"{work}/{kind}.jsonl") as file:
        lines = file.read()
    replies, least, cost = None, {}, {}
    for _ in range(runs):
        for count in (1, 2, 4):
            for name in NAMES:
                before = worked()
                taken, told = run(name, kind, count, lines)
                cost[name, count] = min(cost.get((name, count), math.inf), worked() - before)
                replies = replies or told
                differing += told != replies
                least[name, count] = min(least.get((name, count), taken), taken)
    print(f"{kind} of {lines.count(chr(10))} full deals, least of {runs} runs, {os.cpu_count()} processors, load {os.getloadavg()[0]:.1f}: seconds, speed-up, processor seconds")
    print("threads" + "".join(f"  {name:>24}" for name in NAMES) + "  ddserve/DDS  server/DDS")
    for count in (1, 2, 4):
        columns = "".join(f"  {least[name, count]:8.2f}  {least[name, 1] / least[name, count]:5.2f}  {cost[name, count]:7.2f}" for name in NAMES)
        print(f"{count:7}{columns}  {least['ddserve', count] / least['DDS', count]:11.2f}  {least['server', count] / least['DDS', count]:10.2f}")
print(f"{differing} of {runs * 24} runs with other replies")
sys.exit(1 if differing else 0)
PY
