#!/usr/bin/env bash
# `ddserve pbn --workers 1`, 2 and 4 over a hand record of 36 boards, beside as many processes of one worker each, with the games
# dealt out in turn, which is what the machine gives; and one worker over 1,000 boards whose tags are there. The least time of
# several runs taken in turns and its processor time, and whether all files come out the same: where one doesn't it ends with
# status 1. Words: the number of runs (3). `DDSERVE` names another built program.
set -eu
here=$(cd -- "$(dirname -- "$0")" && pwd)
top=$(cd -- "$here/../.." && pwd)
command -v python3 > /dev/null || { echo "bench/workers: the command python3 is missing" >&2; exit 1; }
"${DDSERVE:-$top/ddserve}" serve --help > /dev/null

python3 - "${1:-3}" "${DDSERVE:-$top/crates/ddserve/out/ddserve}" "$top/examples/record.pbn" <<'PY'
import os
import subprocess
import sys
import threading
import time

runs, ours = int(sys.argv[1]), sys.argv[2]
with open(sys.argv[3], "rb") as file:
    record = file.read()
differing = 0


# Seconds, processor seconds, and what comes out for each of these files, of a process each.
def run(files, workers):
    start, before = time.monotonic(), os.times()
    told = [None] * len(files)

    def fill(place):
        told[place] = subprocess.run([ours, "pbn", "--workers", str(workers)], input=files[place], capture_output=True, check=True).stdout

    threads = [threading.Thread(target=fill, args=(place,)) for place in range(len(files))]
    for thread in threads:
        thread.start()
    for thread in threads:
        thread.join()
    after = os.times()
    used = after.children_user - before.children_user + after.children_system - before.children_system
    return time.monotonic() - start, used, told


begin = record.index(b"[Event")
head, games = record[:begin], record[begin:].rstrip(b"\n").split(b"\n\n")
whole, least = None, {}
for _ in range(runs):
    for count in (1, 2, 4):
        shares = [b"\n\n".join(games[place::count]) + b"\n" for place in range(count)]
        for name, files, workers in (("workers", [record], count), ("processes", shares, 1)):
            taken, used, told = run(files, workers)
            least[name, count] = min(least.get((name, count), (taken, used)), (taken, used))
            if name == "workers":
                whole = whole or told[0]
                differing += told[0] != whole
print(f"{len(games)} boards, least of {runs} runs, {os.cpu_count()} processors, load {os.getloadavg()[0]:.1f}")
print("threads  workers s  of one  processor s  processes s  of one")
for count in (1, 2, 4):
    (a, used), (b, _) = least["workers", count], least["processes", count]
    print(f"{count:7}  {a:9.2f}  {a / least['workers', 1][0]:6.2f}  {used:11.2f}  {b:11.2f}  {b / least['processes', 1][0]:6.2f}")
filled = whole[whole.index(b"[Event"):].rstrip(b"\n").split(b"\n\n")
thousand = head + b"\n\n".join(filled[number % len(filled)] for number in range(1000)) + b"\n"
taken, used, told = min(run([thousand], 1) for _ in range(runs))
differing += told[0] != thousand
print(f"1000 boards whose tags are there, {len(thousand)} bytes: {taken:.3f} s, {used:.3f} s of a processor")
print(f"{differing} files came out differently")
sys.exit(1 if differing else 0)
PY
