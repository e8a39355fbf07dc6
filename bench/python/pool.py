#!/usr/bin/env python3
"""The package's pool beside `ddserve solve --workers`, over the twenty results of the same random deals, in turns in one run: each
run, the ratio of the least times, and whether all results are the same; where they aren't it ends with status 1.

Words: the number of deals (10000), of runs (1), of workers (4), and the seed of the deals (5). `DDSERVE` names another built program."""
import json
import os
import pathlib
import random
import resource
import subprocess
import sys
import time

TOP = pathlib.Path(__file__).resolve().parents[2]
sys.path.insert(0, str(TOP / "python"))
sys.dont_write_bytecode = True

from ddserve import Deal, Pool, requests  # noqa: E402

PROGRAM = os.environ.get("DDSERVE") or str(TOP / "crates" / "ddserve" / "out" / "ddserve")
count, runs, workers, seed = (int(word) for word in [*sys.argv[1:], *("10000", "1", "4", "5")[len(sys.argv) - 1 :]])
rng = random.Random(seed)
deals = [Deal.by_chance(rng=rng) for _ in range(count)]
lines = "".join(f"{requests.table(deal).line}\n" for deal in deals)


def processor():
    both = [resource.getrusage(who) for who in (resource.RUSAGE_SELF, resource.RUSAGE_CHILDREN)]
    return sum(it.ru_utime + it.ru_stime for it in both)


def by_tool():
    told = subprocess.run([PROGRAM, "solve", "--workers", str(workers)], input=lines, capture_output=True, text=True, check=True).stdout
    return [json.loads(line)["table"] for line in told.splitlines()]


def by_pool():
    return [[list(row) for row in table.tricks] for table in Pool(workers, program=PROGRAM).tables(deals)]


def timed(call):
    start, before = time.perf_counter(), processor()
    results = call()
    return time.perf_counter() - start, processor() - before, results


least = {}
for _ in range(runs):
    found = {name: timed(call) for name, call in (("solve --workers", by_tool), ("pool", by_pool))}
    if found["pool"][2] != found["solve --workers"][2]:
        sys.exit("bench/python: the results differ")
    print(", ".join(f"{name} {seconds:.1f} s, {used:.1f} processor seconds" for name, (seconds, used, _) in found.items()), flush=True)
    for name, (seconds, used, _) in found.items():
        least[name] = min(least.get(name, (seconds, used)), (seconds, used))
ratio, used = (least["pool"][at] / least["solve --workers"][at] for at in (0, 1))
print(f"{count} deals, {workers} workers: {ratio:.2f} of the time, {used:.2f} of the processor seconds, load {os.getloadavg()[0]:.0f}")
