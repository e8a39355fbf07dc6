"""Long life: 64 clients work at one process of the server until so many events are made, over runs that follow one another.
Words: the events of a run, and of all runs together (4,096 and 100,000).

The clients are in Rust (`long.rs`). Each answer is compared. A client that is replied 15 fetches what it has and connects anew.
One whose run ends asks again for what it wasn't told. At the end each run's number of events is accounted for. Connections are
made one after the other, so the runs part them in this order; a run's jobs have the numbers from 1 on, each once, and with a
number that stands already the next run begins. A run has the events that its clients were replied, the claims and finishes of
their jobs, a shut, and a last claim of each worker, unless it left since no event was free. What became of a job that was left
open is known within bounds alone: one in each run, and those whose run ended first.

The program's memory is looked at meanwhile. It has as many descriptors and threads at the end as at the start."""
import json
import os
import random
import subprocess
import sys
import tempfile
import time
from client import CLOSING, STOP, Server, check, fetch, full_deal, more_descriptors, recorded

CLIENTS = 64
# The most jobs that one of them has open.
BURST = 6
WORKERS = 4
# A run of more events lasts for some seconds, so that a table may be done in it.
MUCH = 10_000
# The bytes of an event with what belongs to it, and the MB of a worker's cache and of the table, at most (docs/SERVER.md).
EVENT_BYTES, CACHE_MB, TABLE_MB = 550, 27, 45
# As docs/SERVER.md has it for a service: what a run gives back goes to the next ones, and its caches to the system.
MALLOC = {"MALLOC_ARENA_MAX": "2", "MALLOC_MMAP_THRESHOLD_": "1048576"}
# The searches that are begun and left or cancelled.
BEGUN = 2_000


def turned(request, expected, turn):
    """The same question with each hand so many seats further on, and its reply."""
    fields, told = json.loads(request), json.loads(expected)
    seats = "NESW"
    fields["deal"] = seats[(seats.index(fields["deal"][0]) + turn) % 4] + fields["deal"][1:]
    if "first" in fields:
        fields["first"] = (fields["first"] + turn) % 4
    if "table" in told:
        told["table"] = [row[-turn:] + row[:-turn] if turn else row for row in told["table"]]
    return json.dumps(fields, separators=(",", ":")), json.dumps(told, separators=(",", ":"))


def rows(kind, *names):
    """Each recorded row in four forms, with the number of its parts."""
    return [(kind, 20 if name == "tables" else 1, *turned(*row, turn)) for name in names for row in recorded(name) for turn in range(4)]


def work(events):
    """The clients' rows, as text."""
    drawn = random.Random(7)
    begun = [f'{{"do":"solve","deal":"{full_deal(drawn)}","trump":{place % 5},"first":{place % 4},"solutions":3}}' for place in range(BEGUN)]
    all_rows = [
        *rows("small", "written", "small", "six", "targets"), *rows("hard", "full", *["tables"] * (events > MUCH)),
        *[("par", 0, *row) for row in recorded("par")], *[("begun", 1, request, "") for request in begun],
    ]
    return "".join("\t".join(map(str, row)) + "\n" for row in all_rows)


class Visit:
    """What a client accounts for of one connection: its place among all, its events, how many more there may be, its jobs."""

    def __init__(self, line):
        self.order, self.events, self.loose, *self.jobs = map(int, line.split())


def has(server):
    """The descriptors and the threads of the program."""
    return server.descriptors(), len(server.threads())


def parted(visits):
    """The connections of each run. The runs' jobs have the numbers from 1 on, each once."""
    runs, seen = [], set()
    for visit in sorted(visits, key=lambda visit: visit.order):
        if not visit.jobs:
            check("the events of a connection without a job", visit.events, 0)
            continue
        if not runs or visit.jobs[0] in seen:
            runs.append([])
            seen = set()
        runs[-1].append(visit)
        seen.update(visit.jobs)
    for number, run in enumerate(runs, 1):
        jobs = sorted(job for visit in run for job in visit.jobs)
        check(f"the jobs of run {number}", jobs == list(range(1, len(jobs) + 1)), True)
    return runs


def account(told, runs, events):
    """Each number of events that the program told is a run's."""
    left = []
    for run in runs:
        least = sum(visit.events for visit in run) + 1 + WORKERS
        most = least + sum(visit.loose for visit in run)
        # Where no event is free the workers leave without a last claim. Of those that were put by for the ends of jobs some may
        # never be made.
        left.append((most, least if most + CLIENTS * BURST < events else least - WORKERS))
    if len(told) == len(runs) + 1:
        # The last run was used up, and the stop's connection began another.
        left.append((1 + WORKERS, 1 + WORKERS))
    check("the number of runs", len(told), len(left))
    left.sort()
    for number in sorted(told):
        found = next((bounds for bounds in left if bounds[1] <= number <= bounds[0]), None)
        if not found:
            sys.exit(f"cases/server: a run is not accounted for; what is left of the runs' numbers: {left}")
        left.remove(found)


def settled(server, start):
    """Waits until the runs that end have ended, and checks that nothing is left of them."""
    for _ in range(100):
        if has(server) == start:
            return
        time.sleep(0.1)
    check("descriptors and threads at the end", has(server), start)


def clients(server, folder, events, target):
    """What the clients tell, and the program's memory, again and again."""
    command = [f"{folder}/long", str(server.port), str(CLIENTS), str(WORKERS), str(target)]
    samples = []
    with open(f"{folder}/rows", "w+") as given, open(f"{folder}/told", "w+") as told:
        given.write(work(events))
        given.seek(0)
        process = subprocess.Popen(command, stdin=given, stdout=told)
        while process.poll() is None and server.runs():
            samples.append(server.resident())
            time.sleep(0.02)
        check("the clients", (process.poll(), server.runs()), (0, True))
        told.seek(0)
        return told.read().splitlines(), samples


def life(folder, events, target):
    os.environ.update(MALLOC)
    server = Server("--allow-stop", "--events", str(events), workers=WORKERS)
    with server.connect() as client:
        check("a fetch", client.ask(fetch(0)), '{"fault":16}')
    time.sleep(0.2)
    start, before, since = has(server), server.resident(), time.monotonic()
    (*lines, last), samples = clients(server, folder, events, target)
    taken = time.monotonic() - since
    settled(server, start)
    most = server.resident("VmHWM")
    with server.connect() as client:
        check("a stop", client.ask(STOP), CLOSING)
    ends, status, said = server.end_of_runs()
    check("the end", (status, said), (0, ""))
    visits = list(map(Visit, lines))
    runs = parted(visits)
    # The first fetch, of the first run.
    runs[0][0].events += 1
    account(ends, runs, events)
    check(f"{sum(ends)} events", sum(ends) >= target, True)
    check("each run but the last was used up", len(ends) - 1 >= target // events, True)
    answers, cut, stayed = map(int, last.split())
    loose, anew = sum(visit.loose for visit in visits), len(visits) - CLIENTS
    print(f"long: {sum(ends)} events by {CLIENTS} clients in {taken:.0f} s, {answers} answers, each right; {len(ends)} runs of at most {events} events, each accounted for ({loose} events may be or not)")
    print(f"long: {anew} times connected anew, {stayed} times when the run had been ended; {cut} jobs were asked for again")
    print(f"long: {start[0]} descriptors and {start[1]} threads at the start and at the end", flush=True)
    memory(events, target, before, most, samples)


def memory(events, target, before, most, samples):
    levels = [max(samples[part * len(samples) // 10:(part + 1) * len(samples) // 10 + 1]) for part in range(10)]
    bound = before + 3 * events * EVENT_BYTES / 2**20 + 3 * WORKERS * CACHE_MB + TABLE_MB
    print(f"long: memory {before:.0f} MB at the start, at most in each tenth of the time {' '.join(f'{level:.0f}' for level in levels)} MB, {most:.0f} MB in all")
    check(f"{most:.0f} MB, where {bound:.0f} are three journals, {3 * WORKERS} caches and the table", most <= bound, True)
    if target >= 20 * events:
        # The journals of the second half would be much more.
        grown = levels[-1] - levels[4]
        check(f"{grown:.0f} MB more than in the midst", grown < target / 4 * EVENT_BYTES / 2**20, True)


more_descriptors()
with tempfile.TemporaryDirectory() as place:
    source = os.path.join(os.path.dirname(os.path.abspath(__file__)), "long.rs")
    subprocess.run(["rustc", "-O", "--edition", "2021", "-o", f"{place}/long", source], check=True)
    life(place, *(int(word) for word in sys.argv[1:] or (4_096, 100_000)))
