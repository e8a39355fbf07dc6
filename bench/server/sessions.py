"""How soon sessions that wait are told: SESSIONS RUNS (1,000 and 3). One worker searches a full deal, and meanwhile each session asks
for a position of five cards a hand, with a wait: on shorter ones sessions work themselves. Then the worker does these jobs one after
the other. Two times are shown: that of the first hundred replies after the reply to the deal, by the median; and of each reply the
time after its job's end by the median and the most, where each job is taken to last as long as the others. The last column is how
often a thread of the server waited, for each job. Then the same without the server, in plain Rust: one bell for all, and a bell for
each (`bells.rs`)."""
import json
import os
import select
import subprocess
import sys
import tempfile
import time

HERE = os.path.dirname(os.path.abspath(__file__))
CASES = os.path.join(HERE, "..", "..", "cases")
sys.path.insert(0, os.path.join(CASES, "server", "clients"))
from client import CLOSING, STOP, Server, check, more_descriptors, recorded, waiting  # noqa: E402

sessions = int(sys.argv[1]) if len(sys.argv) > 1 else 1_000
runs = int(sys.argv[2]) if len(sys.argv) > 2 else 3


def five_cards():
    """The first recorded position with five cards a hand and none on the trick, and its reply."""
    for request, reply in recorded("small"):
        asked = json.loads(request)
        if sum(asked["deal"].count(rank) for rank in "23456789TJQKA") == 20 and not asked.get("played"):
            return request, reply
    sys.exit("bench/server: no recorded position has five cards a hand")


def slowest():
    """The recorded full deal that takes longest, and its reply."""
    server, times = Server("--allow-stop", workers=1), []
    with server.connect() as client:
        for request, _ in recorded("full"):
            since = time.perf_counter()
            client.ask(waiting(request))
            times.append((time.perf_counter() - since, request))
        check("a stop", client.ask(STOP), CLOSING)
    server.end()
    return max(times)


def run(deal, position, expected):
    server = Server("--allow-stop", workers=1)
    first, clients = server.connect(), [server.connect() for _ in range(sessions)]
    ears = select.epoll()
    for client in (first, *clients):
        ears.register(client.stream.fileno(), select.EPOLLIN)
    places = {client.stream.fileno(): place for place, client in enumerate(clients)}
    first.send(waiting(deal))
    # The worker has it before the others ask.
    time.sleep(0.05)
    for client in clients:
        client.send(waiting(position))
    before, begun, told = server.switches(), None, {}
    while len(told) < sessions:
        for number, _ in ears.poll(60):
            now = time.perf_counter()
            ears.unregister(number)
            if number in places:
                told[places[number]] = now
            else:
                begun = now
    after = server.switches()
    for client in clients:
        check("the answer", client.line().partition(',"job"')[0] + "}", expected)
    check("a stop", clients[0].ask(STOP), CLOSING)
    server.end()
    ordered = sorted(told.values())
    each = (ordered[-1] - begun) / sessions
    late = sorted(moment - begun - place * each for place, moment in enumerate(ordered))
    early = sorted(moment - begun for moment in ordered[:100])
    return early[50], late[sessions // 2], late[-1], each, after - before


more_descriptors()
taken, deal = slowest()
position, expected = five_cards()
print(f"{sessions} sessions that wait, 1 worker, behind a deal of {1000 * taken:.0f} ms; {os.cpu_count()} processors, load {os.getloadavg()[0]:.1f}")
print("median of the first 100, ms  median beside its turn, ms  latest, ms  a job, ms  switches a job")
for _ in range(runs):
    early, median, latest, each, count = run(deal, position, expected)
    print(f"{1000 * early:27.2f}  {1000 * median:26.2f}  {1000 * latest:10.2f}  {1000 * each:9.3f}  {count / sessions:14.1f}")
with tempfile.TemporaryDirectory() as folder:
    subprocess.run(["rustc", "-O", "--edition", "2021", "-o", f"{folder}/bells", f"{HERE}/bells.rs"], check=True)
    print(f"\n{sessions} threads that wait at one lock, without the server", flush=True)
    subprocess.run([f"{folder}/bells", str(sessions)], check=True)
