"""Measures the server: RUNS REQUESTS FOLDER PARTS.., with the built client and its positions in the folder (`run.sh`)."""
import os
import subprocess
import sys
import time

CASES = os.path.join(os.path.dirname(os.path.abspath(__file__)), "..", "..", "cases")
sys.path.insert(0, os.path.join(CASES, "server", "clients"))
from client import CLOSING, PROGRAM, STOP, Frames, Server, check, fetch, more_descriptors  # noqa: E402

WORKERS = 4
runs, requests, work = int(sys.argv[1]), int(sys.argv[2]), sys.argv[3]


def stop(server):
    with server.connect() as client:
        check("a stop", client.ask(STOP), CLOSING)
    _, status, said = server.end()
    check("the end", (status, said), (0, ""))


def load(server, kind, clients, count, lines):
    """The answers, and the numbers that the clients tell."""
    done = subprocess.run([f"{work}/load", str(server.port), kind, str(clients), str(count)], input=lines, capture_output=True, text=True)
    if done.returncode != 0:
        sys.exit(f"bench/server: the clients ended with {done.returncode}: {done.stderr}")
    return done.stdout, list(map(int, done.stderr.split()))


def text(path):
    with open(path) as file:
        return file.read()


def rates():
    print(f"{requests} requests, greatest rate of {runs} runs, {WORKERS} workers, {os.cpu_count()} processors, load {os.getloadavg()[0]:.1f}")
    print("cards  connections  polled/s  fetches each  median ms  slowest ms  waited/s  times  median ms  slowest ms  submits/s  refused")
    for cards in (1, 6):
        lines = text(f"{work}/{cards}.jsonl")
        for clients in (1, 8, 64):
            best = {}
            for _ in range(runs):
                for kind in ("done", "wait", "submit"):
                    server = Server("--allow-stop", workers=WORKERS)
                    _, told = load(server, kind, clients, requests, lines)
                    stop(server)
                    best[kind] = min(best.get(kind, told), told)
            a, w, b = best["done"], best["wait"], best["submit"]
            polled = f"{1e9 * a[1] / a[0]:8.0f}  {a[2] / a[1]:12.1f}  {a[4] / 1e6:9.2f}  {a[5] / 1e6:10.1f}"
            waited = f"{1e9 * w[1] / w[0]:8.0f}  {a[0] / w[0]:5.1f}  {w[4] / 1e6:9.2f}  {w[5] / 1e6:10.1f}"
            print(f"{cards:5}  {clients:11}  {polled}  {waited}  {1e9 * b[1] / b[0]:9.0f}  {100 * b[3] / b[1]:6.1f}%", flush=True)


def memory():
    print("\nconnections  resident MB")
    for options in ((), ("--websocket",)):
        server = Server("--allow-stop", *options, workers=WORKERS)
        clients = []
        for count in (1, 1_000):
            while len(clients) < count:
                clients.append(Frames(server.stream()) if options else server.connect())
            for client in clients:
                check("a fetch", client.ask(fetch(0)), '{"fault":16}')
            print(f"{count:11}  {server.resident():11.1f}{'  over WebSockets' if options else ''}")
        check("a stop", clients[0].ask(STOP), CLOSING)
        check("the end", server.end()[1:], (0, ""))
        for client in clients:
            client.close()


def sizes():
    """What the events of a run take, with their jobs, and what workers and the table take that have solved much."""
    lines = text(f"{work}/1.jsonl")
    print("\nevents of a run  made  resident MB before  after  bytes an event")
    for events in (65_536, 262_144, 1_048_576):
        server = Server("--allow-stop", "--events", str(events), workers=WORKERS)
        before, count = server.resident(), events // 16 * 3 - 100
        load(server, "wait", 64, count, lines)
        after = server.resident()
        stop(server)
        print(f"{events:15}  {4 * count:6}  {before:18.1f}  {after:5.0f}  {(after - before) * 2**20 / (4 * count):14.0f}", flush=True)
    lines = text(f"{work}/deals.jsonl") + text(f"{CASES}/data/full.jsonl")
    print(f"\nworkers  entries  resident MB before  after {lines.count(chr(10))} full deals")
    for workers, entries in ((1, 4_096), (4, 4_096), (16, 4_096), (4, 65_536)):
        server = Server("--allow-stop", "--entries", str(entries), workers=workers)
        before = server.resident()
        load(server, "deals", 64, lines.count("\n"), lines)
        print(f"{workers:7}  {entries:7}  {before:18.1f}  {server.resident():5.0f}", flush=True)
        stop(server)


def deals(lines, expected):
    """By the server and the line tool, each with 1 and 4 workers. Where no replies are recorded those of the first run are."""
    count = lines.count("\n")
    least, differing = {}, 0
    for _ in range(runs):
        for workers in (1, 4):
            server = Server("--allow-stop", workers=workers)
            answers, told = load(server, "deals", 4, count, lines)
            stop(server)
            start = time.perf_counter()
            tool = subprocess.run([PROGRAM, "solve", "--workers", str(workers)], input=lines, capture_output=True, text=True, check=True)
            taken = time.perf_counter() - start
            expected = expected or tool.stdout
            differing += (answers != expected) + (tool.stdout != expected)
            for name, seconds in (("server", told[0] / 1e9), ("tool", taken)):
                least[name, workers] = min(least.get((name, workers), seconds), seconds)
    print(f"\n{count} full deals, least of {runs} runs, seconds, load {os.getloadavg()[0]:.1f}\n           1 worker  4 workers  times as fast")
    for name, shown in (("server", "server"), ("tool", "line tool")):
        one, four = least[name, 1], least[name, 4]
        print(f"{shown:9}  {one:8.2f}  {four:9.2f}  {one / four:13.2f}")
    print(f"{differing} of {4 * runs} runs with other replies")
    return differing


def full_deals():
    differing = deals(text(f"{CASES}/data/full.jsonl"), text(f"{CASES}/data/full.expected"))
    return differing + deals(text(f"{work}/deals.jsonl"), None)


more_descriptors()
parts = {"rates": rates, "memory": memory, "sizes": sizes, "deals": full_deals}
sys.exit(1 if any([parts[name]() for name in sys.argv[4:]]) else 0)
