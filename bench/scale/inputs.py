#!/usr/bin/env python3
"""What `docs/SCALE.md` reckons with: processor seconds a request by its kind, memory by the number of workers, and what connections take
of a server. Processor seconds of the program are counted, so other work on the machine bears on them little.

Word: a divisor of the numbers of requests (1). `DDSERVE` names another built program."""
import json
import os
import pathlib
import random
import re
import subprocess
import sys
import threading
import time

TOP = pathlib.Path(__file__).resolve().parents[2]
sys.path.insert(0, str(TOP / "cases" / "server" / "clients"))
sys.dont_write_bytecode = True
os.environ.setdefault("DDSERVE", str(TOP / "crates" / "ddserve" / "out" / "ddserve"))

from client import PROGRAM, Server, full_deal, more_descriptors  # noqa: E402

less = int(sys.argv[1]) if len(sys.argv) > 1 else 1
rng = random.Random(3801)


def solve(lines, workers=1):
    """The replies to lines, the program's processor seconds, and its most memory in MB. It is looked at while it waits for more."""

    def send():
        process.stdin.write("".join(f"{it}\n" for it in lines))
        process.stdin.flush()

    process = subprocess.Popen([PROGRAM, "solve", "--workers", str(workers)], stdin=subprocess.PIPE, stdout=subprocess.PIPE, text=True)
    # Beside the reading: neither of the two pipes holds all lines.
    sender = threading.Thread(target=send)
    sender.start()
    replies = [process.stdout.readline().rstrip("\n") for _ in lines]
    sender.join()
    with open(f"/proc/{process.pid}/stat") as stat, open(f"/proc/{process.pid}/status") as status:
        seconds = sum(map(int, stat.read().rpartition(") ")[2].split()[11:13])) / os.sysconf("SC_CLK_TCK")
        memory = int(re.search(r"VmHWM:\s+(\d+) kB", status.read())[1]) / 1024
    process.stdin.close()
    process.wait()
    if not all(replies) or any("fault" in it for it in replies):
        sys.exit("bench/scale: not each line has its answer")
    return replies, seconds, memory


def line(**fields):
    return json.dumps(fields, separators=(",", ":"))


def all_cards(count, solutions):
    return [line(do="solve", deal=full_deal(rng), trump=number % 5, first=number % 4, solutions=solutions) for number in range(count)]


def with_best_as_target(lines):
    """The same lines, asked for a card that takes as many tricks as the best."""
    best = [json.loads(reply)["cards"][0]["score"] for reply in solve(lines)[0]]
    return [f'{it[:-1]},"target":{score}}}' for it, score in zip(lines, best)]


def plays(count):
    told = subprocess.run([sys.executable, TOP / "bench/tools/plays.py", PROGRAM, str(count), "--seed", "3802"], capture_output=True, text=True, check=True)
    return told.stdout.splitlines()


def positions(play):
    """A line for each card of a play, as a page asks for what could have been played."""
    asked = json.loads(play)
    hands = [[set(suit) for suit in hand.split(".")] for hand in asked["deal"][2:].split()]
    first, trick = asked["first"], []
    for suit, rank in asked["cards"]:
        deal = "N:" + " ".join(".".join("".join(sorted(suit, key="AKQJT98765432".index)) for suit in hand) for hand in hands)
        yield line(do="solve", deal=deal, trump=asked["trump"], first=first, played=trick, solutions=3)
        hands[(first + len(trick)) % 4][suit].remove("..23456789TJQKA"[rank])
        trick.append([suit, rank])
        if len(trick) == 4:
            led, trump = trick[0][0], asked["trump"]
            first = (first + max(range(4), key=lambda at: (trick[at][0] == trump, trick[at][0] == led, trick[at][1]))) % 4
            trick = []


def kinds():
    one_best = all_cards(400 // less, 1)
    played = plays(60 // less)
    tables = [line(do="table", deal=full_deal(rng)) for _ in range(60 // less)]
    results = [json.loads(reply)["table"] for reply in solve(tables)[0]]
    return [
        ("all leads of a deal", all_cards(400 // less, 3)),
        ("one best lead", one_best),
        ("a lead that takes as many tricks as the best", with_best_as_target(one_best)),
        ("the twenty results of a deal", tables),
        ("a play of 52 cards", played),
        ("each position of such a play, all cards", [it for play in played for it in positions(play)]),
        ("par of twenty results", [line(do="par", table=table, dealer=0, vulnerable=0) for table in results * 400]),
    ]


print(f"load {os.getloadavg()[0]:.1f}\nkind, requests, processor milliseconds each, requests a second of a processor, most MB")
asked = kinds()
for name, lines in asked:
    _, seconds, memory = solve(lines)
    print(f"{name}, {len(lines)}, {1000 * seconds / len(lines):.3g}, {len(lines) / seconds:.3g}, {memory:.0f}", flush=True)
print("workers, most MB after the twenty results of deals")
for workers in (1, 2, 4, 8):
    print(f"{workers}, {solve(asked[3][1], workers)[2]:.0f}", flush=True)
most = more_descriptors() - 100
for options in ((), ("--websocket",)):
    print(f"connections {' '.join(options)}, resident MB, threads, seconds to open them all")
    server, held, start = Server(*options, workers=4, descriptors=most), [], time.perf_counter()
    for count in (1, 1_000, 4_000, 10_000):
        while len(held) < min(count, most - 10):
            stream = server.stream()
            held.append(stream)
            if options:
                stream.sendall(
                    b"GET / HTTP/1.1\r\nHost: bench\r\nUpgrade: websocket\r\nConnection: Upgrade\r\nSec-WebSocket-Version: 13\r\n"
                    b"Sec-WebSocket-Key: AAAAAAAAAAAAAAAAAAAAAA==\r\n\r\n"
                )
            else:
                stream.sendall(b"?\n")
            if not stream.recv(4096):
                sys.exit("bench/scale: a connection is refused")
        print(f"{len(held)}, {server.resident():.0f}, {len(server.threads())}, {time.perf_counter() - start:.1f}", flush=True)
    server.process.kill()
    for stream in held:
        stream.close()
