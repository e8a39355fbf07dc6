"""Checks of a proxy: plain connections, and lines that ask how the run is. 70,000 of them use up no run, of which 65,536 connections
that ask for something would."""
import json
import random
import threading
import time
from client import CLOSING, ONE_CARD, ONE_CARD_REPLY, STOP, Frames, Server, check, done, fetch, full_deal, more_descriptors, number_of

HEALTH = '{"do":"health"}'
CONNECTIONS = 70_000
THREADS = 8
# Each so many plain connections one asks.
ASKS_EACH = 100
SILENT = 500
# Enough for a table of each of 64 connections that have asked nothing, beside the last quarter.
EVENTS = 4_096
WORN = EVENTS - EVENTS // 4
# Each has 42 events put by, which leaves the others of three quarters free.
TABLES = 24


def health(events_left, jobs, workers):
    return f'{{"events_left":{events_left},"jobs":{jobs},"workers":{workers}}}'


def table(drawn):
    return f'{{"do":"table","deal":"{full_deal(drawn)}"}}'


def many():
    """Plain connections and lines of health make no event and use up no run, while silent ones stay open."""
    server = Server("--allow-stop", "--events", str(EVENTS), workers=2)
    silent = [server.stream() for _ in range(SILENT)]
    fresh = health(EVENTS, 0, 2)
    odd = []

    def come_and_go(count):
        for place in range(count):
            if place % ASKS_EACH:
                server.stream().close()
                continue
            with server.connect() as client:
                reply = client.ask(HEALTH)
                if reply != fresh:
                    odd.append(reply)

    since = time.monotonic()
    threads = [threading.Thread(target=come_and_go, args=[CONNECTIONS // THREADS]) for _ in range(THREADS)]
    for thread in threads:
        thread.start()
    for thread in threads:
        thread.join()
    taken = time.monotonic() - since
    check("what those are told who ask between", odd, [])
    with server.connect() as client:
        check("before a job", client.ask(HEALTH), fresh)
        check("the first job of the run", client.ask(ONE_CARD), '{"job":1}')
        reply, fetches = client.until_done(1)
        check("its answer", reply, done(ONE_CARD_REPLY, 1))
        # The submit, the fetches, a claim and a finish.
        check("after it", client.ask(HEALTH), health(EVENTS - fetches - 3, 0, 2))
        check("a line with more", client.ask('{"do":"health","job":1}'), '{"fault":3}')
        check("a stop", client.ask(STOP), CLOSING)
    server.end_after(fetches + 4)
    for stream in silent:
        stream.close()
    print(f"health: {CONNECTIONS} connections in {taken:.0f} s, of which {CONNECTIONS // ASKS_EACH} asked, beside {SILENT} silent ones: no event, and no run used up")


def of_its_run():
    """The jobs and the events are those of the run that the connection belongs to."""
    server = Server("--allow-stop", "--events", str(EVENTS), workers=1)
    drawn = random.Random(7)
    first = server.connect()
    for _ in range(TABLES):
        number_of(first.ask(table(drawn)))
    first.send(*[fetch(0)] * WORN)
    check("the fetches", {first.line() for _ in range(WORN)}, {'{"fault":16}'})
    told = json.loads(first.ask(HEALTH))
    check(f"open jobs of the first run: {told}", 0 < told["jobs"] <= TABLES, True)
    check(f"its events: {told}", told["events_left"] <= EVENTS - WORN - TABLES, True)
    with server.connect() as second:
        check("the second run", second.ask(HEALTH), health(EVENTS, 0, 1))
        check("a submit there", second.ask(ONE_CARD), '{"job":1}')
        check("a stop", second.ask(STOP), CLOSING)
    runs, status, said = server.end_of_runs()
    check("the end", (len(runs), status, said), (2, 0, ""))
    print(f"health: {told['jobs']} jobs are open in one run, and none in the next")


def by_messages():
    """The same over a WebSocket."""
    server = Server("--allow-stop", "--events", str(EVENTS), "--websocket", workers=1)
    for _ in range(EVENTS):
        client = Frames(server.stream())
        check("by a message", client.ask(HEALTH), health(EVENTS, 0, 1))
        client.close()
    client = Frames(server.stream())
    check("a stop", client.ask(STOP), CLOSING)
    server.end_after(1)
    print(f"health: {EVENTS} messages, each over a WebSocket of its own")


more_descriptors()
many()
of_its_run()
by_messages()
