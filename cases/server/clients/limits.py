"""What one run has: 65,536 connections, workers and the run's own pass among them, and 1,048,576 events."""
import sys
import threading
import time
from client import CLOSING, STOP, ONE_CARD, ONE_CARD_REPLY, Server, check, done, fetch, more_descriptors, number_of

PASSES = 65_536
EVENTS = 1_048_576
WORKERS = 2


def passes():
    """Past fifteen sixteenths of the passes the next connection begins the next run; one that is there goes on, and may stop the
    program."""
    server = Server("--allow-stop", workers=WORKERS)
    first = server.connect()
    check("the first", first.ask(fetch(0)), '{"fault":16}')
    since = time.monotonic()
    left = PASSES
    share = [left // 8 + (place < left % 8) for place in range(8)]
    odd = []

    def come_and_go(count):
        for _ in range(count):
            with server.connect() as client:
                reply = client.ask(fetch(0))
                if reply != '{"fault":16}':
                    odd.append(reply)

    threads = [threading.Thread(target=come_and_go, args=[count]) for count in share]
    for thread in threads:
        thread.start()
    for thread in threads:
        thread.join()
    check("those who come and go", odd, [])
    taken = time.monotonic() - since
    check("a submit of the first", first.ask(ONE_CARD), '{"fault":15}')
    check("the first", first.ask(fetch(0)), '{"fault":16}')
    check("a stop by the first", first.ask(STOP), '{"closing":true}')
    since = time.monotonic()
    runs, status, said = server.end_of_runs()
    # The run that was stopped has the stop, the other one a shut of its own.
    check("the end", (len(runs), sum(runs), status, said), (2, 2 + left + 2 + 2 * WORKERS, 0, ""))
    print(f"passes: {left + 1} connections in {taken:.0f} s by two runs, and the one that was there first stops the program, which ends within {time.monotonic() - since:.2f} s")


def events():
    """A journal without a free event: the fetch of a job that has ended, and a stop, have theirs, and each other line of the book's
    is refused; the workers leave; the next connection begins the next run."""
    server = Server("--allow-stop", workers=WORKERS)
    with server.connect() as client:
        check("a submit", client.ask(ONE_CARD), '{"job":1}')
        client.until_done(1)
    # Its job ends, and it is not told so before the journal is full.
    late = server.connect()
    job = number_of(late.ask(ONE_CARD))
    since = time.monotonic()
    full = [0] * 8
    clients = [server.connect() for _ in range(8)]

    def fill(place):
        client = clients[place]
        while not full[place]:
            client.send(*[fetch(0)] * 1_000)
            replies = [client.line() for _ in range(1_000)]
            full[place] = replies.count('{"fault":15}')
            # What is full stays full.
            check("the replies", replies, ['{"fault":16}'] * (1_000 - full[place]) + ['{"fault":15}'] * full[place])

    threads = [threading.Thread(target=fill, args=[place]) for place in range(8)]
    for thread in threads:
        thread.start()
    for thread in threads:
        thread.join()
    taken = time.monotonic() - since
    resident = server.resident()
    client = clients[0]
    check("a job that has ended", late.ask(fetch(job)), done(ONE_CARD_REPLY, job))
    for line in (ONE_CARD, fetch(0), fetch(job), f'{{"do":"cancel","job":{job}}}'):
        check(line, client.ask(line), '{"fault":15}')
        check(line, late.ask(line), '{"fault":15}')
    check("a bad line", client.ask("{}"), '{"fault":3}')
    with server.connect() as other:
        check("the next run", other.ask(ONE_CARD), '{"job":1}')
        other.until_done(1)
    check("a stop", client.ask(STOP), CLOSING)
    since = time.monotonic()
    runs, status, said = server.end_of_runs()
    check("the end", (len(runs), max(runs), status, said), (2, EVENTS, 0, ""))
    print(f"events: a journal of {EVENTS} has no free event after {taken:.0f} s, with {resident:.0f} MB; a job that has ended is told once, each other call is refused, another run takes new clients, and a stop ends the program within {time.monotonic() - since:.2f} s")


more_descriptors()
for kind in sys.argv[1:] or ["passes", "events"]:
    {"passes": passes, "events": events}[kind]()
