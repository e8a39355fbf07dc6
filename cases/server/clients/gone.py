"""Clients that go: the jobs that they leave open are cancelled and their searches given up, and none of another's."""
import itertools
import json
import random
import socket
import struct
import threading
import time
from client import CLOSING, ONE_CARD, ONE_CARD_REPLY, STOP, Messages, Server, check, done, fetch, more_descriptors, number_of, recorded

CONNECTIONS = 200
WORKERS = 2
RANKS = "AKQJT98765432"
HEALTH = '{"do":"health"}'
# The seconds within which a job of one card is done.
SOON = 2.0


def tables(seed):
    """Requests for the tables of full deals, no two alike: a table that was asked before is done before its client has gone."""
    draw = random.Random(seed)
    pack = list(itertools.product(range(4), RANKS))
    while True:
        draw.shuffle(pack)
        hands = [sorted(pack[first:first + 13], key=lambda card: RANKS.index(card[1])) for first in range(0, 52, 13)]
        suits = [["".join(rank for suit, rank in hand if suit == which) for which in range(4)] for hand in hands]
        deal = "N:" + " ".join(".".join(hand) for hand in suits)
        yield json.dumps({"do": "table", "deal": deal}, separators=(",", ":"))


def one_card(client, since):
    """A job of one card is done soon; how many fetches it took."""
    job = number_of(client.ask(ONE_CARD))
    fetches = 0
    reply = None
    while reply != done(ONE_CARD_REPLY, job):
        reply = client.ask(fetch(job))
        fetches += 1
        taken = time.monotonic() - since
        check(f"a job of one card after {taken:.2f} s, {reply}", taken < SOON, True)
        time.sleep(0.001)
    return fetches


def settle(client):
    """Waits until no job is open: a session notices a little later that its client has gone."""
    since = time.monotonic()
    while json.loads(client.ask(HEALTH))["jobs"]:
        check("open jobs of clients that have gone", time.monotonic() - since < SOON, True)
        time.sleep(0.001)


def end(server, client, known, open_jobs):
    """Stops the program. Besides what is known each job that was left open has its cancel, and workers have claimed and finished."""
    settle(client)
    # A worker may still be in the search for a job that was cancelled, which it gives up within milliseconds. Stopped in it, the worker
    # would leave without its last claim.
    time.sleep(0.1)
    check("a stop", client.ask(STOP), CLOSING)
    client.close()
    events, status, said = server.end()
    check("the end", (status, said), (0, ""))
    rounds = events - server.workers - known - 1 - open_jobs
    check(f"{rounds} events of workers", rounds >= 0 and rounds % 2 == 0, True)
    return rounds // 2


def closed(websocket):
    """Clients submit tables of full deals and close. The next client needn't wait for them."""
    server = Server("--allow-stop", *(["--websocket"] if websocket else []), workers=WORKERS)
    connect = (lambda: Messages(server.stream())) if websocket else server.connect
    last = connect()
    for request in itertools.islice(tables(66), CONNECTIONS):
        client = connect()
        number_of(client.ask(request))
        client.close()
    since = time.monotonic()
    fetches = one_card(last, since)
    taken = time.monotonic() - since
    rounds = end(server, last, CONNECTIONS + 1 + fetches, CONNECTIONS)
    kind = "WebSockets" if websocket else "lines"
    print(f"closed {kind}: {CONNECTIONS} clients submit a table and close; a job of one card is done {taken:.3f} s later, after {rounds} rounds of workers")


def many_jobs():
    """Clients leave with as many jobs as they may have, by an end and by a reset, and before they have read a reply."""
    server = Server("--allow-stop", workers=WORKERS)
    requests = [request for request, _ in recorded("tables")]
    last = server.connect()
    for place in range(10):
        client = server.connect()
        client.send(*[requests[(place + more) % len(requests)] for more in range(64)])
        if place % 2:
            for _ in range(64):
                number_of(client.line())
        if place % 3:
            client.stream.setsockopt(socket.SOL_SOCKET, socket.SO_LINGER, struct.pack("ii", 1, 0))
        client.close()
    # Those who had not read may still be read.
    time.sleep(0.5)
    since = time.monotonic()
    one_card(last, since)
    taken = time.monotonic() - since
    check("a stop", last.ask(STOP), CLOSING)
    last.close()
    _, status, said = server.end()
    check("the end", (status, said), (0, ""))
    print(f"many jobs: ten clients with 64 tables each are gone; a job of one card is done {taken:.3f} s later")


def who_stays():
    """While others come and go, the job of one who stays is worked on to its end, and is right."""
    server = Server("--allow-stop", workers=WORKERS)
    request, reply_to_it = recorded("tables", 4)[3]
    over = threading.Event()
    left = []

    def come_and_go():
        requests = tables(67)
        while not over.is_set():
            with server.connect() as client:
                left.append(number_of(client.ask(next(requests))))

    with server.connect() as client:
        job = number_of(client.ask(request))
        others = threading.Thread(target=come_and_go)
        others.start()
        reply, fetches = client.until_done(job)
        check("the table of one who stays", reply, done(reply_to_it, job))
        since = time.monotonic()
        over.set()
        others.join()
        more = one_card(client, since)
        rounds = end(server, client, 1 + fetches + 1 + more + len(left), len(left))
    check("the rounds of its twenty parts", rounds >= 20, True)
    print(f"who stays: one table is done and right while {len(left)} clients come, submit a table and go")


more_descriptors()
closed(False)
closed(True)
many_jobs()
who_stays()
