"""How long a client with one card waits beside others that want much. Words: `one`, `many`.

`one`: beside a client with 64 tables of full deals. `many`: beside 1,000 connections with 16 tables each, of which no two clients
have the same first ones, and whose events, 42 a table, are no more than three quarters of a run's: so all of them are of one run;
then all of these go. What is printed: the times of its requests, the program's memory, how many
descriptors it has."""
import random
import sys
import time
from client import CLOSING, ONE_CARD, ONE_CARD_REPLY, STOP, Server, check, done, fetch, full_deal, is_open, more_descriptors, number_of, waiting

WORKERS = 4
TABLES = 64
# How many tables each of the thousand has.
EACH = 16
CONNECTIONS = 1_000
# How many of its tables are a connection's own.
OWN = 4
# How often it asks beside one, and beside a thousand, where each time all others come before it.
REQUESTS, FEWER = 10, 3
# The seconds in which a request of one card is told, beside one client and beside a thousand.
SOON, LATER = 2.0, 60.0


def one_card(client):
    """The seconds of a request of one card."""
    since = time.monotonic()
    job = number_of(client.ask(ONE_CARD))
    reply = client.ask(waiting(fetch(job)))
    while is_open(reply, job):
        reply = client.ask(waiting(fetch(job)))
    check("a request of one card", reply, done(ONE_CARD_REPLY, job))
    return time.monotonic() - since


def shown(times):
    return f"{times[0]:.3f} s the first, {sorted(times)[len(times) // 2]:.3f} s by the median, {max(times):.3f} s at most"


def end(server, client):
    check("a stop", client.ask(STOP), CLOSING)
    _, status, said = server.end()
    check("the end", (status, said), (0, ""))


def tables(drawn, count):
    return [f'{{"do":"table","deal":"{full_deal(drawn)}"}}' for _ in range(count)]


def submit(client, lines):
    client.send(*lines)
    for _ in lines:
        number_of(client.line())


def one():
    server = Server("--allow-stop", workers=WORKERS)
    with server.connect() as holder, server.connect() as client:
        submit(holder, tables(random.Random(1), TABLES))
        times = [one_card(client) for _ in range(REQUESTS)]
        check(f"beside one client: {max(times):.3f} s", max(times) < SOON, True)
        end(server, client)
    print(f"fair: beside a client with {TABLES} tables {REQUESTS} requests of one card take {shown(times)}")


def many():
    server = Server("--allow-stop", workers=WORKERS)
    lines = tables(random.Random(2), OWN * CONNECTIONS)
    client, holders = server.connect(150), []
    since = time.monotonic()
    for place in range(CONNECTIONS):
        holders.append(server.connect())
        submit(holders[-1], [lines[(OWN * place + more) % len(lines)] for more in range(EACH)])
    submitted = time.monotonic() - since
    times = [one_card(client) for _ in range(FEWER)]
    memory, descriptors = server.resident(), server.descriptors()
    check(f"beside many clients: {max(times):.3f} s", max(times) < LATER, True)
    print(f"fair: beside {CONNECTIONS} connections with {EACH} tables each, submitted in {submitted:.1f} s, {FEWER} requests of one card take {shown(times)}; {memory:.0f} MB, {descriptors} descriptors", flush=True)
    since = time.monotonic()
    for holder in holders:
        holder.close()
    one_card(client)
    gone = time.monotonic() - since
    check(f"after many clients: {gone:.3f} s", gone < LATER, True)
    since = time.monotonic()
    end(server, client)
    print(f"fair: when they have gone a request of one card takes {gone:.3f} s; the program ends {time.monotonic() - since:.2f} s after a stop")


more_descriptors()
for word in sys.argv[1:] or ["one", "many"]:
    {"one": one, "many": many}[word]()
