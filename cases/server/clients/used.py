"""Runs whose events workers use up, or are to: the next connection is served by a run that follows, and each client is told the end
of each job that was taken."""
import random
import sys
import time
from client import CLOSING, ONE_CARD, ONE_CARD_REPLY, STOP, Server, check, done, fetch, more_descriptors, number_of

HEALTH = '{"do":"health"}'
SMALL = 1_024
# How many events a run has where nothing is asked for.
MOST = 1_048_576
# So many of these make the first client, and the others' jobs need more than what is left.
FETCHES = 650_000
OTHERS = 160
# The most jobs that a client may have open.
TABLES = 64
# The events of a table: its submit, a claim and a finish of each of its parts, and a fetch.
OF_A_TABLE = 42
# Of so many connections that have asked nothing yet a table is expected.
EXPECTED = 64
FULL = '{"fault":15}'
AT_ONCE = 1_000
CARDS = 7


def table(drawn):
    """A line for the twenty results of a deal of seven cards a hand."""
    ranks = "23456789TJQKA"
    pack = list(range(52))
    drawn.shuffle(pack)
    hands = [sorted(pack[CARDS * seat:CARDS * (seat + 1)], reverse=True) for seat in range(4)]
    texts = [".".join("".join(ranks[card % 13] for card in hand if card // 13 == suit) for suit in range(4)) for hand in hands]
    return f'{{"do":"table","deal":"N:{" ".join(texts)}"}}'


def taken(client, count):
    """Asks for so many tables: the jobs that were taken. What follows one that was refused is refused too."""
    replies = [client.line() for _ in range(count)]
    jobs = [number_of(reply) for reply in replies if reply != FULL]
    check("what was refused comes last", replies[len(jobs):], [FULL] * (count - len(jobs)))
    return jobs


def wait_until_done(client):
    """Until no job is open: the workers have made the events that were put by for them."""
    since = time.monotonic()
    while '"jobs":0,' not in (told := client.ask(HEALTH)):
        if time.monotonic() - since > 180:
            sys.exit(f"cases/server: jobs stay open: {told}")
        time.sleep(0.01)


def fetch_all(client, jobs):
    """Each of these jobs is told its end by one fetch."""
    client.send(*map(fetch, jobs))
    for job in jobs:
        reply = client.line()
        check(f"the first fetch of a table: {reply}", reply.startswith(f'{{"job":{job},"state":"done","table":[['), True)


def is_served(server, what):
    with server.connect() as client:
        told = client.ask(ONE_CARD)
        check(f"a submit {what}: {told}", told.startswith('{"job":'), True)
        job = number_of(told)
        check(f"its answer {what}", client.until_done(job)[0], done(ONE_CARD_REPLY, job))


def end(server, most):
    with server.connect() as client:
        check("a stop", client.ask(STOP), CLOSING)
    runs, status, said = server.end_of_runs()
    check("the end", (len(runs), max(runs) <= most, status, said), (2, True, 0, ""))


def by_one_client():
    server = Server("--allow-stop", "--events", str(SMALL), workers=2)
    drawn = random.Random(30)
    client = server.connect()
    client.send(*(table(drawn) for _ in range(30)))
    jobs = taken(client, 30)
    # One event is put by for a stop. A table is taken where more than a quarter of all is free.
    most = -(-(SMALL - 1 - SMALL // 4) // OF_A_TABLE)
    left = SMALL - 1 - most * OF_A_TABLE
    check("the tables that are taken", len(jobs), most)
    is_served(server, "beside who has the run's events put by")
    wait_until_done(client)
    is_served(server, "beside who used the run up")
    fetch_all(client, jobs)
    client.send(*[fetch(0)] * (left + 1))
    check("what is free", [client.line() for _ in range(left + 1)], ['{"fault":16}'] * left + [FULL])
    check("what was told once", client.ask(fetch(1)), FULL)
    client.close()
    is_served(server, "when it has gone")
    end(server, SMALL)
    print(f"used: of 30 tables {most} are taken by a run of {SMALL} events, and each is told; the next connection is served")


def by_many_clients():
    """As a stranger did it with default options: when the clients have had their replies the workers have not begun the last quarter."""
    more_descriptors()
    server = Server("--allow-stop", workers=4)
    drawn = random.Random(31)
    first = server.connect()
    for _ in range(FETCHES // AT_ONCE):
        first.send(*[fetch(0)] * AT_ONCE)
        for _ in range(AT_ONCE):
            first.line()
    others = [server.connect() for _ in range(OTHERS)]
    lines = [[table(drawn) for _ in range(TABLES)] for _ in others]
    for client, tables in zip(others, lines):
        client.send(*tables)
    jobs = [taken(client, TABLES) for client in others]
    count, room = sum(map(len, jobs)), (MOST - MOST // 4 - FETCHES - 1) // OF_A_TABLE
    # Beside who has asked nothing yet fewer are taken, and each client's first one always. A session may have one taken while others do.
    check(f"{count} tables, where {room} leave a quarter free", room - EXPECTED <= count <= room + 2 * OTHERS, True)
    check("clients with a table", sum(map(bool, jobs)), OTHERS)
    is_served(server, "beside many")
    wait_until_done(first)
    for client, numbers in zip(others, jobs):
        fetch_all(client, numbers)
    for client in [first, *others]:
        client.close()
    is_served(server, "when they have gone")
    end(server, MOST)
    print(f"used: {count} tables of {OTHERS} clients use up a run of {MOST} events, and each is told; the next connection is served")


def never_reads(server):
    """A client that sends blank lines, each of which is told why it is none, until neither side takes more."""
    client = server.stream()
    client.setblocking(False)
    lines = b"\n" * 10_000
    since = time.monotonic()
    while time.monotonic() - since < 0.5:
        try:
            client.send(lines)
            since = time.monotonic()
        except BlockingIOError:
            time.sleep(0.01)
    return client


def by_clients_that_never_read():
    """Three runs are used up, and none can end while its clients don't read: who comes then is served by the last of them soon, or
    told 15 soon where that has no room, and served by a fourth one soon after."""
    server = Server("--allow-stop", "--explain", "--events", str(SMALL), workers=1)
    held = []
    for _ in range(3):
        held.append(never_reads(server))
        client = server.connect()
        for _ in range(SMALL - SMALL // 4):
            check("a fetch", client.ask(fetch(0))[:11], '{"fault":16')
        held.append(client)
    longest, told = 0, []
    begin = time.monotonic()
    while told.count('{"job":1}') < 2:
        since = time.monotonic()
        with server.connect() as client:
            told.append(client.ask(ONE_CARD)[:11])
        longest = max(longest, time.monotonic() - since)
        if time.monotonic() - begin > 30:
            sys.exit(f"cases/server: no run follows: {told}")
        time.sleep(0.05)
    taken = time.monotonic() - begin
    served = [reply for reply in told if reply != '{"fault":15']
    check(f"who comes is told soon, after {longest:.1f} s at most", (longest < 2, served, told[len(served) - 1:-1]), (
        True, [*(f'{{"job":{number}}}' for number in range(1, len(served))), '{"job":1}'], ['{"fault":15'] * (len(told) - len(served))))
    with server.connect() as client:
        check("a stop", client.ask(STOP), CLOSING)
    runs, status, said = server.end_of_runs()
    check("the end", (len(runs), max(runs) <= SMALL, status, said), (4, True, 0, ""))
    print(f"used: while no run can end {len(served) - 1} who come are served and {len(told) - len(served)} told 15, within {longest:.1f} s, and another run follows after {taken:.0f} s")


by_one_client()
by_clients_that_never_read()
by_many_clients()
