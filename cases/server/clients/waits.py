"""Clients whose replies wait for the end of their jobs. Words: which of `round_trip`, `time_over`, `crowd`, `herd`, `filled`, `stopped`,
`hangs` (all but the last, which takes a minute)."""
import random
import sys
import threading
import time
from client import CLOSING, ONE_CARD, ONE_CARD_REPLY, STOP, Server, check, done, fetch, full_deal, more_descriptors, number_of, recorded, state, waiting

CLIENTS = 200
JOBS_EACH = 10
SLEEPERS = 1_000
# The longest wait, and what a busy machine adds.
LONGEST, MORE = 60, 5


def round_trip():
    """A request and its answer in one line each: the submit, the claim, the finish and one fetch."""
    server = Server("--allow-stop", workers=1)
    with server.connect() as client:
        check("a request that waits", client.ask(waiting(ONE_CARD)), done(ONE_CARD_REPLY, 1))
        check("a wait of 0", client.ask(waiting(ONE_CARD, 0)), '{"job":2}')
        check("a fetch that waits", client.ask(waiting(fetch(2))), done(ONE_CARD_REPLY, 2))
        check("what has ended", client.ask(waiting(fetch(2))), done(ONE_CARD_REPLY, 2))
        check("another's job", client.ask(waiting(fetch(3))), '{"fault":16}')
        check("a wait in words", client.ask('{"do":"fetch","job":1,"wait":"1"}'), '{"fault":3}')
        check("a stop", client.ask(STOP), CLOSING)
    server.end_after(4 + 4 + 2 + 1)
    print("a round trip: one line, one reply, four events")


def time_over():
    """The one worker has a table to do: who waits for the job behind it is told when the time is over."""
    server = Server("--allow-stop", workers=1)
    with server.connect() as holder, server.connect() as client:
        request, expected = recorded("tables", 1)[0]
        check("a table", holder.ask(request), '{"job":1}')
        since = time.monotonic()
        reply = client.ask(waiting(ONE_CARD, 50))
        taken = time.monotonic() - since
        check("the time is over", reply in (state(2, "waiting"), state(2, "running"), done(ONE_CARD_REPLY, 2)), True)
        check(f"after {taken:.3f} s", reply == done(ONE_CARD_REPLY, 2) or 0.05 <= taken < 1, True)
        check("the table, awaited", holder.ask(waiting(fetch(1))), done(expected, 1))
        check("the job behind it", client.ask(waiting(fetch(2))), done(ONE_CARD_REPLY, 2))
        check("a stop", client.ask(STOP), CLOSING)
    server.end_after(1 + 40 + 1 + 2 + 2 + 1 + 1)
    print("a wait ends with its time")


def crowd():
    """Many clients at once, each request one line: four events a job, whatever the crowd."""
    server = Server("--allow-stop", workers=4)
    rows = recorded("small")
    failed = []

    def work(place):
        try:
            with server.connect() as client:
                for turn in range(JOBS_EACH):
                    request, expected = rows[(place * JOBS_EACH + turn) % len(rows)]
                    reply = client.ask(waiting(request))
                    job = reply.partition('"job":')[2].partition(",")[0]
                    check(request, reply, done(expected, job))
        except BaseException as fault:  # A check that fails, too.
            failed.append(repr(fault))

    threads = [threading.Thread(target=work, args=[place]) for place in range(CLIENTS)]
    for thread in threads:
        thread.start()
    for thread in threads:
        thread.join()
    check("the clients", failed, [])
    with server.connect() as client:
        check("a stop", client.ask(STOP), CLOSING)
    server.end_after(4 * CLIENTS * JOBS_EACH + 1)
    print(f"a crowd: {CLIENTS} clients with {JOBS_EACH} requests each, four events a request")


def herd():
    """The end of a job wakes who waits for it, and not all who wait: one bell for all would wake each of the sleepers that are left."""
    server = Server("--allow-stop", workers=1)
    holders = [server.connect() for _ in range(10)]
    clients = [server.connect() for _ in range(SLEEPERS)]
    # Who was never served comes first, in the order of the jobs: the one worker has these before it.
    for holder, (request, _) in zip(holders, recorded("full")[20:]):
        number_of(holder.ask(request))
    for client in clients:
        client.send(waiting(ONE_CARD))
    time.sleep(0.1)
    before = server.switches()
    for client in clients:
        check("an answer", client.line().partition(',"job"')[0] + "}", ONE_CARD_REPLY)
    each = (server.switches() - before) / SLEEPERS
    check(f"{each:.1f} times a thread waited for each job", each < 10, True)
    check("a stop", clients[0].ask(STOP), CLOSING)
    _, status, said = server.end()
    check("the end", (status, said), (0, ""))
    print(f"no herd: {SLEEPERS} clients wait at once, and for each end of a job threads of the program wait {each:.1f} times; with one bell for all it were {SLEEPERS // 2} times at least")


def table(drawn):
    """A table of a full deal that no other client asks for."""
    return f'{{"do":"table","deal":"{full_deal(drawn)}"}}'


def filled():
    """Another uses up all that is free. Who waits is told the end of its job, whose events were put by when it was taken."""
    events, drawn, crowd = 2_048, random.Random(3), 20
    server = Server("--allow-stop", "--events", str(events), workers=4)
    clients, filler = [server.connect() for _ in range(crowd)], server.connect()
    jobs = [number_of(client.ask(table(drawn))) for client in clients]
    for client, job in zip(clients, jobs):
        client.send(waiting(fetch(job)))
    time.sleep(0.1)
    since = time.monotonic()
    filler.send(*[fetch(0)] * events)
    # A table has 42 events, and a stop has one.
    free = events - 42 * crowd - 1
    replies = [filler.line() for _ in range(events)]
    check("what is free, as the filler finds it", replies.count('{"fault":16}'), free)
    check("the filler's replies", replies == ['{"fault":16}'] * free + ['{"fault":15}'] * (events - free), True)
    for client, job in zip(clients, jobs):
        told = client.line()
        check(f"who waited: {told}", told.startswith(f'{{"job":{job},"state":"done","table":[['), True)
    taken = time.monotonic() - since
    check("what was told once", clients[0].ask(fetch(jobs[0])), '{"fault":15}')
    check("a stop", filler.ask(STOP), CLOSING)
    check("the end", server.end(), (events, 0, ""))
    print(f"{crowd} clients that wait for a table are told its end, {taken:.2f} s after another began to use up all that was free")


def hangs():
    """A client that hangs up while its reply waits is noticed when the longest wait is over."""
    drawn = random.Random(4)
    server = Server("--allow-stop", workers=1)
    others, gone = [server.connect() for _ in range(12)], server.connect()
    for client in (*others, gone):
        client.send(*[table(drawn) for _ in range(64)])
        jobs = [number_of(client.line()) for _ in range(64)]
    # Counted once all are served: the program opens a descriptor of its own after it has told its address.
    there = server.descriptors()
    gone.send(waiting(fetch(jobs[-1])))
    time.sleep(0.1)
    since = time.monotonic()
    gone.close()
    while server.descriptors() >= there and time.monotonic() - since < LONGEST + MORE:
        time.sleep(0.1)
    taken = time.monotonic() - since
    check(f"who has hung up is noticed after {taken:.1f} s", taken < LONGEST + MORE, True)
    check("a stop", others[0].ask(STOP), CLOSING)
    _, status, said = server.end()
    check("the end", (status, said), (0, ""))
    print(f"who hangs up while it waits is noticed after {taken:.1f} s, and its descriptor is free")


def stopped():
    """A stop wakes who waits, and one who has hung up meanwhile holds nothing up."""
    server = Server("--allow-stop", workers=1)
    request = recorded("tables", 1)[0][0]
    clients = [server.connect() for _ in range(50)]
    for client in clients:
        client.send(waiting(fetch(number_of(client.ask(request)))))
    gone = server.connect()
    gone.send(waiting(request))
    gone.close()
    time.sleep(0.2)
    with server.connect() as stopper:
        since = time.monotonic()
        check("a stop", stopper.ask(STOP), CLOSING)
        for place, client in enumerate(clients):
            told = client.line()
            check("who waited", told in (state(place + 1, "waiting"), state(place + 1, "running")) or '"done"' in told, True)
            client.close()
    _, status, said = server.end()
    check("the end", (status, said), (0, ""))
    taken = time.monotonic() - since
    check(f"within {taken:.1f} s", taken < 15, True)
    print(f"a stop wakes {len(clients)} clients that wait; the program ended {taken:.1f} s after it")


more_descriptors()
kinds = {"round_trip": round_trip, "time_over": time_over, "crowd": crowd, "herd": herd, "filled": filled, "stopped": stopped, "hangs": hangs}
for kind in sys.argv[1:] or list(kinds)[:-1]:
    kinds[kind]()
