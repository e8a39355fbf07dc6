"""A stranger uses up all that is free while 64 clients have a table open each, with runs of 4,096 events. The events of a job are put
by when it is taken: so no client is told 15 for its wait, nor for the first fetch after its job has ended, and each cancel of an
open job is taken. Of as many clients 13,023 fetches were told 15 before."""
import random
import threading
from client import CLOSING, STOP, Server, cancel, check, fetch, full_deal, more_descriptors, number_of, state, waiting

EVENTS, CLIENTS, WORKERS = 4_096, 64, 4
# The submit of a table, a claim and a finish of each of its parts, and a fetch.
OF_A_TABLE = 42
# What is left when each client has asked for its table, but for a stop.
FREE = EVENTS - OF_A_TABLE * CLIENTS - 1
PIECE = 1_000
HEALTH = '{"do":"health"}'


class Stranger:
    """Takes each event that is free, until the others are through: how many it took, and how often it was told 15."""

    def __init__(self, client):
        self.client, self.took, self.refused, self.failed, self.over = client, 0, 0, [], threading.Event()

    def piece(self):
        self.client.send(*[fetch(0)] * PIECE)
        replies = [self.client.line() for _ in range(PIECE)]
        took, refused = replies.count('{"fault":16}'), replies.count('{"fault":15}')
        check("a stranger's fetches", took + refused, PIECE)
        self.took, self.refused = self.took + took, self.refused + refused

    def run(self):
        try:
            while not self.over.is_set():
                self.piece()
        except SystemExit as end:
            self.failed.append(str(end.code))
        except Exception as fault:
            self.failed.append(repr(fault))


def is_table(reply, job):
    return (reply or "").startswith(f'{{"job":{job},"state":"done","table":[[')


def all_ended(client):
    """Asks how the run is until no job is open. That takes no event."""
    while '"jobs":0,' not in client.ask(HEALTH):
        pass


def kept():
    server, drawn = Server("--allow-stop", "--events", str(EVENTS), workers=WORKERS), random.Random(60)
    clients, stranger = [server.connect(150) for _ in range(CLIENTS)], Stranger(server.connect(150))
    jobs = [number_of(client.ask(f'{{"do":"table","deal":"{full_deal(drawn)}"}}')) for client in clients]
    waits, cancels, fetches = [list(zip(clients, jobs))[place::3] for place in range(3)]
    for client, job in waits:
        client.send(waiting(fetch(job)))
    for _ in range(-(-FREE // PIECE)):
        stranger.piece()
    check("what is free, as the stranger finds it", stranger.took, FREE)
    thread = threading.Thread(target=stranger.run, daemon=True)
    thread.start()
    for client, job in cancels:
        check("a cancel of an open job", client.ask(cancel(job)), state(job, "cancelled"))
    for client, job in waits:
        reply = client.line()
        check(f"who waited was told: {reply}", is_table(reply, job), True)
    all_ended(clients[0])
    for client, job in fetches:
        reply = client.ask(fetch(job))
        check(f"the first fetch of what has ended: {reply}", is_table(reply, job), True)
    stranger.over.set()
    thread.join()
    check("the stranger", stranger.failed, [])
    check("a stop", stranger.client.ask(STOP), CLOSING)
    runs, status, said = server.end_of_runs()
    check("the end", (len(runs), max(runs) <= EVENTS, status, said), (1, True, 0, ""))
    print(f"kept: a stranger took {stranger.took} events and was told 15 {stranger.refused} times; {len(waits)} clients that waited and {len(fetches)} that fetched once were told their tables, and {len(cancels)} cancels were taken; {runs[0]} events")


more_descriptors()
kept()
