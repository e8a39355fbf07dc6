"""Clients by lines over TCP."""
import threading
from client import CLOSING, ONE_CARD, ONE_CARD_REPLY, STOP, Server, cancel, check, done, fetch, is_open, number_of, recorded, state

OPEN_JOBS = 64


def deal(text, **fields):
    """A request on this deal, with the first worked row's other fields where none is given."""
    shown = {"trump": "4", "first": "0", "solutions": "3", **fields}
    return f'{{"do":"solve","deal":"{text}",' + ",".join(f'"{name}":{value}' for name, value in shown.items()) + "}"


ACE = "N:A... K... Q... J..."
BAD_LINES = [
    (1, ["", "solve", "[1]", "7", ONE_CARD[:-1], "[" * 200 + "]" * 200, '{"a":' + "[" * 200 + "]" * 200 + "}"]),
    (2, [ONE_CARD + " " * (4_097 - len(ONE_CARD)), " " * 4_097, "x" * 300_000]),
    (3, ["{}", '{"do":"solved"}', deal(ACE, first="1.5"), deal(ACE, first="-1"), deal(ACE, color="1"), '{"do":"fetch"}', '{"do":"fetch","job":"1"}',
         '{"do":"table","deal":1}', '{"a":' + "[" * 100 + "]" * 100 + "}"]),
    (4, [deal("N:A.. K... Q... J..."), deal(""), deal("N:A... K... Q..."), '{"do":"table","deal":"N"}']),
    (5, [deal("N:A... - Q... J...")]),
    (6, [deal("N:AA... K2... Q3... J4..."), deal("N:A... K... Q... ...", first="3", played="[[0,14]]")]),
    (7, [deal("N:A2... K... Q... J..."), deal("N:... ... ... ...", played="[[0,14]]"), '{"do":"table","deal":"N:A2... K... Q... J..."}']),
    (8, [deal("N:... ... ... ..."), '{"do":"table","deal":"N:... ... ... ..."}']),
    (9, [deal(ACE, trump="5")]),
    (10, [deal(ACE, first="4")]),
    (11, [deal(ACE, played="[[4,2]]"), deal(ACE, played="[[0,15]]"), deal(ACE, played="[[0,2],[0,3],[0,4],[0,5]]")]),
    (12, [deal(ACE, solutions="4"), deal(ACE, solutions="0"), deal(ACE, target="1"), deal(ACE, target="14")]),
    (27, [deal(ACE, solutions="1", target="14"), deal("N:A2... K... Q... J...", solutions="2", target="14")]),
    (16, [fetch(0), cancel(0), fetch(1), cancel(18_446_744_073_709_551_615)]),
]


def one_job():
    """A job from its submit to the end of the program, with every event named."""
    server = Server("--allow-stop", workers=1)
    client = server.connect()
    check("a submit", client.ask(ONE_CARD), '{"job":1}')
    reply, fetches = client.until_done(1)
    check("the answer", reply, done(ONE_CARD_REPLY, 1))
    check("a stop", client.ask(STOP), CLOSING)
    client.close()
    # The submit, the claim, the finish, the fetches and the shut.
    server.end_after(3 + fetches + 1)
    print(f"one job: submitted, {fetches} times fetched, answered, and the program ends with {5 + fetches} events")


def held_worker():
    """While the one worker has a table to do, the jobs behind it wait: they are cancelled, ended, too many."""
    server = Server("--allow-stop", workers=1)
    holder, client = server.connect(), server.connect()
    request, expected = recorded("tables", 1)[0]
    check("a table", holder.ask(request), '{"job":1}')
    events = 1
    session = [
        (fetch(0), '{"fault":16}'), (ONE_CARD, '{"job":2}'), (fetch(2), state(2, "waiting")), (cancel(2), state(2, "cancelled")),
        (cancel(2), '{"fault":17}'), (fetch(2), state(2, "cancelled")), (fetch(1), '{"fault":16}'), (cancel(1), '{"fault":16}'),
    ]
    for line, reply in session:
        check(line, client.ask(line), reply)
    # The cancelled job isn't open: 64 more may be.
    client.send(*[ONE_CARD] * (OPEN_JOBS + 2))
    check("open jobs", [client.line() for _ in range(OPEN_JOBS + 2)], [f'{{"job":{3 + place}}}' for place in range(OPEN_JOBS)] + ['{"fault":13}'] * 2)
    client.send(*[cancel(3 + place) for place in range(OPEN_JOBS)])
    check("their cancels", [client.line() for _ in range(OPEN_JOBS)], [state(3 + place, "cancelled") for place in range(OPEN_JOBS)])
    events += len(session) + 2 * OPEN_JOBS + 2
    # Between two of its parts it waits.
    check("the table is still open", is_open(holder.ask(fetch(1)), 1), True)
    reply, fetches = holder.until_done(1)
    check("its results", reply, done(expected, 1))
    events += 1 + fetches + 40
    # A shut book: what has come in one piece with the stop is answered.
    client.send(STOP, ONE_CARD, fetch(2), STOP)
    check("a stop and more", client.lines(), [CLOSING, '{"fault":18}', state(2, "cancelled"), CLOSING])
    holder.close(), client.close()
    server.end_after(events + 4)
    print("a held worker: waiting, cancelled, ended and too many jobs, and a shut book")


def bad_lines():
    server = Server("--allow-stop", workers=1)
    with server.connect() as other:
        check("another's job", other.ask(ONE_CARD), '{"job":1}')
        reply, fetches = other.until_done(1)
        check("its answer", reply, done(ONE_CARD_REPLY, 1))
    events = 3 + fetches
    client = server.connect()
    rows = [(line, f'{{"fault":{number}}}') for number, lines in BAD_LINES for line in lines]
    for line, reply in rows:
        check(line[:200], client.ask(line), reply)
    # All of them at once, again and again: one reply each, in order.
    sender = threading.Thread(target=client.send, args=[line for line, _ in rows] * 20)
    sender.start()
    check("all at once", [client.line() for _ in rows * 20], [reply for _, reply in rows] * 20)
    sender.join()
    # Of these only the unknown jobs are the book's matter.
    events += 21 * len(BAD_LINES[-1][1])
    client.stream.sendall(ONE_CARD.replace("N:A", "N:\xff").encode("latin-1") + b"\n")
    check("no UTF-8", client.line(), '{"fault":1}')
    check("a stop", client.ask(STOP), CLOSING)
    client.close()
    server.end_after(events + 1)
    print(f"bad lines: {len(rows) + 1} with their faults, one by one and all at once")


def line_ends():
    server = Server("--allow-stop", workers=1)
    left = 0
    for text, wanted in [
        (ONE_CARD + "\r\n", ["job"]), (ONE_CARD, ["job"]), (ONE_CARD + " " * (4_096 - len(ONE_CARD)) + "\n", ["job"]), ("", []), ("\n", ["1"]), ("\n\n", ["1", "1"]),
        ('{"do":"sol', ["1"]), (" " * 4_097, ["2"]), (" " * 5_000 + "\n" + ONE_CARD, ["2", "job"]), ("\r\n" + ONE_CARD, ["1", "job"]), (ONE_CARD + "\n\n", ["job", "1"]),
    ]:
        with server.connect() as client:
            client.stream.sendall(text.encode())
            client.finish()
            replies = client.lines()
            check(f"{text[:100]!r}", ["job" if reply.startswith('{"job"') else reply[len('{"fault":'):-1] for reply in replies], wanted)
            left += wanted.count("job")
    with server.connect() as client:
        for byte in ONE_CARD.encode():
            client.stream.sendall(bytes([byte]))
        job = number_of(client.ask(""))
        reply, fetches = client.until_done(job)
        check("a line in single bytes", reply, done(ONE_CARD_REPLY, job))
        check("a stop", client.ask(STOP), CLOSING)
    # A job that its connection left was done before, or is cancelled, and then a worker may have had it.
    server.end_between(2 * left + 3 + fetches + 1, 4 * left + 3 + fetches + 1)
    print("line ends: CR LF, none at the end of the stream, empty lines, 4,096 bytes, single bytes")


class Work:
    """Recorded positions as jobs of one client, 64 in flight."""

    def __init__(self, server, rows):
        self.client, self.rows, self.events, self.failed = server.connect(), rows, 0, None

    def run(self):
        try:
            for place in range(0, len(self.rows), OPEN_JOBS):
                self.work_off(self.rows[place:place + OPEN_JOBS])
        except SystemExit as end:
            self.failed = end.code
        finally:
            self.client.close()

    def work_off(self, rows):
        self.client.send(*[request for request, _ in rows])
        jobs = [(number_of(self.client.line()), request, expected) for request, expected in rows]
        for job, request, expected in jobs:
            reply, fetches = self.client.until_done(job)
            check(request, reply, done(expected, job))
            self.events += 1 + fetches + 2 * (20 if "table" in request else 1)


def recorded_jobs(title, rows, clients, workers):
    server = Server("--allow-stop", workers=workers)
    works = [Work(server, rows[part::clients]) for part in range(clients)]
    threads = [threading.Thread(target=work.run) for work in works]
    for thread in threads:
        thread.start()
    for thread in threads:
        thread.join()
    for work in works:
        check(title, work.failed, None)
    with server.connect() as client:
        check("a stop", client.ask(STOP), CLOSING)
    events = sum(work.events for work in works)
    server.end_after(events + 1)
    print(f"{title}: {len(rows)} jobs of {clients} clients by {workers} workers, each answer as recorded, {events + 1 + workers} events, each accounted for")


one_job()
held_worker()
bad_lines()
line_ends()
recorded_jobs("small", recorded("small"), 1, 1)
recorded_jobs("small and full", recorded("small") + recorded("full", 8), 4, 4)
recorded_jobs("tables", recorded("tables", 4), 2, 4)
recorded_jobs("targets", recorded("targets"), 4, 4)
