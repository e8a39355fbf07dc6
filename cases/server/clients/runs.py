"""Runs that follow one another: small ones, with clients that connect anew when a submit is replied 15."""
import threading
import time
from client import CLOSING, ONE_CARD, ONE_CARD_REPLY, STOP, Server, check, done, fetch, is_event, is_open, number_of

EVENTS = 1_024
WORN = EVENTS - EVENTS // 4
CLIENTS = 4
# Room is kept for a table of each connection that has asked nothing yet.
TABLE = 42
JOBS_EACH = 1_500
WORKERS = 2
FULL = '{"fault":15}'


class Client:
    """A client that submits, fetches until the job is done, and connects anew at 15. It counts what it was replied.

    A run lasts some hundredths of a second. On a busy machine a client may be three runs behind: then its run is ended."""

    def __init__(self, server):
        self.server, self.events, self.jobs, self.anew, self.ended = server, 0, 0, 0, 0

    def ask(self, connection, line):
        try:
            reply = connection.ask(line)
        except ConnectionError:
            reply = None
        self.events += reply is not None and is_event(reply)
        return reply

    def again(self, connection, reply):
        """A new connection, where the reply was 15 or none."""
        self.ended += reply is None
        self.anew += reply == FULL
        connection.close()
        return self.server.connect()

    def work(self):
        connection = self.server.connect()
        while self.jobs < JOBS_EACH:
            reply = self.ask(connection, ONE_CARD)
            if reply in (FULL, None):
                # All its jobs were fetched.
                connection = self.again(connection, reply)
                continue
            job = number_of(reply)
            while is_open(reply := self.ask(connection, fetch(job)), job):
                time.sleep(0.001)
            if reply is None:
                connection = self.again(connection, reply)
                continue
            check(f"job {job}", reply, done(ONE_CARD_REPLY, job))
            self.jobs += 1
        connection.close()


def many():
    """Every event is a client's, a claim or a finish of a job, or of a run's end: its shut, and each worker's last claim."""
    server = Server("--allow-stop", "--events", str(EVENTS), workers=WORKERS)
    clients = [Client(server) for _ in range(CLIENTS)]
    failed = []

    def guarded(client):
        try:
            client.work()
        except SystemExit as end:
            failed.append(str(end.code))
        except Exception as fault:
            failed.append(repr(fault))

    since = time.monotonic()
    threads = [threading.Thread(target=guarded, args=[client], daemon=True) for client in clients]
    for thread in threads:
        thread.start()
    for thread in threads:
        thread.join()
    taken = time.monotonic() - since
    check("the clients", failed, [])
    with server.connect() as client:
        check("a stop", client.ask(STOP), CLOSING)
    runs, status, said = server.end_of_runs()
    check("the end", (status, said), (0, ""))
    jobs = CLIENTS * JOBS_EACH
    # The run that was stopped has the stop in place of a shut of its own.
    accounted = sum(client.events for client in clients) + 2 * jobs + len(runs) * (1 + WORKERS)
    # Of a client whose run was ended: the call that wasn't replied, and the claim, the finish and the cancel of its job.
    ended = sum(client.ended for client in clients)
    check(f"the events, {sum(runs)} beside {accounted}", accounted <= sum(runs) <= accounted + 4 * ended, True)
    # The last run to begin was not worn yet, perhaps; it need not be the last to end.
    left = WORN - TABLE * (CLIENTS - 1)
    check("worn runs", ([run for run in runs if run > EVENTS], sum(run < left for run in runs) <= 1), ([], True))
    check("each run is followed by another", len(runs) >= jobs * 4 // EVENTS, True)
    anew = sum(client.anew for client in clients)
    print(f"runs: {jobs} jobs in {taken:.0f} s by {len(runs)} runs of {EVENTS} events, {anew} times connected anew and {ended} times when the run had been ended, {sum(runs)} events accounted for")


def wear(client):
    """Uses up the run of the client by calls that make no job."""
    for _ in range(WORN):
        check("a fetch", client.ask(fetch(0)), '{"fault":16}')


def crowded():
    """Whoever stays in a worn run goes on there, until three runs are there and a fourth is to begin."""
    server = Server("--allow-stop", "--events", str(EVENTS), workers=1)
    stays = []
    for _ in range(3):
        client = server.connect()
        check("a submit", client.ask(ONE_CARD), '{"job":1}')
        client.until_done(1)
        wear(client)
        check("a submit to a worn run", client.ask(ONE_CARD), FULL)
        stays.append(client)
    for client in stays:
        check("its job", client.ask(fetch(1)), done(ONE_CARD_REPLY, 1))
    since = time.monotonic()
    fourth = server.connect()
    check("a submit to the fourth run", fourth.ask(ONE_CARD), '{"job":1}')
    taken = time.monotonic() - since
    check(f"the fourth run begins at once, after {taken:.2f} s", taken < 10, True)
    check("the first run has ended", stays[0].line(), None)
    check("the third goes on", stays[2].ask(fetch(1)), done(ONE_CARD_REPLY, 1))
    check("a stop", fourth.ask(STOP), CLOSING)
    check("the third run ends", stays[2].line(), None)
    runs, status, said = server.end_of_runs()
    check("the end", (len(runs), status, said), (4, 0, ""))
    print(f"runs: three are there, and the fourth begins within {taken:.2f} s")


many()
crowded()
