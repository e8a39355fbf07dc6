"""64 honest clients where runs are short: each connects, asks for a table of five cards a hand with a wait, and at 15 connects
anew and asks again, for 20 seconds with runs of at most 1,024, 2,048 and 4,096 events. Words: which of these numbers.

Who connects anew at 15 is served: no client is told 15 by two new connections in a row. No job that was taken is told 15, since its
events are put by. Less than one submit in a thousand is told 18, that the server is closing: the first of a connection, if it meets
the very end of its run. What is printed besides: how often a client was told 15 at all, how many jobs ended with their run, which
older runs do where a fourth is to begin, and how long a table took until it was told. What the answers are is asked elsewhere."""
import random
import re
import statistics
import sys
import threading
import time
from client import CLOSING, STOP, Server, check, deal, fetch, is_open, waiting

CLIENTS, SECONDS, WORKERS, CARDS = 64, 20, 4, 5
# The seconds that a client rests when a new connection has told it 15, and those of a wait, less a little.
REST, WAIT = 0.1, 59
USED, CLOSES = '{"fault":15}', '{"fault":18}'


class Tally:
    """What all clients were told."""

    def __init__(self):
        self.lock, self.times, self.failed = threading.Lock(), [], []
        self.used = self.twice = self.longest = self.lost = self.cut = self.closes = 0
        self.random = random.Random(50)

    def table(self):
        with self.lock:
            return f'{{"do":"table","deal":"{deal(self.random, CARDS)}"}}'


class Client:
    """A client, and how many new connections in a row have told it 15."""

    def __init__(self, server, tally):
        self.server, self.tally, self.connection, self.row = server, tally, None, 0

    def connects_anew(self):
        if self.connection:
            self.connection.close()
        self.connection = None

    def refused(self, is_new):
        """Told 15 in place of a job."""
        self.row = self.row + 1 if is_new else 0
        with self.tally.lock:
            self.tally.used += 1
            self.tally.twice += self.row > 1
            self.tally.longest = max(self.tally.longest, self.row)
        self.connects_anew()
        time.sleep(REST if is_new else 0)

    def lost(self):
        """A job was taken, and is told 15."""
        with self.tally.lock:
            self.tally.lost += 1
        self.connects_anew()

    def closes(self):
        """Told 18 in place of a job."""
        with self.tally.lock:
            self.tally.closes += 1
        self.connects_anew()

    def cut(self):
        """The run of the job has ended."""
        with self.tally.lock:
            self.tally.cut += 1
        self.connects_anew()

    def is_over(self, job):
        """Whether the run of the job has ended: it reads no more lines."""
        try:
            return self.connection.ask(fetch(job)) is None
        except ConnectionError:
            return True

    def once(self, request):
        """Asks once: the reply when the job has ended, or none where it has to ask again."""
        is_new = self.connection is None
        if is_new:
            self.connection = self.server.connect(150)
        since, reply = time.monotonic(), self.connection.ask(waiting(request))
        if reply == USED:
            return self.refused(is_new)
        if reply == CLOSES:
            return self.closes()
        self.row = 0
        found = re.search(r'"job":(\d+)', reply or "")
        job = int(found[1]) if found else 0
        # Where only the fetch was refused the number of the job is told.
        while reply and (is_open(reply, job) or reply == f'{{"job":{job}}}'):
            if time.monotonic() - since < WAIT:
                # Its run has ended, or its fetch was told 15.
                return self.cut() if is_open(reply, job) or self.is_over(job) else self.lost()
            since, reply = time.monotonic(), self.connection.ask(waiting(fetch(job)))
        if reply == USED:
            return self.lost()
        return reply or self.cut()

    def ask(self, request, until):
        since = time.monotonic()
        while time.monotonic() < until:
            answer = self.once(request)
            if answer:
                check(f"a table: {answer}", answer.startswith('{"job":') and '"state":"done","table":[[' in answer, True)
                with self.tally.lock:
                    self.tally.times.append(time.monotonic() - since)
                return


def work(server, tally, until):
    client = Client(server, tally)
    try:
        while time.monotonic() < until:
            client.ask(tally.table(), until)
    except SystemExit as end:
        tally.failed.append(str(end.code))
    except Exception as fault:
        tally.failed.append(repr(fault))
    client.connects_anew()


def short_runs(events):
    """How often two in a row were told 15, and how many jobs that were taken; and how many submits were told 18."""
    server, tally, until = Server("--allow-stop", "--events", str(events), workers=WORKERS), Tally(), time.monotonic() + SECONDS
    threads = [threading.Thread(target=work, args=[server, tally, until], daemon=True) for _ in range(CLIENTS)]
    for thread in threads:
        thread.start()
    for thread in threads:
        thread.join()
    check("the clients", tally.failed, [])
    with server.connect() as client:
        check("a stop", client.ask(STOP), CLOSING)
    runs, status, said = server.end_of_runs()
    check("the end", (max(runs) <= events, status, said), (True, 0, ""))
    times = f"{statistics.median(tally.times):.2f} s by the median, {max(tally.times):.2f} s at most" if tally.times else "none was told"
    print(f"anew: {CLIENTS} clients, runs of {events} events: two new connections in a row told a client 15 {tally.twice} times, {tally.longest} in a row at most; {tally.used} were told 15 in all, {tally.lost} jobs that were taken were, and {tally.cut} ended with their run; {tally.closes} were told 18; {len(tally.times)} tables: {times}; {len(runs)} runs", flush=True)
    return tally.twice, tally.lost, 1_000 * tally.closes >= len(tally.times)


odd = [short_runs(int(events)) for events in sys.argv[1:] or (1_024, 2_048, 4_096)]
check("two in a row that were told 15, jobs that were, and whether many submits were told 18", odd, [(0, 0, False)] * len(odd))
