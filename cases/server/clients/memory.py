"""Memory that is refused to a server, by `cases/tools/refuse.c`, which is built here (a C compiler is needed). Words: which of
`once`, `start`, `worker`, `stop`, `away`, `lost` and `idle` (all).

Each of the first 320 allocations is refused once, and then with the next one, so that a call which asks for memory a second time
has none: a client's job is done, or the client is told (19, the number of a job whose fetch was refused, or the end of its
connection) and asks anew; a stop ends the program; and a program that can't go on says so, with status 1. Each ends within 15
seconds. Memory that stays out from the start, or for a worker, ends the program with status 1.
Where no list can grow any more, a client that is told 19 stops the program all the same.

`away`: with jobs open every allocation is refused for ten seconds, and then each is given again. Meanwhile a client on an old
connection is told 19 each time (over a WebSocket its connection ends), a new connection ends or is told 19, one that leaves
leaves, and one that waits waits. Then the server goes on: each job that was taken is done and right, or cancelled where its client
has left, the old connection and a new one are served, and a stop ends the program within 15 seconds.
`lost`: memory is never given again. With jobs open the program ends by itself, with status 1: who waits is told 19, the number of
its job, its state or its answer, each other one by the end of its connection. Without an open job it goes on to say 19, to a stop
too, and a signal ends it.
Where memory goes out when a stop was taken, the program ends within 15 seconds too.
`idle`: memory is never given again, and of four workers one has a job; then of two runs the later one has a job. The program ends
as soon as where all workers have one: when this gives up, the others find no memory for their last claim, and wait for none."""
import concurrent.futures
import contextlib
import os
import re
import signal
import socket
import subprocess
import sys
import tempfile
import time
from client import CASES, CLOSING, ONE_CARD, ONE_CARD_REPLY, PROGRAM, STOP, Lines, Messages, check, done, fetch, is_event, is_open, number_of, recorded, waiting

ALLOCATIONS, STARTS = 320, 170
# For how many seconds memory is away, and within how many a program ends after a stop, a signal, or when memory is lost.
AWAY, SOON = 10, 15
# So many tables are open when memory goes, of one who stays and of one who leaves; and the events of a table that is searched whole.
TABLES, LEFT, WHOLE = 6, 2, 40
# The least that the events of a run may be, and how many of them are made so that it is used up.
EVENTS, USED = 1_024, 768
SHIM = os.path.join(CASES, "tools", "refuse.c")
OUT, SHORT = "ddserve: out of memory\n", "ddserve: memory is short: a worker waits for it\n"
HEALTH = '{"do":"health"}'
WAITS = ONE_CARD[:-1] + ',"wait":5000}'


def connect(port, websocket=False, timeout=20):
    return (Messages if websocket else Lines)(socket.create_connection(("127.0.0.1", port), timeout=timeout))


def asked(port, line, websocket=False):
    """The reply on a connection of its own, None where that isn't taken or ends without one."""
    try:
        with connect(port, websocket) as client:
            return client.ask(line)
    except OSError:
        return None


def served(port):
    """The reply to a fetch, None where the connection ends without one."""
    try:
        # Where no thread can be had for the worker, the program ends when that has waited ten seconds for its last claim.
        with connect(port, timeout=SOON) as client:
            return client.ask(fetch(1))
    except TimeoutError:
        return "no end"
    except OSError:
        return None


@contextlib.contextmanager
def start(shim, *options, workers=1, **environment):
    words = [PROGRAM, "serve", "--listen", "127.0.0.1:0", "--workers", str(workers), "--allow-stop", *options]
    environment = {**os.environ, "LD_PRELOAD": shim, **environment}
    process = subprocess.Popen(words, stdout=subprocess.PIPE, stderr=subprocess.PIPE, text=True, env=environment)
    # No program outlives a check that failed.
    try:
        yield process
    finally:
        process.kill()
        process.wait()


def port_of(process):
    found = re.match(r"listening on 127\.0\.0\.1:(\d+)\n", process.stdout.readline())
    return int(found[1]) if found else 0


def run(shim, refused, times):
    """What the program ended with, what it said, and whether a job was done and a stop obeyed."""
    with start(shim, REFUSED=str(refused), TIMES=str(times)) as process:
        try:
            port = port_of(process)
            # One try meets the refusal, and the next ones don't.
            done = any("done" in (asked(port, WAITS) or "") for _ in range(3)) if port else False
            stopped = any(asked(port, STOP) == CLOSING for _ in range(3)) if port else False
            _, said = process.communicate(timeout=15)
        except subprocess.TimeoutExpired:
            process.kill()
            return "no end", "", False, False
    return process.returncode, said, done, stopped


def once(shim, _):
    # A call's memory is asked for before the lock is, and where there is none, again under the lock: so a worker waits after two refusals.
    for times, waits in ((1, 0), (2, 1)):
        refuse(shim, times, waits)


def refuse(shim, times, waits):
    with concurrent.futures.ThreadPoolExecutor(4) as pool:
        ends = list(pool.map(lambda refused: run(shim, refused, times), range(1, ALLOCATIONS + 1)))
    for refused, (status, said, done, stopped) in enumerate(ends, 1):
        if status == 0:
            check(f"allocation {refused}", (said in ("", SHORT), done, stopped), (True, True, True))
        else:
            check(f"allocation {refused}", (status, said.removeprefix(SHORT)), (1, OUT))
    served, short = sum(end[0] == 0 for end in ends), sum(SHORT in end[1] for end in ends)
    check("runs that served, and workers that waited", (served > ALLOCATIONS // 2, short >= waits), (True, True))
    print(f"memory: of {ALLOCATIONS} allocations refused {times} at once {served} end no run, {short} of these a worker's; the others end it with status 1")


def end(process, least, most, said):
    """Checks that the program ends with status 1 after so many seconds, and has said this."""
    since = time.monotonic()
    try:
        _, errors = process.communicate(timeout=most)
    except subprocess.TimeoutExpired:
        process.kill()
        sys.exit(f"cases/server: without memory the program did not end within {most} seconds")
    taken = time.monotonic() - since
    check(f"the end after {taken:.1f} seconds", (process.returncode, errors, taken >= least), (1, said, True))
    return taken


def at_start(shim, _):
    """Memory is out from some allocation on, and stays out: the program ends and says so, or it serves: it ends a connection."""
    ended = 0
    for since in range(1, STARTS + 1):
        with start(shim, SINCE=str(since)) as process:
            port = port_of(process)
            try:
                _, said = process.communicate(timeout=0.2 if port else 15)
                check(f"memory is out from allocation {since} on", (process.returncode, said), (1, OUT))
                ended += 1
            except subprocess.TimeoutExpired:
                # The client is told 19, or its connection ends; no book was shut because memory ran out, and none waits for it.
                reply = served(port)
                check(f"memory is out from allocation {since} on: {reply}", port > 0 and reply in (None, '{"fault":16}', '{"fault":19}'), True)
    check("programs that end", 0 < ended, True)
    print(f"memory: where it stays out from one of the first {STARTS} allocations on {ended} programs say so and end, and the others answer or end a connection")


def for_worker(shim, folder):
    out = os.path.join(folder, "out")
    with start(shim, "--budget", "0", OUT=out) as process:
        client = connect(port_of(process))
        for request, _ in recorded("tables"):
            number_of(client.ask(request))
        open(out, "w").close()
        taken = end(process, 8, 25, SHORT + OUT)
        client.close()
    print(f"memory: a worker that finds none for so long ends the program, after {taken:.1f} seconds")


def stop(shim, folder):
    """A client fetches until its list of receipts can't grow."""
    out = os.path.join(folder, "out")
    with start(shim, OUT=out, LEAST="5000") as process:
        client = connect(port_of(process))
        check("a fetch", client.ask(fetch(1)), '{"fault":16}')
        open(out, "w").close()
        fetches = 1
        while (reply := client.ask(fetch(1))) == '{"fault":16}':
            fetches += 1
        check("a fetch that finds no memory", (reply, fetches < 100_000), ('{"fault":19}', True))
        check("the next one", client.ask(fetch(1)), '{"fault":19}')
        check("a stop", client.ask(STOP), CLOSING)
        told, said = process.communicate(timeout=15)
        # Each fetch, the shut, and the last claim of the worker.
        check("the end", (told, said, process.returncode), (f"closed after {fetches + 2} events\n", "", 0))
    print(f"memory: a client that is told 19 after {fetches} events stops the program")


class Clients:
    """Those who have jobs when memory goes out, each told of how many events were made."""

    def __init__(self, port, websocket):
        self.rows = recorded("tables", TABLES + 1)
        self.holder, self.waiter, self.leaver, self.asker = (connect(port, websocket, 90) for _ in range(4))
        self.jobs = [number_of(self.holder.ask(request)) for request, _ in self.rows[1:]]
        self.waiter.send(waiting(self.rows[0][0]))
        for request, _ in self.rows[:LEFT]:
            number_of(self.leaver.ask(request))
        check("a fetch", self.asker.ask(fetch(0)), '{"fault":16}')
        # The submits and that fetch.
        self.events = TABLES + 1 + LEFT + 1
        # The worker has begun, and who waits waits.
        time.sleep(0.2)

    def ask(self, client, line):
        """A reply, None where the connection has ended, of which a close frame may tell."""
        try:
            reply = client.ask(line)
        except OSError:
            return None
        if not isinstance(reply, str):
            return None
        self.events += is_event(reply)
        return reply

    def awaits(self, client, reply, expected):
        """A reply that waited is the answer, or its time was over, and then it is asked for again."""
        job = int(re.search(r'"job":(\d+)', reply)[1])
        while is_open(reply, job):
            reply = self.ask(client, waiting(fetch(job)))
        check(f"job {job}", reply, done(expected, job))

    def close(self):
        for client in (self.holder, self.waiter, self.asker):
            client.close()


def while_away(clients, port, websocket):
    """Old and new connections ask each tenth of a second, until the old one's submit is taken: what they were told before, and the
    job. Where its connection has ended it connects anew."""
    old, new, since, left = set(), set(), time.monotonic(), False
    while time.monotonic() < since + AWAY + SOON:
        if clients.asker is None:
            with contextlib.suppress(OSError):
                clients.asker = connect(port, websocket, 90)
        reply = clients.ask(clients.asker, ONE_CARD) if clients.asker else None
        if reply and reply.startswith('{"job":'):
            return old, new, number_of(reply), time.monotonic() - since
        old.add(reply)
        if reply is None:
            clients.asker = None
        told = asked(port, fetch(0), websocket)
        new.add(told if isinstance(told, str) else None)
        clients.events += told == '{"fault":16}'
        if not left:
            clients.leaver.close()
            left = True
        time.sleep(0.1)
    sys.exit(f"cases/server: memory is there again, and no submit is taken: {old} {new}")


def away_for(shim, out, websocket):
    name = "WebSockets" if websocket else "lines"
    with start(shim, "--budget", "0", *(["--websocket"] if websocket else []), workers=2, OUT=out, SECONDS=str(AWAY)) as process:
        port = port_of(process)
        clients = Clients(port, websocket)
        open(out, "w").close()
        old, new, job, taken = while_away(clients, port, websocket)
        check(f"memory was out for {taken:.1f} s", taken > AWAY - 1, True)
        check(f"what an old connection is told over {name}", old, {None} if websocket else {'{"fault":19}'})
        check(f"what new ones are told over {name}: {new}", new <= {None, '{"fault":16}', '{"fault":19}'}, True)
        clients.awaits(clients.asker, clients.ask(clients.asker, waiting(fetch(job))), ONE_CARD_REPLY)
        clients.awaits(clients.waiter, clients.waiter.line(), clients.rows[0][1])
        for number, (_, expected) in zip(clients.jobs, clients.rows[1:]):
            clients.awaits(clients.holder, clients.ask(clients.holder, waiting(fetch(number))), expected)
        # The fetch of who waited; of jobs that are done two events a part; the new connection's question.
        clients.events += 1 + WHOLE * (TABLES + 1) + 2 + 1 + 2
        with connect(port, websocket) as client:
            clients.awaits(client, clients.ask(client, waiting(ONE_CARD)), ONE_CARD_REPLY)
            while '"jobs":0,' not in client.ask(HEALTH):
                time.sleep(0.05)
        check("a stop", asked(port, STOP, websocket), CLOSING)
        clients.close()
        told, said = process.communicate(timeout=SOON)
    check("the end", (said, process.returncode), (SHORT, 0))
    # Besides the stop and the last claims: of those who left each job is cancelled before half of it is searched.
    rest = int(re.fullmatch(r"closed after (\d+) events\n", told)[1]) - clients.events - 1 - 2
    check(f"{rest} events of jobs that were left", LEFT <= rest <= LEFT * (1 + WHOLE // 2), True)
    print(f"memory: away for {AWAY} seconds, over {name}: {TABLES + 1} tables are done and right, old and new connections are served {taken:.1f} s later, and of {LEFT} tables that were left there are {rest} events more")


def away(shim, folder):
    for websocket in (False, True):
        away_for(shim, os.path.join(folder, f"out{websocket}"), websocket)


def lost_with_jobs(shim, out, websocket, workers):
    """The program ends by itself. Before, nobody can stop it but by a signal."""
    name = "WebSockets" if websocket else "lines"
    with start(shim, "--budget", "0", *(["--websocket"] if websocket else []), workers=workers, OUT=out) as process:
        port = port_of(process)
        clients, stopper = Clients(port, websocket), connect(port, websocket, 90)
        check("a fetch", stopper.ask(fetch(0)), '{"fault":16}')
        open(out, "w").close()
        since, told, new = time.monotonic(), [], set()
        stop_told = clients.ask(stopper, STOP)
        while process.poll() is None and time.monotonic() < since + 4 * SOON:
            told.append(clients.ask(clients.asker, ONE_CARD) if None not in told else None)
            reply = asked(port, fetch(0), websocket)
            new.add(reply if isinstance(reply, str) else None)
            time.sleep(0.1)
        taken = time.monotonic() - since
        check("the program has ended", process.poll(), 1)
        check("what is said", process.stderr.read(), SHORT + OUT)
        check(f"a stop: {stop_told}", stop_told in (None, '{"fault":19}'), True)
        check(f"an old connection: {set(told)}", set(told) <= {None, '{"fault":19}'}, True)
        check(f"new ones: {new}", new <= {None, '{"fault":16}', '{"fault":19}'}, True)
        waited = clients.waiter.line()
        job = int(re.search(r'"job":(\d+)', waited)[1]) if isinstance(waited, str) and "job" in waited else 0
        replies = (f'{{"job":{job}}}', done(clients.rows[0][1], job)) if job else ('{"fault":19}', None)
        check(f"who waits: {waited}", not isinstance(waited, str) or waited in replies or is_open(waited, job), True)
        held = clients.holder.line()
        check(f"who holds: {held}", isinstance(held, str), False)
    print(f"memory: lost with jobs open, over {name}, {workers} workers: the program ends after {taken:.1f} s; a stop is told {stop_told}, an old connection {sorted(map(str, set(told)))}, new ones {sorted(map(str, new))}, who waits {waited if isinstance(waited, str) else None}", flush=True)
    check(f"the end after {taken:.1f} s", taken < SOON, True)


def lost_without_jobs(shim, out):
    """Nothing waits for memory, so nothing ends: a signal ends the program."""
    with start(shim, workers=2, OUT=out) as process:
        port = port_of(process)
        client = connect(port)
        check("a fetch", client.ask(fetch(0)), '{"fault":16}')
        open(out, "w").close()
        for line in (ONE_CARD, waiting(ONE_CARD), fetch(0), STOP):
            check(line, client.ask(line), '{"fault":19}')
        time.sleep(AWAY + 1)
        check("a stop", (client.ask(STOP), asked(port, STOP), process.poll()), ('{"fault":19}', None, None))
        since = time.monotonic()
        process.send_signal(signal.SIGTERM)
        told, said = process.communicate(timeout=SOON)
        taken = time.monotonic() - since
        check("the end", (told, said, process.returncode), ("", "", -signal.SIGTERM))
        client.close()
    print(f"memory: lost without an open job: each line is told 19, a stop too; a signal ends the program {taken:.2f} s later")


def never_reads(port):
    """A client that sends lines, each of which is told what is wrong, until neither side takes more."""
    client = socket.socket()
    client.setsockopt(socket.SOL_SOCKET, socket.SO_RCVBUF, 4_096)
    client.connect(("127.0.0.1", port))
    client.setblocking(False)
    since = time.monotonic()
    while time.monotonic() - since < 0.5:
        try:
            client.send(b"{}\n" * 1_000)
            since = time.monotonic()
        except BlockingIOError:
            time.sleep(0.01)
    return client


def lost_after_stop(shim, out):
    """Memory is out when the run is closed: a client that reads nothing holds that up."""
    with start(shim, workers=2, OUT=out) as process:
        port = port_of(process)
        unread = never_reads(port)
        client = connect(port)
        number_of(client.ask(recorded("tables", 1)[0][0]))
        check("a stop", client.ask(STOP), CLOSING)
        open(out, "w").close()
        since = time.monotonic()
        told, said = process.communicate(timeout=4 * SOON)
        taken = time.monotonic() - since
        client.close()
        unread.close()
    print(f"memory: lost after a stop: the program ends {taken:.1f} s later with status {process.returncode}: {told!r} {said!r}", flush=True)
    check(f"the end after {taken:.1f} s", (process.returncode, said.removeprefix(SHORT), taken < SOON), (1, OUT, True))


def lost(shim, folder):
    places = iter(os.path.join(folder, f"out{number}") for number in range(9))
    lost_without_jobs(shim, next(places))
    lost_after_stop(shim, next(places))
    for websocket, workers in ((False, 1), (True, 1), (False, 4)):
        lost_with_jobs(shim, next(places), websocket, workers)


def use_up(client):
    """Makes the events by which a run takes no more jobs."""
    for _ in range(USED):
        check("a fetch", client.ask(fetch(1)), '{"fault":16}')
    check("a submit", client.ask(ONE_CARD), '{"fault":15}')


def idle_beside_one(shim, out, where, *options, prepare=lambda client: None):
    with start(shim, "--budget", "0", *options, workers=4, OUT=out) as process:
        port = port_of(process)
        before = connect(port, timeout=90)
        prepare(before)
        client = connect(port, timeout=90)
        number_of(client.ask(recorded("full", 1)[0][0]))
        open(out, "w").close()
        taken = end(process, 8, 4 * SOON, SHORT + OUT)
        before.close()
        client.close()
    print(f"memory: lost where {where}: the program ends after {taken:.1f} s", flush=True)
    check(f"the end after {taken:.1f} s", taken < SOON, True)


def idle(shim, folder):
    idle_beside_one(shim, os.path.join(folder, "out1"), "one of four workers has a job")
    idle_beside_one(shim, os.path.join(folder, "out2"), "a worker of the later of two runs has a job", "--events", str(EVENTS), prepare=use_up)


with tempfile.TemporaryDirectory() as folder:
    shim = os.path.join(folder, "shim.so")
    subprocess.run(["cc", "-O2", "-shared", "-fPIC", "-o", shim, SHIM], check=True)
    kinds = {"once": once, "start": at_start, "worker": for_worker, "stop": stop, "away": away, "lost": lost, "idle": idle}
    for kind in sys.argv[1:] or kinds:
        with tempfile.TemporaryDirectory() as place:
            kinds[kind](shim, place)
