"""How a run ends: by a stop, without leave to stop, by SIGTERM, and where it can't begin."""
import signal
import subprocess
import time
from client import CLOSING, ONE_CARD, ONE_CARD_REPLY, PROGRAM, STOP, Frames, Server, check, done, fetch, number_of, recorded, state

# No search for it ends at its first position.
TWO_CARDS = '{"do":"solve","deal":"N:32... K4... AQ... 65...","trump":4,"first":0,"solutions":3}'

# A second, and the time in which a busy machine lets a process end.
SOON = 1.0


def soon(what, since):
    taken = time.monotonic() - since
    check(f"{what}: {taken:.2f} seconds", taken < SOON, True)
    return taken


def silent_clients():
    """A stop while clients are silent, inside a line or a frame, or have shaken no hands."""
    for options, enter in [((), lambda stream: stream.sendall(b'{"do":"fe')), (("--websocket",), lambda stream: None)]:
        server = Server("--allow-stop", *options, workers=2)
        streams = [server.stream() for _ in range(20)]
        for stream in streams[:10]:
            enter(stream)
        stopper = Frames(server.stream()) if options else server.connect()
        check("a fetch", stopper.ask(fetch(1)), '{"fault":16}')
        since = time.monotonic()
        check("a stop", stopper.ask(STOP), CLOSING)
        server.end_after(1 + 1)
        taken = soon("silent clients", since)
        # Of a line without its end what stands is answered, for the stop ends the stream.
        check("their ends", [stream.recv(100) for stream in streams], [b'{"fault":1}\n' if not options else b""] * 10 + [b""] * 10)
        print(f"silent clients{' of WebSockets' if options else ''}: the program ends {taken:.3f} seconds after the stop")


def searches():
    """A stop while the workers search: the jobs wait again, so no worker claims once more."""
    server = Server("--allow-stop", workers=2)
    client = server.connect()
    rows = recorded("tables", 2)
    client.send(*[request for request, _ in rows])
    jobs = [number_of(client.line()) for _ in rows]
    asked = 0
    while client.ask(fetch(jobs[0])) != state(jobs[0], "running"):
        asked += 1
    since = time.monotonic()
    check("a stop", client.ask(STOP), CLOSING)
    events, status, said = server.end()
    taken = soon("searches", since)
    check("the end", (status, said), (0, ""))
    # Claims and finishes come in pairs: the submits, the fetches, the shut, and a last claim of a worker that had no search to
    # be stopped in.
    check("the events", events - (2 + asked + 1 + 1) >= 4, True)
    client.close()
    print(f"searches: the program ends {taken:.3f} seconds after the stop")


def received_before():
    """What was received before a stop is answered."""
    server = Server("--allow-stop", workers=1)
    client, stopper = server.connect(), server.connect()
    client.send(*[fetch(0)] * 2_000)
    time.sleep(0.5)
    check("a stop", stopper.ask(STOP), CLOSING)
    check("the replies", client.lines(), ['{"fault":16}'] * 2_000)
    server.end_after(2_000 + 1)
    print("what was received before a stop is answered")


def last_session():
    """The program ends when its last session has, also where that one sends on after the stop."""
    for _ in range(10):
        server = Server("--allow-stop", workers=4)
        clients = [server.connect() for _ in range(10)]
        jobs = [number_of(client.ask(ONE_CARD)) for client in clients]
        fetches = 0
        for client, job in zip(clients, jobs):
            reply, asked = client.until_done(job)
            check("an answer", reply, done(ONE_CARD_REPLY, job))
            fetches += asked
        # Five stop at once.
        for client in clients[:5]:
            client.send(STOP)
        replies = [client.lines() for client in clients]
        since = time.monotonic()
        check("who did not stop", replies[5:], [[]] * 5)
        check("who stopped", all(reply in ([CLOSING], []) for reply in replies[:5]), True)
        shuts = sum(len(reply) for reply in replies)
        for client in clients:
            client.close()
        server.end_after(3 * 10 + fetches + shuts)
        taken = soon("the last session", since)
    print(f"the last session: ten runs, five stops at once, the last of them ends within {taken:.3f} seconds")


def without_leave():
    """Without leave `stop` is an unknown `do`; SIGTERM ends the program at once, without a last line."""
    for options in ((), ("--websocket",)):
        server = Server(*options, workers=1)
        client = Frames(server.stream()) if options else server.connect()
        check("a stop without leave", client.ask(STOP), '{"fault":3}')
        check("a fetch after it", client.ask(fetch(1)), '{"fault":16}')
        since = time.monotonic()
        server.process.send_signal(signal.SIGTERM)
        check("the end by SIGTERM", server.end(), ("", -signal.SIGTERM, ""))
        soon("SIGTERM", since)
        client.close()
    print("without leave: a stop is an unknown request; SIGTERM ends the program at once, with no last line")


def bad_starts():
    server = Server("--allow-stop", workers=1)
    failed = "ddserve: listen failed: "
    no_address = f"{failed}that is no address; give one as 127.0.0.1:4100 or [::1]:4100\n"
    rows = [
        (("--listen", f"127.0.0.1:{server.port}"), 1, f"{failed}the address is in use\n"),
        *((("--listen", word), 1, no_address) for word in ("nowhere", "", "127.0.0.1", "127.0.0.1:65536")),
        (("--listen", "256.0.0.1:0"), 1, "ddserve: listen failed\n"),
        (("--listen", "192.0.2.1:0"), 1, f"{failed}the address is not one of this machine's\n"), ((), 2, "--listen"),
        (("--listen", "127.0.0.1:0", "--workers", "0"), 2, "--workers"), (("--listen", "127.0.0.1:0", "--workers", "65"), 2, "--workers"),
        (("--listen", "127.0.0.1:0", "--shards", "257"), 2, "--shards"), (("--listen", "127.0.0.1:0", "--entries", "65537"), 2, "--entries"),
        (("--listen", "127.0.0.1:0", "--budget", "1000000000001"), 2, "--budget"), (("--listen", "127.0.0.1:0", "--origin"), 2, "--origin"),
    ]
    for words, status, said in rows:
        ended = subprocess.run([PROGRAM, "serve", *words], capture_output=True, text=True, timeout=60)
        check(f"serve {' '.join(words)}", (ended.returncode, ended.stdout, said in ended.stderr if status == 2 else ended.stderr), (status, "", status == 2 or said))
    with server.connect() as client:
        check("a stop", client.ask(STOP), CLOSING)
    server.end_after(1)
    # The last line can't be written.
    with open("/dev/full", "w") as full:
        ended = subprocess.run([PROGRAM, "serve", "--listen", "127.0.0.1:0"], stdout=full, stderr=subprocess.PIPE, text=True, timeout=60)
    check("a full device", (ended.returncode, ended.stderr), (1, "ddserve: write failed\n"))
    print(f"bad starts: {len(rows) + 1} end with their status and text")


def out_of_memory():
    """Where the memory of a start is refused, it says so."""
    command = ["bash", "-c", 'ulimit -v 60000; exec "$@"', "-", PROGRAM, "serve", "--listen", "127.0.0.1:0"]
    ended = subprocess.run(command, capture_output=True, text=True, timeout=60)
    check("lack of memory", (ended.returncode, ended.stderr), (1, "ddserve: out of memory\n"))
    print("lack of memory at the start ends the program with its text")


def budgets():
    server = Server("--allow-stop", "--budget", "1", workers=1)
    with server.connect() as client:
        check("a submit", client.ask(TWO_CARDS), '{"job":1}')
        reply, fetches = client.until_done(1)
        check("a budget of 1", reply, state(1, "spent"))
        check("a table", client.ask('{"do":"table","deal":"N:32... K4... AQ... 65..."}'), '{"job":2}')
        reply, more = client.until_done(2)
        check("a table of 1", reply, state(2, "spent"))
        # One part that is spent ends its table.
        check("a stop", client.ask(STOP), CLOSING)
    server.end_after(3 + fetches + 3 + more + 1)
    print("budgets: a job and a table are spent")


silent_clients()
searches()
received_before()
last_session()
without_leave()
bad_starts()
out_of_memory()
budgets()
