"""A crowd of clients that are many, slow, silent, broken or greedy, while an honest one works. Bounded in count and time.

Each client counts the events that its lines made: a reply that is no fault of reading is one, and a job that is done is two more
(a claim and a finish). What the program prints at its end is this number and each worker's last claim. Clients that never read
what they are replied, or that break off, send only lines that make no event."""
import random
import socket
import struct
import sys
import threading
import time
from client import CLOSING, STOP, Frames, Messages, Server, cancel, check, done, fetch, is_event, is_open, more_descriptors, number_of, recorded, state

CROWD = 1_000
IDLE = 900
GREEDY = 50
LINES_EACH = 2_000
WORKERS = 4
PINGS = 10_000
# The seconds that a reply waits for its client in all, of which two more may pass in the call that waits last.
WRITE_LIMIT = 60


class Account:
    """The events that the clients can account for, and what went wrong."""

    def __init__(self):
        self.lock, self.events, self.lines, self.failed = threading.Lock(), 0, 0, []

    def add(self, events, lines=0):
        with self.lock:
            self.events += events
            self.lines += lines

    def run(self, work, *words):
        def guarded():
            try:
                work(*words)
            except SystemExit as end:
                self.failed.append(str(end.code))
            except Exception as fault:  # A client that is refused or cut off, too.
                self.failed.append(f"{work.__name__}: {fault!r}")

        # A check that fails doesn't wait for the others.
        thread = threading.Thread(target=guarded, daemon=True)
        thread.start()
        return thread


class Greedy:
    """A client that sends so many lines in pieces of some dozens: positions, fetches of what is not done, bad lines, jobs of
    others, cancels of what has ended. Each reply is checked."""

    BAD = [("{}", 3), ("x" * 4_097, 2), ("nonsense", 1), ('{"do":"solve"}', 3), ('{"do":"table","deal":"N:A... K... Q... ..."}', 7), ("[" * 200, 1)]

    def __init__(self, connection, seed):
        self.connection, self.random = connection, random.Random(seed)
        self.rows = recorded("small")
        self.open, self.ended, self.events, self.sent = {}, [], 0, 0

    def piece(self):
        """Lines, each with what its reply is for."""
        rows = [(request, ("submit", expected)) for request, expected in self.random.choices(self.rows, k=10 if len(self.open) < 40 else 0)]
        rows += [(fetch(job), ("fetch", job)) for job in list(self.open)[:20]]
        rows += [(line, ("fault", number)) for line, number in self.random.choices(self.BAD, k=4)]
        rows += [(fetch(0), ("fault", 16)), (cancel(1 << 63), ("fault", 16))]
        rows += [(cancel(job), ("fault", 17)) for job in self.ended[-2:]]
        self.random.shuffle(rows)
        return rows

    def take(self, reply, kind, of):
        self.events += is_event(reply)
        if kind == "submit":
            self.open[number_of(reply)] = of
            self.events += 2
        elif kind == "fault":
            check("a fault", reply, f'{{"fault":{of}}}')
        elif of in self.open and not is_open(reply, of):
            check(f"job {of}", reply, done(self.open.pop(of), of))
            self.ended.append(of)

    def exchange(self, rows):
        self.sent += len(rows)
        self.connection.send(*[line for line, _ in rows])
        for _, (kind, of) in rows:
            self.take(self.connection.line(), kind, of)

    def run(self, account, lines):
        while self.sent < lines:
            self.exchange(self.piece()[:lines - self.sent])
        while self.open:
            self.exchange([(fetch(job), ("fetch", job)) for job in self.open])
            time.sleep(0.001)
        account.add(self.events, self.sent)
        self.connection.close()


def honest(account, connection, over, told):
    """One job at a time, until the others are through, the answer checked; the longest time of one."""
    rows = recorded("small") + recorded("six")
    events = jobs = 0
    slowest = 0.0
    while not over.is_set() or jobs < 20:
        request, expected = rows[jobs % len(rows)]
        since = time.monotonic()
        connection.send(request)
        job = number_of(connection.line())
        reply = None
        while reply is None or is_open(reply, job):
            connection.send(fetch(job))
            reply = connection.line()
            events += 1
        check(request, reply, done(expected, job))
        jobs, events, slowest = jobs + 1, events + 3, max(slowest, time.monotonic() - since)
        # Alone it would fill the journal while others are waited for.
        over.wait(0.01)
    account.add(events)
    connection.close()
    told.append((jobs, slowest))


def slow(account, connection, over):
    """A byte at a time."""
    for byte in cancel(0).encode() + b"\n":
        connection.stream.sendall(bytes([byte]))
        over.wait(0.2)
    check("a slow client", connection.line(), '{"fault":16}')
    account.add(1)
    over.wait()
    connection.close()


def never_reads(place, stream, send, taken, ends):
    """Sends until no more is taken, and reads nothing. The connection ends when the program has waited to write; `ends` gains
    how long after the last piece that was taken."""
    stream.settimeout(WRITE_LIMIT + 60)
    since, taken[place] = time.monotonic(), 0
    try:
        while True:
            taken[place] += stream.send(send)
            since = time.monotonic()
    except ConnectionError:
        pass
    ends.append(time.monotonic() - since)
    stream.close()


def cut_off(ends):
    """Waits until one of those who never read is cut off: the limit on writing, without a stop."""
    for _ in range(WRITE_LIMIT + 30):
        if ends:
            check(f"cut off after {min(ends):.1f} s", min(ends) > WRITE_LIMIT - 5, True)
            return
        time.sleep(1)
    sys.exit("cases/server: of those who never read none is cut off")


def reads_late(account, connection, over):
    """Sends 3,000 calls of the book, and reads their replies when all others are through."""
    connection.send(*[fetch(0)] * 3_000)
    over.wait()
    check("a late reader", [connection.line() for _ in range(3_000)], ['{"fault":16}'] * 3_000)
    account.add(3_000)
    connection.close()


def breaks_off(server, sent, reset):
    """Sends a part and is gone, by an end of the stream or by a reset."""
    stream = server.stream()
    stream.sendall(sent)
    if reset:
        stream.setsockopt(socket.SOL_SOCKET, socket.SO_LINGER, struct.pack("ii", 1, 0))
    stream.close()


def broken_frames(account, server):
    """Frames without their rest, wrong ones, fragments, 10,000 pings, too much."""
    for part in range(20):
        connection = Frames(server.stream())
        connection.stream.sendall(Frames.frame(Frames.TEXT, cancel(0).encode())[:1 + part])
        connection.close()
    for frame in (b"\xff" * 100, b"\x81\x02{}", Frames.frame(Frames.TEXT, b"\xff\xfe"), Frames.frame(Frames.TEXT, b" " * 65_537)):
        connection = Frames(server.stream())
        try:
            connection.stream.sendall(frame)
            frame = connection.receive()
            check("a broken frame", frame is None or frame[0] == Frames.CLOSE, True)
        except ConnectionError:
            pass
        connection.close()
    connection = Frames(server.stream())
    events = 0
    for part in range(200):
        text = cancel(0).encode()
        cut = part % len(text)
        connection.send(Frames.TEXT, text[:cut], last=False)
        connection.send(Frames.PING, b"p")
        connection.send(0, text[cut:])
        check("a pong", connection.receive(), (Frames.PONG, b"p"))
        check("fragments", connection.text(), '{"fault":16}')
        events += 1
    check("4,097 bytes", connection.ask(" " * 4_097), '{"fault":2}')
    sender = threading.Thread(target=lambda: [connection.send(Frames.PING, b"%d" % number) for number in range(PINGS)])
    sender.start()
    check("the pongs", [connection.receive() for _ in range(PINGS)], [(Frames.PONG, b"%d" % number) for number in range(PINGS)])
    sender.join()
    check("after the pings", connection.ask(cancel(0)), '{"fault":16}')
    connection.close()
    account.add(events + 1)


def broken_lines(account, server):
    """Parts of lines that are no request, too long, no UTF-8."""
    for part in range(200):
        breaks_off(server, [b"", b'{"do":"fe', b" " * 4_097, b"\xff" * 100 + b"\n", b"\0" * 10_000, b"{}\n" * 50 + b'{"do'][part % 6], part % 4 == 0)
    with server.connect() as client:
        check("4,097 bytes", client.ask(" " * 4_097), '{"fault":2}')
        client.stream.sendall(b"\xff\xfe\n" + b"x" * 5_000_000 + b"\n" + cancel(0).encode() + b"\n")
        check("what is no text", [client.line() for _ in range(3)], ['{"fault":1}', '{"fault":2}', '{"fault":16}'])
    account.add(1)


def silent(server, websocket):
    """Those who say nothing, or stop in the midst of a line, a handshake or a frame."""
    parts = [b"", b"", b"GET / HT", b"\x81\xff"] if websocket else [b"", b'{"do":"fet', b" "]
    streams = []
    for place in range(IDLE - 50):
        streams.append(server.stream(120))
        if websocket and place % 2:
            Frames(streams[-1])
        streams[-1].sendall(parts[place % len(parts)])
    return streams


def unreading(server, websocket, account, taken, ends):
    """Those who never read. A piece of theirs has replies that soon fill what the system keeps for them."""
    piece = Frames.frame(Frames.PING, b"p" * 125) * 100 if websocket else b"{}\n" * 1_000
    for place in range(5):
        stream = socket.socket()
        # Little room.
        stream.setsockopt(socket.SOL_SOCKET, socket.SO_RCVBUF, 4_096)
        stream.connect(("127.0.0.1", server.port))
        if websocket:
            Frames(stream)
        yield account.run(never_reads, place, stream, piece, taken, ends)


def join(threads):
    for thread in threads:
        thread.join()


def crowd(websocket):
    """Everything at once, at one server."""
    name = "WebSockets" if websocket else "lines"
    server = Server("--allow-stop", *(["--websocket"] if websocket else []), workers=WORKERS)
    connect = (lambda: Messages(server.stream(120))) if websocket else (lambda: server.connect(120))
    start, account, over = time.monotonic(), Account(), threading.Event()
    told, taken, ends = [], {}, []
    idle = silent(server, websocket)
    waiting = [account.run(honest, account, connect(), over, told)]
    waiting += [account.run(slow, account, server.connect(120), over) for _ in range(0 if websocket else 50)]
    waiting += [account.run(reads_late, account, connect(), over) for _ in range(20)]
    stuck = list(unreading(server, websocket, account, taken, ends))
    greedy = [Greedy(connect(), seed) for seed in range(GREEDY)]
    idle += [server.stream(120) for _ in range(CROWD - len(idle) - len(waiting) - len(stuck) - len(greedy))]
    connected = time.monotonic()
    threads = [account.run(client.run, account, LINES_EACH) for client in greedy]
    join([*threads, account.run(broken_frames if websocket else broken_lines, account, server)])
    worked = time.monotonic()
    check("the program still runs", server.runs(), True)
    print(f"{name}: {CROWD} connections at once after {connected - start:.1f} s, {account.lines} lines by {GREEDY} clients in {worked - connected:.1f} s; {server.resident():.0f} MB", flush=True)
    cut_off(ends)
    over.set()
    join(waiting)
    stopper = connect()
    stopper.send(STOP)
    check("a stop", stopper.line(), CLOSING)
    stopped = time.monotonic()
    # Those who never read end by the stop, or by the limit on writing.
    join(stuck)
    check("what went wrong", account.failed, [])
    server.end_after(account.events + 1)
    print(f"{name}: those who never read were cut off after {min(ends):.0f} to {max(ends):.0f} s; the program ended {time.monotonic() - stopped:.1f} s after the stop")
    print(f"{name}: {told[0][0]} jobs of an honest client, each right, the slowest after {told[0][1]:.2f} s; {account.events + 1 + WORKERS} events, each accounted for")
    for stream in idle:
        stream.close()


def few_descriptors():
    """More clients than descriptors: those who come later wait, and are served when others have left."""
    server = Server("--allow-stop", workers=2, descriptors=64)
    clients = [server.connect() for _ in range(150)]
    first, events = clients[0], 0
    for turn in range(3):
        served = clients[50 * turn:50 * turn + 50]
        for client in served:
            check("one who is served", client.ask(fetch(0)), '{"fault":16}')
        events += 50
        job = number_of(first.ask(recorded("small", 1)[0][0]))
        reply, fetches = first.until_done(job)
        check("the first client", reply, done(recorded("small", 1)[0][1], job))
        events += 3 + fetches
        for client in served[turn == 0:]:
            client.close()
    check("the program still runs", server.runs(), True)
    more = [server.connect() for _ in range(100)]
    time.sleep(0.5)
    check("a stop without a descriptor left", first.ask(STOP), CLOSING)
    server.end_after(events + 1)
    for client in more:
        client.close()
    print(f"few descriptors: 150 clients under a limit of 64, {events + 1 + 2} events, each accounted for")


def cancelled_searches():
    """A client that begins one search after the other and cancels it. If a cancelled search ran on it would hold the one worker
    as long as one that is wanted."""
    server = Server("--allow-stop", workers=1)
    requests = [request for request, _ in recorded("full")]
    with server.connect() as client:
        since, events = time.monotonic(), 0
        for request in requests[::2]:
            job = number_of(client.ask(request))
            # The submit, the last fetch and the cancel.
            events += 3
            while client.ask(fetch(job)) == state(job, "waiting"):
                events += 1
            client.ask(cancel(job))
        given_up = time.monotonic() - since
        since = time.monotonic()
        for request in requests[1::2]:
            _, fetches = client.until_done(number_of(client.ask(request)))
            events += 1 + fetches
        searched = time.monotonic() - since
        check("a stop", client.ask(STOP), CLOSING)
    # Each job was claimed and finished.
    server.end_after(events + 2 * len(requests) + 1)
    check(f"a cancelled search runs on: {given_up:.2f} s, and {searched:.2f} s for as many that were wanted", given_up < searched / 10, True)
    print(f"cancelled searches: {len(requests[::2])} are begun and cancelled in {given_up:.2f} s; as many are searched in {searched:.2f} s")


more_descriptors()
kinds = {"lines": lambda: crowd(False), "sockets": lambda: crowd(True), "descriptors": few_descriptors, "cancelled": cancelled_searches}
for kind in sys.argv[1:] or kinds:
    kinds[kind]()
