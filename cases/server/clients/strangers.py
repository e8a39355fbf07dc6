"""What a stranger can do to a server, each with its end. Words: which of `page`, `slow`, `handshakes`, `answers`, `idle`, `silent`.

A page of the web sends a request of HTTP whose body is a `stop`: it is told nothing, and nothing stops. Nor is one whose
handshake of TLS has a `stop` within. A client that takes 1,500
bytes of its replies each ten seconds doesn't hold a stop up. Clients that don't shake hands to the end are cut off, and hold no
descriptor. So are those that send nothing, unless a job of theirs is open. A
handshake that fails has its answer of HTTP."""
import random
import socket
import sys
import threading
import time
from client import CLOSING, STOP, Frames, Server, check, fetch, state

# What Chromium sends for `fetch(url, {method: "POST", mode: "no-cors", body: '{"do":"stop"}\n'})`.
PAGE = (
    "POST / HTTP/1.1\r\nHost: 127.0.0.1:4100\r\nConnection: keep-alive\r\nContent-Length: 14\r\nContent-Type: text/plain;charset=UTF-8\r\n"
    "Accept: */*\r\nOrigin: null\r\nSec-Fetch-Mode: no-cors\r\n\r\n"
    '{"do":"stop"}\n'
).encode()
# The seconds in which a stop ends the program, whoever takes his replies slowly.
STOP_WAIT = 15
# The seconds that a client has to shake hands, and some for a busy machine.
HANDSHAKE_WAIT, MORE = 10, 5
LINES = 2_000_000
# The seconds that a client may be silent here, and how many silent ones come to a server with few descriptors.
IDLE, DESCRIPTORS, SILENT = 2, 64, 100


def handshake():
    """A ClientHello of TLS (RFC 8446, section 4.1.2) that would go on with a session, whose name another server chose: a `stop`."""
    name = b'\n{"do":"stop"}\n'
    body = b"\x03\x03" + bytes(range(32, 64)) + bytes([len(name)]) + name + b"\x00\x02\xc0\x2f" + b"\x01\x00"
    hello = b"\x01" + len(body).to_bytes(3, "big") + body
    return b"\x16\x03\x01" + len(hello).to_bytes(2, "big") + hello


def told(stream):
    """All that comes until the stream ends."""
    found = b""
    try:
        while piece := stream.recv(4_096):
            found += piece
    except ConnectionError:
        pass
    return found


def page():
    server = Server("--allow-stop", workers=1)
    hello = handshake()
    for pieces in [(PAGE,), (PAGE[:3], PAGE[3:]), (PAGE.replace(b"POST", b"GET", 1),), (hello,), [bytes([byte]) for byte in hello[:60]]]:
        stream = server.stream()
        stream.setsockopt(socket.IPPROTO_TCP, socket.TCP_NODELAY, 1)
        try:
            for piece in pieces:
                stream.sendall(piece)
                time.sleep(0.05)
        except ConnectionError:
            # The program closes the stream at the first byte of a handshake of TLS.
            check("who is cut off", pieces[0][:1], hello[:1])
        check("what a page is told", told(stream), b"")
    check("the program runs", server.runs(), True)
    client = server.connect()
    # A line that is no request of HTTP has its fault.
    check("a word", client.ask("POSTED"), '{"fault":1}')
    check("a fetch", client.ask(fetch(1)), '{"fault":16}')
    check("a stop", client.ask(STOP), CLOSING)
    server.end_after(1 + 1)
    print("page: it is told nothing, and its stop stops nothing, nor does one within a handshake of TLS")


def greedy(server, lines):
    """A client with little room that has sent so many bad lines as it can, and takes 1,500 bytes each ten seconds."""
    stream = socket.socket()
    stream.setsockopt(socket.SOL_SOCKET, socket.SO_RCVBUF, 4_096)
    stream.connect(("127.0.0.1", server.port))
    stream.settimeout(3)
    try:
        for _ in range(lines // 1_000):
            stream.sendall(b"{}\n" * 1_000)
    except TimeoutError:
        pass
    stream.settimeout(None)

    def take():
        try:
            while stream.recv(1_500):
                time.sleep(10)
        except OSError:
            pass

    threading.Thread(target=take, daemon=True).start()


def slow():
    server = Server("--allow-stop", workers=1)
    greedy(server, LINES)
    client = server.connect()
    check("a fetch", client.ask(fetch(1)), '{"fault":16}')
    since = time.monotonic()
    check("a stop", client.ask(STOP), CLOSING)
    server.end_after(1 + 1)
    taken = time.monotonic() - since
    check(f"a stop took {taken:.1f} seconds", taken < STOP_WAIT, True)
    print(f"slow: the program ends {taken:.1f} seconds after the stop")


def handshakes():
    server = Server("--allow-stop", "--websocket", workers=1)
    streams = [server.stream() for _ in range(20)]
    since = time.monotonic()
    for stream in streams[:10]:
        stream.sendall(b"GET / HTTP/1.1\r\n")

    def drip(stream):
        try:
            while True:
                stream.sendall(b"X")
                time.sleep(0.5)
        except OSError:
            pass

    for stream in streams[10:15]:
        threading.Thread(target=drip, args=(stream,), daemon=True).start()
    honest = Frames(server.stream())
    check("a fetch meanwhile", honest.ask(fetch(1)), '{"fault":16}')
    for stream in streams:
        told(stream)
    taken = time.monotonic() - since
    check(f"handshakes ended after {taken:.1f} seconds", HANDSHAKE_WAIT - 1 < taken < HANDSHAKE_WAIT + MORE, True)
    check("a fetch later", honest.ask(fetch(1)), '{"fault":16}')
    check("a stop", honest.ask(STOP), CLOSING)
    server.end_after(1 + 1 + 1)
    print(f"handshakes: who shakes no hands is cut off after {taken:.1f} seconds")


# The headers of a handshake, each with what the answer begins with where it is left out.
HEADERS = [
    ("Host: 127.0.0.1", 400), ("Connection: Upgrade", 426), ("Upgrade: websocket", 426), ("Sec-WebSocket-Version: 13", 426),
    ("Sec-WebSocket-Key: dGhlIHNhbXBsZSBub25jZQ==", 400),
]
REASONS = {101: b"Switching Protocols", 400: b"Bad Request", 426: b"Upgrade Required"}


def answers():
    server = Server("--allow-stop", "--websocket", workers=1)
    whole = [header for header, _ in HEADERS]

    def answer(line, headers, body=b""):
        with server.stream() as stream:
            stream.sendall("".join(f"{part}\r\n" for part in [line, *headers, ""]).encode() + body)
            stream.shutdown(socket.SHUT_WR)
            return told(stream)

    def begins(what, found, status):
        check(what, found.split(b"\r\n")[0], b"HTTP/1.1 %d %s" % (status, REASONS[status]))

    begins("a handshake", answer("GET / HTTP/1.1", whole), 101)
    for header, status in HEADERS:
        found = answer("GET / HTTP/1.1", [other for other in whole if other != header])
        begins(f"without {header}", found, status)
        check(f"the version that is wanted without {header}", b"\r\nSec-WebSocket-Version: 13\r\n" in found, status == 426)
    for what, line, headers, body, status in [
        ("two keys", "GET / HTTP/1.1", [*whole, HEADERS[4][0]], b"", 400), ("two hosts", "GET / HTTP/1.1", [*whole, "Host: b"], b"", 400),
        ("a key that is none", "GET / HTTP/1.1", [*whole[:4], "Sec-WebSocket-Key: abc"], b"", 400), ("version 8", "GET / HTTP/1.1", [*whole[:3], "Sec-WebSocket-Version: 8", whole[4]], b"", 426),
        ("a page that is asked for", "GET /index.html HTTP/1.1", ["Host: 127.0.0.1", "Accept: */*"], b"", 426), ("a POST", "POST / HTTP/1.1", ["Host: 127.0.0.1", "Content-Length: 14"], STOP.encode() + b"\n", 400),
        ("a line", fetch(1), [], b"", 400), ("a large body", "POST / HTTP/1.1", ["Host: 127.0.0.1", "Content-Length: 100000"], b"x" * 100_000, 400),
    ]:
        begins(what, answer(line, headers, body), status)
    honest = Frames(server.stream())
    check("a fetch later", honest.ask(fetch(1)), '{"fault":16}')
    check("a stop", honest.ask(STOP), CLOSING)
    server.end_after(1 + 1)
    print("answers: a handshake that fails is told 400, and 426 where it is no upgrade")


def tables(seed):
    """64 requests for the results of deals by chance, as many as a client may have open."""
    chance = random.Random(seed)
    for _ in range(64):
        cards = [(suit, rank) for suit in range(4) for rank in "AKQJT98765432"]
        chance.shuffle(cards)
        hands = [".".join("".join(rank for of, rank in cards[seat::4] if of == suit) for suit in range(4)) for seat in range(4)]
        yield f'{{"do":"table","deal":"N:{" ".join(hands)}"}}'


def idle(websocket):
    server = Server("--allow-stop", "--idle", str(IDLE), *(["--websocket"] if websocket else []), workers=1)

    def connect():
        return Frames(server.stream()) if websocket else server.connect()

    # Clients whose jobs take one worker longer than all this takes.
    busy = [connect() for _ in range(3)]
    for place, client in enumerate(busy):
        for job, request in enumerate(tables(place), 1 + 64 * place):
            check("a submit", client.ask(request), f'{{"job":{job}}}')
    since = time.monotonic()
    never, once, begun = connect(), connect(), connect()
    check("a fetch", once.ask(fetch(0)), '{"fault":16}')
    begun.stream.sendall(b'{"do":' if not websocket else Frames.frame(Frames.TEXT, b"{}")[:3])
    for silent in (never, once, begun):
        check("a silent client", told(silent.stream), b"")
    taken = time.monotonic() - since
    check(f"silent clients are cut off after {taken:.1f} seconds", IDLE - 0.5 < taken < IDLE + MORE, True)
    time.sleep(2 * IDLE)
    for place, client in enumerate(busy, 1):
        check("a silent client with open jobs", client.ask(fetch(64 * place)), state(64 * place, "waiting"))
    check("a stop", busy[0].ask(STOP), CLOSING)
    _, status, said = server.end()
    check("the end", (status, said), (0, ""))
    print(f"idle {'WebSockets' if websocket else 'lines'}: who sends nothing is cut off after {taken:.1f} seconds, and who waits for a job isn't")


def silent():
    server = Server("--allow-stop", "--idle", str(IDLE), workers=1, descriptors=DESCRIPTORS)
    streams = [server.stream() for _ in range(SILENT)]
    since = time.monotonic()
    client = server.connect()
    check("a fetch beside silent clients", client.ask(fetch(1)), '{"fault":16}')
    taken = time.monotonic() - since
    # Those that found no descriptor have their time from when they got one.
    check(f"it was answered after {taken:.1f} seconds", taken < 2 * IDLE + MORE, True)
    check("a stop", client.ask(STOP), CLOSING)
    server.end_after(1 + 1)
    for stream in streams:
        stream.close()
    print(f"silent: beside {SILENT} silent clients and {DESCRIPTORS} descriptors a client is served after {taken:.1f} seconds")


kinds = {"page": page, "slow": slow, "handshakes": handshakes, "answers": answers, "idle": lambda: [idle(websocket) for websocket in (False, True)], "silent": silent}
for word in sys.argv[1:] or kinds:
    kinds[word]()
