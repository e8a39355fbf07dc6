"""Clients over WebSockets: Python's package `websockets`, and frames written by hand."""
import asyncio
import socket
import struct
import sys
import time
import websockets
from client import CLOSING, ONE_CARD, ONE_CARD_REPLY, STOP, Frames, Server, cancel, check, done, fetch, is_open, number_of, recorded

LONGEST_MESSAGE = 65_536


class Work:
    """The package's client, which counts the events that it causes."""

    def __init__(self, port):
        self.address, self.events = f"ws://127.0.0.1:{port}/", 0

    def connect(self, **more):
        return websockets.connect(self.address, max_size=None, **more)

    async def ask(self, connection, message):
        await connection.send(message)
        return await connection.recv()

    async def until_done(self, connection, job):
        while True:
            reply = await self.ask(connection, fetch(job))
            self.events += 1
            if not is_open(reply, job):
                return reply

    async def jobs(self, rows):
        async with self.connect() as connection:
            for request, expected in rows:
                job = number_of(await self.ask(connection, request))
                check(request, await self.until_done(connection, job), done(expected, job))
                self.events += 1 + 2 * (20 if "table" in request else 1)

    async def messages(self):
        """What each kind of message is replied."""
        async with self.connect() as connection:
            if connection.extensions:
                sys.exit(f"cases/server: the server took the extensions {connection.extensions}")
            for message, reply in [
                ("", '{"fault":1}'), (b"", '{"fault":1}'), ("solve", '{"fault":1}'), (cancel(0) + "\n", '{"fault":16}'), (cancel(0).encode(), '{"fault":16}'),
                (" " * 4_096, '{"fault":1}'), (" " * 4_097, '{"fault":2}'), (b"\xff" * 4_097, '{"fault":2}'), ("x" * LONGEST_MESSAGE, '{"fault":2}'),
                (b'{"do":"\xff"}', '{"fault":1}'), (cancel(0) + "\n" + cancel(0), '{"fault":1}'), (['{"do":"can', 'cel","jo', 'b":0}'], '{"fault":16}'),
                (cancel(0) + " " * (4_096 - len(cancel(0))), '{"fault":16}'),
            ]:
                check(f"{message[:50]!r}", await self.ask(connection, message), reply)
                self.events += reply == '{"fault":16}'
            await (await connection.ping(b"x" * 125))
            # Replies in the order of the messages.
            rows = [(fetch(0), '{"fault":16}'), ("{}", '{"fault":3}')] * 500
            for message, _ in rows:
                await connection.send(message)
            check("all at once", [await connection.recv() for _ in rows], [reply for _, reply in rows])
            self.events += 500
            await connection.close(1000, "bye")
            check("the close", (connection.close_code, connection.close_reason), (1000, "bye"))

    async def origin(self):
        async with self.connect(origin="http://example.com") as connection:
            check("a stop with an origin", await self.ask(connection, STOP), '{"fault":3}')
            check("a fetch with an origin", await self.ask(connection, fetch(0)), '{"fault":16}')
            self.events += 1

    async def all(self):
        small = recorded("small")[::3]
        await asyncio.gather(*(self.jobs(small[part::4]) for part in range(4)))
        await self.jobs(recorded("tables", 2))
        await self.messages()
        await self.origin()


def ends(what, connection, code=None):
    """The connection ends with no further reply, by a close frame with this code or without one."""
    frame = connection.receive()
    check(what, frame, (Frames.CLOSE, struct.pack(">H", code)) if code else None)
    connection.close()


def frames(server):
    """Frames that the package doesn't send; the number of events."""
    connection = Frames(server.stream())
    text = cancel(0).encode()
    connection.send(Frames.TEXT, text[:4], last=False)
    connection.send(Frames.PING, b"between")
    connection.send(0, text[4:9], last=False)
    connection.send(0, text[9:])
    check("the pong", connection.receive(), (Frames.PONG, b"between"))
    check("fragments", connection.text(), '{"fault":16}')
    for byte in Frames.frame(Frames.BINARY, text):
        connection.stream.sendall(bytes([byte]))
        time.sleep(0.001)
    check("single bytes", connection.text(), '{"fault":16}')
    connection.send(Frames.PONG, b"unasked")
    check("after a pong", connection.ask(ONE_CARD.replace("4", "5")), '{"fault":9}')
    connection.send(Frames.CLOSE, b"\x03\xe8bye")
    check("the close", connection.receive(), (Frames.CLOSE, b"\x03\xe8bye"))
    ends("after the close", connection)
    for what, frame, code in [
        ("65,537 bytes", Frames.frame(Frames.TEXT, b" " * (LONGEST_MESSAGE + 1)), 1009), ("a text that is no UTF-8", Frames.frame(Frames.TEXT, b"a\xff"), 1007),
        ("an unmasked frame", b"\x81\x02{}", 1002), ("fragments past 65,536 bytes", b"".join(Frames.frame(Frames.TEXT if n == 0 else 0, b" " * 1_000, last=False) for n in range(70)), 1009),
        ("a fragment of nothing", Frames.frame(0, b"x"), 1002), ("a kind of frame that is none", Frames.frame(3, b"{}"), 1002), ("reserved bits", b"\xc1\x80\0\0\0\0", 1002),
    ]:
        connection = Frames(server.stream())
        try:
            connection.stream.sendall(frame)
        except ConnectionError:
            pass
        ends(what, connection, code)
    connection = Frames(server.stream())
    connection.stream.sendall(Frames.frame(Frames.TEXT, b" " * 200)[:50])
    connection.stream.shutdown(socket.SHUT_WR)
    ends("inside a frame", connection)
    for what, sent in [("no handshake", b"GET / HTTP/1.1\r\nHost: x\r\n\r\n"), ("lines", fetch(0).encode() + b"\n\r\n")]:
        with server.stream() as stream:
            stream.sendall(sent)
            stream.shutdown(socket.SHUT_WR)
            try:
                if b" 101 " in stream.recv(4_096):
                    sys.exit(f"cases/server: {what}: a handshake")
            except ConnectionError:
                pass
    return 2


server = Server("--websocket", "--allow-stop", workers=4)
work = Work(server.port)
asyncio.run(work.all())
events = work.events + frames(server)
silent, last = server.stream(), Frames(server.stream())
job = number_of(last.ask(ONE_CARD))
events += 3
while (reply := last.ask(fetch(job))) != done(ONE_CARD_REPLY, job):
    check("a job of its own", is_open(reply, job), True)
    events += 1
check("a stop", last.ask(STOP), CLOSING)
server.end_after(events + 2)
print(f"sockets: {job} jobs, messages and frames of every kind, {events + 2 + 4} events, each accounted for")
