"""Servers that don't answer: budgets that are spent, faults, one that closes, one of lines, and none."""
import base64
import contextlib
import hashlib
import json
import socket
import struct
import sys
import threading

from page import HERE, Page, Server, as_lin, check, recorded

sys.path.insert(0, str(HERE.parent / "cases" / "server" / "clients"))
from client import Frames


class Between:
    """A WebSocket between the page and a server. `told` gives the reply to a request, or None where the server's is handed on."""

    def __init__(self, port, told):
        self.told, self.target = told, port
        self.listener = socket.create_server(("127.0.0.1", 0))
        self.port = self.listener.getsockname()[1]
        threading.Thread(target=self.accept, daemon=True).start()

    def accept(self):
        while True:
            stream, _ = self.listener.accept()
            threading.Thread(target=self.serve, args=(stream,), daemon=True).start()

    def serve(self, stream):
        reader = stream.makefile("rb")
        head = b"".join(iter(reader.readline, b"\r\n")).decode()
        key = next(line.partition(": ")[2] for line in head.splitlines() if line.lower().startswith("sec-websocket-key"))
        accept = base64.b64encode(hashlib.sha1(f"{key}258EAFA5-E914-47DA-95CA-C5AB0DC85B11".encode()).digest()).decode()
        stream.sendall(f"HTTP/1.1 101 Switching Protocols\r\nUpgrade: websocket\r\nConnection: Upgrade\r\nSec-WebSocket-Accept: {accept}\r\n\r\n".encode())
        server = Frames(socket.create_connection(("127.0.0.1", self.target)))
        # Either end may go.
        with contextlib.suppress(ConnectionError):
            while (text := self.message(reader)) is not None:
                told = self.told(json.loads(text))
                reply = json.dumps(told) if told else server.ask(text)
                if not isinstance(reply, str):
                    break
                data = reply.encode()
                stream.sendall(bytes([0x81, len(data)] if len(data) < 126 else [0x81, 126, *struct.pack(">H", len(data))]) + data)
        stream.close()
        server.close()

    @staticmethod
    def message(reader):
        """The next text, or None at the end."""
        head = reader.read(2)
        if len(head) < 2 or head[0] != 0x81:
            return None
        size = head[1] & 127
        if size == 126:
            (size,) = struct.unpack(">H", reader.read(2))
        mask = reader.read(4)
        return bytes(byte ^ mask[at % 4] for at, byte in enumerate(reader.read(size))).decode()


def results(page):
    return page.browser.value("[...document.querySelectorAll('#results tr')].slice(1).map(row => [...row.querySelectorAll('button')].map(it => it.textContent))")


def answers(reply):
    """The twenty results as the page has them."""
    return [[str(reply["table"][strain][seat]) for strain in (4, 0, 1, 2, 3)] for seat in range(4)]


def spent(browser):
    server = Server("--budget", "1000")
    request, reply = recorded("plays")[51]
    page = Page(browser, server.port, as_lin(request, request["cards"]))
    page.until_seen("No results: the server’s budget for a search is spent.")
    check("the results of a table that is spent", results(page), [["–"] * 5] * 4)
    check("what a screen reader is told of them", browser.value("document.querySelector('#results button').getAttribute('aria-label')"), "North in notrump: no result")
    page.until_seen("No numbers: the server’s budget for a search is spent.")
    check("that the cards have no numbers", set(page.numbers().values()), {None})
    # Each number has come, or is said to be missing.
    browser.until("document.querySelector('#chart').dataset.values.split(',').filter(it => it === '').length === parseInt(document.querySelector('#gaps').innerText)", 30)
    page.until_seen("numbers are missing: the server’s budget for a search is spent.")
    known = [(got, wanted) for got, wanted in zip(page.trace(), reply["tricks"]) if got is not None]
    check("the numbers of the end of the play, which take no long search", len(known) > 10 and all(got == wanted for got, wanted in known), True)
    check("how many are missing", page.text("#gaps").split()[0], str(53 - len(known)))
    browser.key("End")
    browser.key("ArrowLeft")
    page.shown(51)
    check("the number of the last card but one", set(page.numbers().values()) - {None} != set(), True)
    browser.key("Home")
    page.shown(0)
    page.picture("spent")
    server.end()


def refused(browser, server):
    """Faults that stay are told; where another connection may answer, the page connects again."""
    request, reply = recorded("tables")[0]
    between = Between(server.port, lambda told: {"fault": 19, "text": "memory ran out"} if told["do"] == "table" else None)
    page = Page(browser, between.port, request["deal"])
    page.until_seen("No results: the server can’t answer, fault 19: memory ran out.")
    check("the results of a table that is refused", results(page), [["–"] * 5] * 4)
    for once in ({"fault": 18}, {"job": 1, "state": "cancelled"}, {"fault": 15}):
        left = [once]
        between = Between(server.port, lambda told: left.pop() if left and told["do"] == "table" else None)
        page = Page(browser, between.port, request["deal"])
        browser.until("!/[·–]/.test(document.querySelector('#results').innerText)", 10)
        check(f"the results after {once}", results(page), answers(reply))


def no_websocket(browser):
    """A server of lines, one that is not there, and one that went."""
    server = Server(lines=True)
    page = Page(browser, server.port, is_answered=False)
    page.until_seen("--websocket")
    check("what is said", page.text("#linkText"), f"No WebSocket at 127.0.0.1:{server.port}: no server is there, or one without --websocket. Trying again.")
    page.picture("no-websocket")
    server.end()
    server = Server(port=server.port)
    page.shown(0)
    # The cards come over one of its two connections; the other one may still pause.
    browser.until("document.querySelector('#link').dataset.state === 'here'", 10)
    check("that it is connected", page.text("#linkText"), f"Connected to 127.0.0.1:{server.port}")
    server.end()
    page.until_seen("No server at 127.0.0.1:")
    check("what is said of one that went", page.text("#linkText"), f"No server at 127.0.0.1:{server.port}. Trying again.")


def unanswered(browser, server):
    spent(browser)
    refused(browser, server)
    no_websocket(browser)
    print("page: it says that a budget is spent, which fault came, and that a server may lack --websocket")
