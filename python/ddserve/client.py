"""A client of a server, over TCP."""
from __future__ import annotations

import socket
import threading
import time
from types import TracebackType
from typing import Optional, Tuple, Type, TypeVar

from .faults import CONNECT_ANEW, Cancelled, Ended, Error, Fault, NoLines, NoServer
from .questions import Questions
from .requests import Reply, Request, reply_of
from .solver import drive, number_in

R = TypeVar("R")
MOST_PORT = 65_535
WAIT = 30_000
PATIENCE = 10.0
FIRST_PAUSE, LONGEST_PAUSE = 0.02, 1.0


def address_of(host: str, port: int) -> Tuple[str, int]:
    return host, number_in("port", port, 0, MOST_PORT)


def times_of(wait: int, patience: float) -> Tuple[int, float]:
    """A wait in milliseconds and a patience in seconds; neither is below 0."""
    if not isinstance(patience, (int, float)) or not patience >= 0:
        raise ValueError(f"patience is {patience!r}: it has to be 0 seconds or more")
    return number_in("wait", wait, 0), patience


class Retries:
    """How long a question goes on when its connection can't answer it: at once again, then with growing pauses."""

    def __init__(self, patience: float) -> None:
        self._patience = patience
        self._end: Optional[float] = None
        self._pause = 0.0

    def pause_after(self, error: Error) -> float:
        """The seconds after which to connect anew; where that is of no use the error is raised."""
        if isinstance(error, Fault) and error.number not in CONNECT_ANEW:
            raise error
        now = time.monotonic()
        self._end = now + self._patience if self._end is None else self._end
        if now + self._pause > self._end:
            raise error
        pause, self._pause = self._pause, min(max(2 * self._pause, FIRST_PAUSE), LONGEST_PAUSE)
        return pause


class Client(Questions):
    """Questions to a server of lines. It connects with the first one. Threads may share it, one at a time.

    Where the server's run is used up (fault 15), the server is closing (18, or the job is cancelled), or the connection is lost, it
    connects anew and asks again, for `patience` seconds. `wait` is how many milliseconds a line waits at the server before it is fetched again."""

    def __init__(self, host: str = "127.0.0.1", port: int = 4100, *, wait: int = WAIT, patience: float = PATIENCE) -> None:
        self._address = address_of(host, port)
        self._wait, self._patience = times_of(wait, patience)
        self._lock = threading.Lock()
        self._stream: Optional[socket.socket] = None
        self._rest = b""
        self._was_there = False

    def ask(self, request: Request[R]) -> R:
        with self._lock:
            retries = Retries(self._patience)
            while True:
                try:
                    return drive(request.exchange_with_server(self._wait), self._round_trip)
                except NoServer as error:
                    if not self._was_there or isinstance(error, NoLines):
                        raise
                    pause = retries.pause_after(error)
                except (Fault, Cancelled, Ended) as error:
                    pause = retries.pause_after(error)
                self.close()
                time.sleep(pause)

    def _connected(self) -> socket.socket:
        if self._stream is None:
            try:
                self._stream = socket.create_connection(self._address, timeout=self._patience)
            except OSError as error:
                raise NoServer(f"no server at {self._address[0]}:{self._address[1]}: {error}") from None
            self._stream.setsockopt(socket.IPPROTO_TCP, socket.TCP_NODELAY, 1)
            self._stream.settimeout(self._wait / 1000 + self._patience)
            self._rest = b""
            self._was_there = True
        return self._stream

    def _round_trip(self, line: str) -> Reply:
        stream = self._connected()
        try:
            stream.sendall(line.encode() + b"\n")
            while b"\n" not in self._rest:
                read = stream.recv(1 << 16)
                if not read:
                    raise Ended("the connection was closed before the reply")
                self._rest += read
            reply, _, self._rest = self._rest.partition(b"\n")
            return reply_of(reply)
        except OSError as error:
            self.close()
            raise Ended(f"the connection was lost before the reply: {error}") from None
        except BaseException:
            # Also when interrupted: a late reply would be taken for that of the next line. The server gives the job up.
            self.close()
            raise

    def close(self) -> None:
        """Closes the connection. The next question connects anew."""
        if self._stream is not None:
            self._stream.close()
        self._stream = None

    def __enter__(self) -> Client:
        return self

    def __exit__(self, kind: Optional[Type[BaseException]], error: Optional[BaseException], trace: Optional[TracebackType]) -> None:
        self.close()
