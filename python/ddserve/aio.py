"""Clients for asyncio: over the line tool, and over TCP."""
from __future__ import annotations

import asyncio
from types import TracebackType
from typing import Awaitable, Callable, List, Optional, Type, TypeVar

from .client import PATIENCE, WAIT, Retries, address_of, times_of
from .faults import Cancelled, Ended, Fault, NoLines, NoProgram, NoServer
from .questions import AsyncQuestions
from .requests import Exchange, Reply, Request, reply_of
from .solver import command, number_in, workers_of

R = TypeVar("R")
Self = TypeVar("Self", bound="Channels")


class Channel:
    """A program or a connection: a line in, a reply out."""

    def __init__(self, reader: asyncio.StreamReader, writer: asyncio.StreamWriter, process: Optional[asyncio.subprocess.Process] = None) -> None:
        self._reader, self._writer, self._process = reader, writer, process

    async def round_trip(self, line: str) -> Reply:
        try:
            self._writer.write(line.encode() + b"\n")
            await self._writer.drain()
            reply = await self._reader.readuntil(b"\n")
        except (OSError, asyncio.IncompleteReadError) as error:
            raise Ended(f"no reply came: {error}") from None
        return reply_of(reply)

    async def close(self) -> None:
        if self._process is None:
            self._writer.transport.abort()
            return
        if self._process.returncode is None:
            self._process.kill()
        self._writer.close()
        await self._process.wait()


class Channels(AsyncQuestions):
    """So many channels, opened as they are needed. Each has one line at a time, so what is asked at once goes side by side.

    A question that is cancelled closes its channel, so its search is given up."""

    def __init__(self, most: int) -> None:
        self._most = most
        self._turns: Optional[asyncio.Semaphore] = None
        self._idle: List[Channel] = []

    async def _open(self) -> Channel:
        raise NotImplementedError

    async def _ask_on_one(self, exchange: Exchange[R]) -> R:
        if self._turns is None:
            self._turns = asyncio.Semaphore(self._most)
        async with self._turns:
            channel = self._idle.pop() if self._idle else await self._open()
            try:
                result = await _drive(exchange, channel.round_trip)
            except Fault:
                # A fault is a whole reply: the channel serves on.
                self._idle.append(channel)
                raise
            except BaseException:
                await channel.close()
                raise
            self._idle.append(channel)
            return result

    async def close(self) -> None:
        """Closes all channels. The next question opens another."""
        idle, self._idle = self._idle, []
        for channel in idle:
            await channel.close()

    async def __aenter__(self: Self) -> Self:
        return self

    async def __aexit__(self, kind: Optional[Type[BaseException]], error: Optional[BaseException], trace: Optional[TracebackType]) -> None:
        await self.close()


class AsyncSolver(Channels):
    """Questions to as many programs as `processes` says; by -1, and where it is left out, to as many as there are processors. The other
    options are those of `Solver`."""

    def __init__(
        self, program: Optional[str] = None, *, processes: Optional[int] = None, budget: Optional[int] = None, entries: Optional[int] = None
    ) -> None:
        super().__init__(workers_of("processes", processes))
        self._words = command(program, budget, entries)

    async def ask(self, request: Request[R]) -> R:
        return await self._ask_on_one(request.exchange())

    async def _open(self) -> Channel:
        try:
            process = await asyncio.create_subprocess_exec(*self._words, stdin=asyncio.subprocess.PIPE, stdout=asyncio.subprocess.PIPE)
        except OSError as error:
            raise NoProgram(f"{self._words[0]} can't be started: {error.strerror}") from None
        assert process.stdin is not None and process.stdout is not None
        return Channel(process.stdout, process.stdin, process)


class AsyncClient(Channels):
    """Questions to a server over `connections`, 1 or more. The other options are those of `Client`."""

    def __init__(
        self, host: str = "127.0.0.1", port: int = 4100, *, connections: int = 8, wait: int = WAIT, patience: float = PATIENCE
    ) -> None:
        super().__init__(number_in("connections", connections, 1))
        self._address = address_of(host, port)
        self._wait, self._patience = times_of(wait, patience)
        self._was_there = False

    async def ask(self, request: Request[R]) -> R:
        retries = Retries(self._patience)
        while True:
            try:
                return await self._ask_on_one(request.exchange_with_server(self._wait))
            except NoServer as error:
                if not self._was_there or isinstance(error, NoLines):
                    raise
                pause = retries.pause_after(error)
            except (Fault, Cancelled, Ended) as error:
                pause = retries.pause_after(error)
                # The idle connections are likely of the same run, or lost too.
                await self.close()
            await asyncio.sleep(pause)

    async def _open(self) -> Channel:
        try:
            reader, writer = await asyncio.wait_for(asyncio.open_connection(*self._address), self._patience)
        except (OSError, asyncio.TimeoutError) as error:
            raise NoServer(f"no server at {self._address[0]}:{self._address[1]}: {error}") from None
        self._was_there = True
        return Channel(reader, writer)


async def _drive(exchange: Exchange[R], round_trip: Callable[[str], Awaitable[Reply]]) -> R:
    """The result of an exchange whose lines are answered by `round_trip`."""
    try:
        line = next(exchange)
        while True:
            line = exchange.send(await round_trip(line))
    except StopIteration as end:
        result: R = end.value
        return result
