"""The line tool as a co-process."""
from __future__ import annotations

import contextlib
import operator
import os
import shutil
import subprocess
import threading
from types import TracebackType
from typing import Callable, List, Optional, Type, TypeVar

from .faults import Ended, NoProgram
from .questions import Questions
from .requests import Exchange, Reply, Request, reply_of

R = TypeVar("R")
# The greatest budget, in positions, and the most entries of a table, as `ddserve solve` has them.
MOST_POSITIONS = 1_000_000_000_000
MOST_ENTRIES = 65_536
# So many workers are as many as there are processors, as in joblib.
ALL_PROCESSORS = -1


def number_in(name: str, value: int, least: int, most: Optional[int] = None) -> int:
    """The value of an option that is a whole number in a range; another is a ValueError."""
    try:
        number = operator.index(value)
    except TypeError:
        raise ValueError(f"{name} is {value!r}: it has to be a whole number") from None
    if number < least or most is not None and number > most:
        raise ValueError(f"{name} is {number}: it has to be {least} {'or more' if most is None else f'to {most}'}")
    return number


def workers_of(name: str, value: Optional[int]) -> int:
    """So many workers as are asked for, 1 or more; as many as there are processors by -1, and where none are asked for."""
    return processors() if value is None or value == ALL_PROCESSORS else number_in(name, value, 1)


def command(program: Optional[str], budget: Optional[int], entries: Optional[int]) -> List[str]:
    """`ddserve solve` with these options. Without a program it is that of the variable DDSERVE, or the one on the PATH."""
    path = program or os.environ.get("DDSERVE") or shutil.which("ddserve")
    words = [] if budget is None else ["--budget", str(number_in("budget", budget, 0, MOST_POSITIONS))]
    words += [] if entries is None else ["--entries", str(number_in("entries", entries, 1, MOST_ENTRIES))]
    if path is None:
        raise NoProgram("ddserve is not on the PATH, and the variable DDSERVE doesn't name it")
    return [path, "solve", *words]


def processors() -> int:
    """Those that this process may use."""
    return len(os.sched_getaffinity(0)) if hasattr(os, "sched_getaffinity") else os.cpu_count() or 1


def drive(exchange: Exchange[R], round_trip: Callable[[str], Reply]) -> R:
    """The result of an exchange whose lines are answered by `round_trip`."""
    try:
        line = next(exchange)
        while True:
            line = exchange.send(round_trip(line))
    except StopIteration as end:
        result: R = end.value
        return result


class Process:
    """One program: lines in, replies out, in order."""

    def __init__(self, words: List[str]) -> None:
        try:
            # A reply comes when its line is there: so nothing is held back here either.
            self._process = subprocess.Popen(words, stdin=subprocess.PIPE, stdout=subprocess.PIPE, bufsize=0)
        except OSError as error:
            raise NoProgram(f"{words[0]} can't be started: {error.strerror}") from None
        assert self._process.stdin is not None and self._process.stdout is not None
        self._in, self._out = self._process.stdin, self._process.stdout
        self._rest = b""

    def fileno(self) -> int:
        return self._out.fileno()

    def send(self, line: str) -> None:
        left = memoryview(line.encode() + b"\n")
        try:
            while left:
                left = left[self._in.write(left) or 0 :]
        except OSError:
            raise self._ended() from None

    def receive(self) -> List[bytes]:
        """The replies that are there, at least a part of one awaited."""
        read = self._out.read(1 << 16)
        if not read:
            raise self._ended()
        *replies, self._rest = (self._rest + read).split(b"\n")
        return replies

    def round_trip(self, line: str) -> Reply:
        self.send(line)
        replies: List[bytes] = []
        while not replies:
            replies = self.receive()
        return reply_of(replies[0])

    def _ended(self) -> Ended:
        # It closed its output, so it is about to end by itself: the status is its own, and not that of the kill.
        with contextlib.suppress(subprocess.TimeoutExpired):
            self._process.wait(1)
        self.close()
        return Ended(f"the program ended with status {self._process.returncode} before its reply")

    def close(self) -> None:
        # It has nothing to lose, and may be within a search.
        self._process.kill()
        self._process.wait()
        self._in.close()
        self._out.close()


class Solver(Questions):
    """Questions to a program of one's own, which is started with the first one and kept. Threads may share it, one at a time.

    `program` is its path; without it the variable DDSERVE or the PATH. A result that needs more positions than `budget`, 0 to
    1,000,000,000,000, is raised as `Spent`. `entries`, 1 to 65,536, is the size of its table. Another number is a ValueError."""

    def __init__(self, program: Optional[str] = None, *, budget: Optional[int] = None, entries: Optional[int] = None) -> None:
        self._words = command(program, budget, entries)
        self._lock = threading.Lock()
        self._process: Optional[Process] = None
        self._owner = os.getpid()

    def ask(self, request: Request[R]) -> R:
        if self._owner != os.getpid():
            # After a fork the program is the parent's, and so may be the lock.
            self._process, self._lock, self._owner = None, threading.Lock(), os.getpid()
        with self._lock:
            return drive(request.exchange(), self._round_trip)

    def _round_trip(self, line: str) -> Reply:
        if self._process is None:
            self._process = Process(self._words)
        try:
            return self._process.round_trip(line)
        except BaseException:
            # Also when interrupted: a late reply would be taken for that of the next line.
            self.close()
            raise

    def close(self) -> None:
        """Ends the program. The next question starts another."""
        if self._process is not None and self._owner == os.getpid():
            self._process.close()
        self._process = None

    def __enter__(self) -> Solver:
        return self

    def __exit__(self, kind: Optional[Type[BaseException]], error: Optional[BaseException], trace: Optional[TracebackType]) -> None:
        self.close()
