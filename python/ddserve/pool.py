"""Many questions over all processors."""
from __future__ import annotations

import selectors
import weakref
from collections import deque
from types import TracebackType
from typing import Any, Deque, Dict, Generic, Iterable, Iterator, List, Optional, Type, TypeVar, Union

from . import requests
from .deal import DealLike
from .faults import BadQuestion, Ended, Error
from .requests import Request, reply_of
from .results import Table
from .solver import Process, command, number_in, workers_of

R = TypeVar("R")
# The lines that a program has at once: with one it would idle until the next comes. They fit into the pipe, so no send blocks.
DEPTH = 4
# The questions held at once for each program, those whose answers wait for their turn counted.
AHEAD = 16
# As many shapes in all as one program with four workers keeps by itself.
ENTRIES = 16_384
# How often a question is asked again whose program ended before its reply.
AGAIN = 2


class Pool:
    """Programs on all processors, or so many as `workers` says: 1 or more, or -1 for all processors, as in joblib. They are started for
    each call and end with it.

    Questions may be any iterable, without an end too. At most `ahead` of them, 1 or more, are held at once: taken, and their results not
    yet yielded. Results come in the order of the questions. Where a program ends before its replies, another is started and is asked what
    had no reply, each question up to twice. The other options are those of `Solver`. Another option is a ValueError.

    At the end of a `with` it is closed: no program of its calls is left, even where their results weren't all taken."""

    def __init__(
        self,
        workers: Optional[int] = None,
        *,
        ahead: Optional[int] = None,
        program: Optional[str] = None,
        budget: Optional[int] = None,
        entries: Optional[int] = ENTRIES,
    ) -> None:
        self.workers = workers_of("workers", workers)
        self.ahead = AHEAD * self.workers if ahead is None else number_in("ahead", ahead, 1)
        self._words = command(program, budget, entries)
        self._crews: weakref.WeakSet[_Crew[Any]] = weakref.WeakSet()

    def tables(self, deals: Iterable[DealLike]) -> Iterator[Table]:
        """The twenty results of each deal."""
        return self.ask_all(map(requests.table, deals))

    def ask_all(self, questions: Iterable[Request[R]]) -> Iterator[R]:
        """The result of each question. The first one without a result ends it, by its exception, behind the results before it."""
        return _results(self.outcomes(questions))

    def outcomes(self, questions: Iterable[Request[R]]) -> Iterator[Union[R, Error]]:
        """The result of each question, or in its place the error that it has. An exception of the iterable comes behind the results of
        what it gave before."""
        crew: _Crew[R] = _Crew(self._words, self.workers)
        self._crews.add(crew)
        return crew.outcomes(_Source(questions), self.ahead)

    def close(self) -> None:
        """Ends the programs of all calls. Results that weren't taken are gone: of an iterator that isn't at its end the next one is the
        error `Ended`. Another call starts programs anew."""
        for crew in list(self._crews):
            crew.close()

    def __enter__(self) -> Pool:
        return self

    def __exit__(self, kind: Optional[Type[BaseException]], error: Optional[BaseException], trace: Optional[TracebackType]) -> None:
        self.close()


def _results(outcomes: Iterator[Union[R, Error]]) -> Iterator[R]:
    for outcome in outcomes:
        if isinstance(outcome, Error):
            raise outcome
        yield outcome


class _Source(Generic[R]):
    """The questions, and the exception that they ended with, if any."""

    def __init__(self, questions: Iterable[Request[R]]) -> None:
        self._left = iter(questions)
        self._error: Optional[Exception] = None
        self.is_over = False

    def give_one(self, crew: _Crew[R]) -> None:
        """Gives the next question to the crew, where there is one."""
        try:
            question = next(self._left)
        except StopIteration:
            self.is_over = True
        except Exception as error:
            self.is_over, self._error = True, error
        else:
            crew.take(question)

    def check(self) -> None:
        if self._error is not None:
            raise self._error


class _Member:
    """A program and the turns of the questions that it has. A question that is asked again has a program for itself: so it is known which
    one a program ends by."""

    def __init__(self, words: List[str]) -> None:
        self.process = Process(words)
        self.place = self.process.fileno()
        self.turns: Deque[int] = deque()
        self.is_taken = False

    @property
    def has_room(self) -> bool:
        return not self.is_taken and len(self.turns) < DEPTH


class _Crew(Generic[R]):
    """Programs with their questions, and the results that wait for their turn."""

    def __init__(self, words: List[str], workers: int) -> None:
        self._words, self._workers = words, workers
        self._members: List[_Member] = []
        self._selector = selectors.DefaultSelector()
        self._asked: Dict[int, Request[R]] = {}
        self._found: Dict[int, Union[R, Error]] = {}
        # The questions whose program ended before its reply: how often, and those to be asked again.
        self._lost: Dict[int, int] = {}
        self._again: Deque[int] = deque()
        self._taken = self._told = 0
        self._is_closed = False

    def outcomes(self, source: _Source[R], ahead: int) -> Iterator[Union[R, Error]]:
        """The outcomes of the questions in their order; closed at their end."""
        try:
            while True:
                self.check()
                if not source.is_over and self.held < ahead and self.has_room:
                    source.give_one(self)
                # Waits only where nothing more can be taken.
                self.collect(wait=source.is_over or self.held >= ahead or not self.has_room)
                yield from self.ready()
                if source.is_over and not self.held:
                    source.check()
                    return
        finally:
            self.close()

    @property
    def held(self) -> int:
        """The questions that were taken and not told yet."""
        return self._taken - self._told

    @property
    def has_room(self) -> bool:
        """Can a question be taken? Those that are asked again come first."""
        return not self._again and (len(self._members) < self._workers or any(it.has_room for it in self._members))

    def take(self, question: Request[R]) -> None:
        """Gives a question to the program that has fewest."""
        # The questions themselves may close the pool.
        self.check()
        turn = self._taken
        self._taken += 1
        if not isinstance(question, Request):
            self._found[turn] = BadQuestion(f"{repr(question)[:80]} is no question: the functions of ddserve.requests make them")
            return
        self._asked[turn] = question
        member = min((it for it in self._members if it.has_room), key=lambda it: len(it.turns), default=None)
        if member is None or member.turns and len(self._members) < self._workers:
            member = self._started()
        self._ask(member, turn)

    def collect(self, wait: bool) -> None:
        """Reads the replies that are there; with `wait` one or more where any is to come."""
        self._ask_again()
        if not self._asked:
            return
        for key, _ in self._selector.select(None if wait else 0):
            self._read(key.data)

    def ready(self) -> Iterator[Union[R, Error]]:
        """The results whose turn it is."""
        while self._told in self._found:
            self._told += 1
            yield self._found.pop(self._told - 1)

    def check(self) -> None:
        if self._is_closed:
            raise Ended("the pool was closed before all results were taken")

    def close(self) -> None:
        """Ends the programs. Results that weren't taken are gone."""
        self._is_closed = True
        self._selector.close()
        while self._members:
            self._members.pop().process.close()
        self._found.clear()

    def _started(self) -> _Member:
        member = _Member(self._words)
        self._members.append(member)
        self._selector.register(member.place, selectors.EVENT_READ, member)
        return member

    def _ask(self, member: _Member, turn: int) -> None:
        member.turns.append(turn)
        try:
            member.process.send(self._asked[turn].line)
        except Ended as error:
            self._leave(member, error)

    def _ask_again(self) -> None:
        """Asks again what lost its program, each question on an idle program, as far as there is one."""
        while self._again:
            idle = next((it for it in self._members if not it.turns), None)
            if idle is None and len(self._members) == self._workers:
                return
            member = idle or self._started()
            member.is_taken = True
            self._ask(member, self._again.popleft())

    def _read(self, member: _Member) -> None:
        try:
            replies = member.process.receive()
        except Ended as error:
            self._leave(member, error)
            return
        for reply in replies:
            turn = member.turns.popleft()
            self._lost.pop(turn, None)
            question = self._asked.pop(turn)
            try:
                self._found[turn] = question.read(reply_of(reply))
            except Error as error:
                self._found[turn] = error
        member.is_taken = member.is_taken and bool(member.turns)

    def _leave(self, member: _Member, error: Ended) -> None:
        """The program has ended: what it didn't answer is asked again, or has this error."""
        self._members.remove(member)
        self._selector.unregister(member.place)
        for turn in member.turns:
            self._lost[turn] = self._lost.get(turn, 0) + 1
            if self._lost[turn] <= AGAIN:
                self._again.append(turn)
            else:
                del self._asked[turn], self._lost[turn]
                self._found[turn] = error
