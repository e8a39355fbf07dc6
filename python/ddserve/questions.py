"""The questions that every client answers, on the one way that it has: `ask`."""
from __future__ import annotations

from typing import Iterable, Optional, Sequence, TypeVar, Union

from . import requests
from .bridge import CardLike, SeatLike, SideLike, StrainLike, VulnerableLike
from .deal import DealLike
from .requests import Request
from .results import Cards, Par, Play, Table

R = TypeVar("R")
Results = Union[DealLike, Table, Sequence[Sequence[int]]]


class Questions:
    """Questions whose answers are waited for."""

    def ask(self, request: Request[R]) -> R:
        raise NotImplementedError

    def solve(
        self,
        deal: DealLike,
        trump: StrainLike,
        first: SeatLike,
        played: Iterable[CardLike] = (),
        solutions: Optional[int] = None,
        target: Optional[int] = None,
    ) -> Cards:
        """The tricks of each card that may be played. `first` led to the trick or leads; the cards `played` to it are in no hand.

        `solutions` is 3 for every card, 2 for the best ones, 1 for the first of these; with a `target` 2 or 1. Left out it is 3, and 2 with
        a `target`."""
        return self.ask(requests.solve(deal, trump, first, played, solutions, target))

    def leads(self, deal: DealLike, trump: StrainLike, declarer: SeatLike, solutions: int = 3) -> Cards:
        """The opening leads against a declarer, with the tricks of the defence."""
        return self.ask(requests.leads(deal, trump, declarer, solutions))

    def table(self, deal: DealLike) -> Table:
        """The twenty results."""
        return self.ask(requests.table(deal))

    def par(
        self, of: Results, vulnerable: VulnerableLike, dealer: Optional[SeatLike] = None, side: Optional[SideLike] = None
    ) -> Par:
        """Par of a deal or of its twenty results, by the dealer or by the side that calls first: just one of the two. What is missing, as
        of a board that doesn't tell it, is a ValueError."""
        return self.ask(requests.par(of, vulnerable, dealer, side))

    def play(self, deal: DealLike, trump: StrainLike, first: SeatLike, cards: Iterable[CardLike]) -> Play:
        """The tricks of declarer's side before the first card and after each one. The deal is that before the opening lead.

        The cards may also be one text: `S2S4SA`, with blanks or commas between them or not."""
        return self.ask(requests.play(deal, trump, first, cards))


class AsyncQuestions:
    """The same questions, to be awaited. Those that are asked at once are answered side by side."""

    async def ask(self, request: Request[R]) -> R:
        raise NotImplementedError

    async def solve(
        self,
        deal: DealLike,
        trump: StrainLike,
        first: SeatLike,
        played: Iterable[CardLike] = (),
        solutions: Optional[int] = None,
        target: Optional[int] = None,
    ) -> Cards:
        """As `Questions.solve`."""
        return await self.ask(requests.solve(deal, trump, first, played, solutions, target))

    async def leads(self, deal: DealLike, trump: StrainLike, declarer: SeatLike, solutions: int = 3) -> Cards:
        """As `Questions.leads`."""
        return await self.ask(requests.leads(deal, trump, declarer, solutions))

    async def table(self, deal: DealLike) -> Table:
        """As `Questions.table`."""
        return await self.ask(requests.table(deal))

    async def par(
        self, of: Results, vulnerable: VulnerableLike, dealer: Optional[SeatLike] = None, side: Optional[SideLike] = None
    ) -> Par:
        """As `Questions.par`."""
        return await self.ask(requests.par(of, vulnerable, dealer, side))

    async def play(self, deal: DealLike, trump: StrainLike, first: SeatLike, cards: Iterable[CardLike]) -> Play:
        """As `Questions.play`."""
        return await self.ask(requests.play(deal, trump, first, cards))
