"""Questions to one program for the whole process, in one call each."""
from __future__ import annotations

import threading
from typing import Iterable, Optional, TypeVar

from . import requests
from .bridge import CardLike, SeatLike, SideLike, StrainLike, VulnerableLike
from .deal import DealLike
from .questions import Results
from .requests import Request
from .results import Cards, Par, Play, Table
from .solver import Solver

R = TypeVar("R")
_lock = threading.Lock()
_solver: Optional[Solver] = None


def ask(request: Request[R]) -> R:
    """The result of a request; `solve`, `table`, `leads`, `par` and `play` are in short `ask(requests.solve(..))` and so on."""
    global _solver
    with _lock:
        if _solver is None:
            _solver = Solver()
        solver = _solver
    return solver.ask(request)


def solve(
    deal: DealLike,
    trump: StrainLike,
    first: SeatLike,
    played: Iterable[CardLike] = (),
    solutions: Optional[int] = None,
    target: Optional[int] = None,
) -> Cards:
    """As `Solver.solve`."""
    return ask(requests.solve(deal, trump, first, played, solutions, target))


def leads(deal: DealLike, trump: StrainLike, declarer: SeatLike, solutions: int = 3) -> Cards:
    """As `Solver.leads`."""
    return ask(requests.leads(deal, trump, declarer, solutions))


def table(deal: DealLike) -> Table:
    """As `Solver.table`."""
    return ask(requests.table(deal))


def par(of: Results, vulnerable: VulnerableLike, dealer: Optional[SeatLike] = None, side: Optional[SideLike] = None) -> Par:
    """As `Solver.par`."""
    return ask(requests.par(of, vulnerable, dealer, side))


def play(deal: DealLike, trump: StrainLike, first: SeatLike, cards: Iterable[CardLike]) -> Play:
    """As `Solver.play`."""
    return ask(requests.play(deal, trump, first, cards))
