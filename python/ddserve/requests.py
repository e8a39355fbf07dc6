"""The lines of requests, and the results that their replies are. There is no input or output here: all clients share this."""
from __future__ import annotations

import json
from dataclasses import dataclass
from typing import Any, Callable, Generator, Generic, Iterable, Mapping, Optional, Sequence, TypeVar, Union

from .bridge import Card, CardLike, Seat, SeatLike, Side, SideLike, Strain, StrainLike, Vulnerable, VulnerableLike, cards_of
from .deal import BadDeal, Deal, DealLike
from .faults import Cancelled, Error, Fault, NoLines, Spent
from .results import Cards, Par, Play, Table

R = TypeVar("R")
R_co = TypeVar("R_co", covariant=True)
Reply = Mapping[str, Any]
# Lines go out of an exchange and replies into it, until it has the result.
Exchange = Generator[str, Reply, R]
OPEN = ("waiting", "running")


@dataclass(frozen=True)
class Request(Generic[R_co]):
    """The fields of a line, and the result that a reply without a fault is."""

    fields: Mapping[str, Any]
    result: Callable[[Reply], R_co]

    @property
    def line(self) -> str:
        return _line(self.fields)

    def read(self, reply: Reply) -> R_co:
        """The result; a reply without one is raised."""
        if "fault" in reply:
            raise Fault(reply["fault"], self.line, tuple(self.fields))
        if reply.get("state") == "spent":
            raise Spent(f"the budget was spent: {self.line}")
        if reply.get("state") == "cancelled":
            raise Cancelled(f"the job was cancelled: {self.line}")
        return self.result(reply)

    def exchange(self) -> Exchange[R_co]:
        """With the line tool: one line and its reply."""
        return self.read((yield self.line))

    def exchange_with_server(self, wait: int) -> Exchange[R_co]:
        """With a server: a line that waits, and fetches until its job has ended."""
        reply = yield _line({**self.fields, "wait": wait})
        while "job" in reply and (reply.get("state") in OPEN or reply.keys() == {"job"}):
            reply = yield _line({"do": "fetch", "job": reply["job"], "wait": wait})
        return self.read(reply)


@dataclass(frozen=True)
class ParOfTable(Request[Par]):
    """A server tells par at once: there is nothing to wait for."""

    def exchange_with_server(self, wait: int) -> Exchange[Par]:
        return self.read((yield self.line))


@dataclass(frozen=True)
class ParOfDeal(Request[Par]):
    """A server takes a table alone: the results come first."""

    results: Request[Table]
    after: Callable[[Table], Request[Par]]

    def exchange_with_server(self, wait: int) -> Exchange[Par]:
        found = yield from self.results.exchange_with_server(wait)
        return (yield from self.after(found).exchange_with_server(wait))


def _line(fields: Mapping[str, Any]) -> str:
    return json.dumps(fields, separators=(",", ":"))


def reply_of(line: Union[str, bytes]) -> Reply:
    """The reply that a line is."""
    if line[:5] in (b"HTTP/", "HTTP/"):
        raise NoLines("the server speaks HTTP, as one with --websocket does: a client of lines needs a server without it")
    try:
        reply = json.loads(line)
    except ValueError:
        raise Error(f"{line[:80]!r} is no reply") from None
    if not isinstance(reply, dict):
        raise Error(f"{line[:80]!r} is no reply")
    return reply


def solve(
    deal: DealLike,
    trump: StrainLike,
    first: SeatLike,
    played: Iterable[CardLike] = (),
    solutions: Optional[int] = None,
    target: Optional[int] = None,
) -> Request[Cards]:
    held, strain, leader = Deal.of(deal), Strain.of(trump), Seat.of(first)
    trick = cards_of(played)
    fields: dict[str, Any] = {"do": "solve", "deal": held.pbn, "trump": strain, "first": leader}
    if trick:
        fields["played"] = _pairs(trick)
    fields["solutions"] = (3 if target is None else 2) if solutions is None else solutions
    if target is not None:
        fields["target"] = target
    return Request(fields, lambda reply: Cards.of_reply(reply["cards"], held, strain, leader, trick, target))


def leads(deal: DealLike, trump: StrainLike, declarer: SeatLike, solutions: int = 3) -> Request[Cards]:
    return solve(deal, trump, Seat.of(declarer).next, solutions=solutions)


def table(deal: DealLike) -> Request[Table]:
    held = Deal.of(deal)
    return Request({"do": "table", "deal": held.pbn}, lambda reply: Table.of_reply(reply["table"], held))


def par(
    of: Union[DealLike, Table, Sequence[Sequence[int]]],
    vulnerable: VulnerableLike,
    dealer: Optional[SeatLike] = None,
    side: Optional[SideLike] = None,
) -> Request[Par]:
    # Of a board of PBN each of these may be None.
    if of is None:
        raise BadDeal("the deal is missing: par is asked of a deal or of its twenty results")
    if dealer is None and side is None:
        raise ValueError("the dealer is missing: give dealer, one of N, E, S and W, or in its place side, NS or EW, which calls first")
    if dealer is not None and side is not None:
        raise ValueError("dealer and side are both given: par is asked by just one of the two")
    if vulnerable is None:
        raise ValueError("the vulnerability is missing: give one of the words 'None', 'NS', 'EW' and 'All'")
    who: dict[str, int] = {"dealer": Seat.of(dealer)} if dealer is not None else {"side": Side.of(side)} if side is not None else {}
    asked: dict[str, Any] = {**who, "vulnerable": Vulnerable.of(vulnerable)}

    def of_table(results: Sequence[Sequence[int]], held: Optional[Deal]) -> Request[Par]:
        rows = [list(row) for row in results]
        return ParOfTable({"do": "par", "table": rows, **asked}, lambda reply: Par.of_reply(reply, held))

    if isinstance(of, Table):
        return of_table(of.tricks, of.deal)
    if not isinstance(of, (Deal, str)):
        return of_table(of, None)
    deal = Deal.of(of)
    fields: dict[str, Any] = {"do": "par", "deal": deal.pbn, **asked}
    return ParOfDeal(fields, lambda reply: Par.of_reply(reply, deal), table(deal), lambda found: of_table(found.tricks, deal))


def play(deal: DealLike, trump: StrainLike, first: SeatLike, cards: Iterable[CardLike]) -> Request[Play]:
    held, strain, leader = Deal.of(deal), Strain.of(trump), Seat.of(first)
    order = cards_of(cards)
    fields = {"do": "play", "deal": held.pbn, "trump": strain, "first": leader, "cards": _pairs(order)}
    return Request(fields, lambda reply: Play.of_reply(reply["tricks"], held, strain, leader, order))


def _pairs(cards: Iterable[Card]) -> list[list[int]]:
    return [[card.suit, card.rank] for card in cards]
