"""Results: the tricks of cards, the twenty results of a deal, par, and the trace of a play. Each shows itself as text and, in a
notebook, as a hand diagram with tricks."""
from __future__ import annotations

from dataclasses import dataclass
from typing import Any, Dict, Iterator, List, Mapping, Optional, Sequence, Tuple, Union

from . import show
from .bridge import HIGHEST, LOWEST, Card, CardLike, Seat, SeatLike, Side, Strain, StrainLike
from .deal import Deal

# The order in which people print strains.
PRINTED = (Strain.NOTRUMP, Strain.SPADES, Strain.HEARTS, Strain.DIAMONDS, Strain.CLUBS)


@dataclass(frozen=True)
class Choice:
    """Cards that are one choice, since no card between them is in another hand: the highest first."""

    cards: Tuple[Card, ...]
    tricks: int

    @property
    def card(self) -> Card:
        return self.cards[0]

    def __str__(self) -> str:
        return " ".join(card.symbol for card in self.cards)


@dataclass(frozen=True)
class Cards:
    """The choices of a position, the best first. With a target each has the target as its tricks: at least so many."""

    choices: Tuple[Choice, ...]
    deal: Deal
    trump: Strain
    first: Seat
    played: Tuple[Card, ...]
    target: Optional[int] = None

    @classmethod
    def of_reply(
        cls, classes: Sequence[Mapping[str, int]], deal: Deal, trump: Strain, first: Seat, played: Tuple[Card, ...], target: Optional[int]
    ) -> Cards:
        return cls(tuple(_choice(**it) for it in classes), deal, trump, first, played, target)

    @property
    def to_play(self) -> Seat:
        return Seat((self.first + len(self.played)) % 4)

    @property
    def best(self) -> Tuple[Card, ...]:
        """The cards of most tricks."""
        most = max((choice.tricks for choice in self.choices), default=0)
        return tuple(card for choice in self.choices if choice.tricks == most for card in choice.cards)

    @property
    def tricks(self) -> Dict[Card, int]:
        """Each card's tricks, those of equal cards too, for the side of the hand to play and from here on."""
        return {card: choice.tricks for choice in self.choices for card in choice.cards}

    def __getitem__(self, card: CardLike) -> int:
        return self.tricks[Card.of(card)]

    def __iter__(self) -> Iterator[Choice]:
        return iter(self.choices)

    def __len__(self) -> int:
        return len(self.choices)

    @property
    def title(self) -> str:
        trumps = "Notrump" if self.trump == Strain.NOTRUMP else f"{self.trump.name.capitalize()} are trumps"
        trick = f", on {' '.join(card.symbol for card in self.played)}" if self.played else ""
        aim = "" if self.target is None else f". Cards for {self.target} tricks or more"
        return f"{trumps}, {self.to_play.name.capitalize()} to play{trick}{aim}"

    def __str__(self) -> str:
        by_tricks: Dict[int, List[str]] = {}
        for choice in self.choices:
            by_tricks.setdefault(choice.tricks, []).append(str(choice))
        at_least = "" if self.target is None else " or more"
        rows = [f"{tricks:2} trick{'s' * (tricks != 1)}{at_least}: {'  '.join(cards)}" for tricks, cards in by_tricks.items()]
        return "\n".join([str(self.deal), "", self.title, *(rows or ["No card."])])

    def _repr_html_(self) -> str:
        return show.html_diagram(self.deal.hands, self.title, self.to_play, self.tricks)


@dataclass(frozen=True)
class Table:
    """The twenty results of a deal: `table[strain, seat]` is what that seat takes as declarer.

    `tricks` has a row for each strain, spades to notrump, and a row the tricks of North, East, South and West, 0 to 13 each. The table
    itself may be listed as these rows."""

    tricks: Tuple[Tuple[int, int, int, int], ...]
    deal: Deal

    @classmethod
    def of_reply(cls, rows: Sequence[Sequence[int]], deal: Deal) -> Table:
        return cls(tuple((row[0], row[1], row[2], row[3]) for row in rows), deal)

    def __getitem__(self, at: Tuple[StrainLike, SeatLike]) -> int:
        strain, seat = at
        return self.tricks[Strain.of(strain)][Seat.of(seat)]

    def __iter__(self) -> Iterator[Tuple[int, int, int, int]]:
        return iter(self.tricks)

    def __len__(self) -> int:
        return len(self.tricks)

    def __str__(self) -> str:
        head = "  " + "".join(f"{strain.symbol:>4}" for strain in PRINTED)
        rows = [f"{seat.letter} " + "".join(f"{self[strain, seat]:4}" for strain in PRINTED) for seat in Seat]
        return "\n".join([str(self.deal), "", head, *rows])

    def _repr_html_(self) -> str:
        head = ["", *(show.html_strain(strain) for strain in PRINTED)]
        rows = [[seat.letter, *(str(self[strain, seat]) for strain in PRINTED)] for seat in Seat]
        return show.beside(show.html_diagram(self.deal.hands), show.html_table(head, rows))


@dataclass(frozen=True)
class Contract:
    """A par contract: the least level of this strain and side that is worth par."""

    level: int
    trump: Strain
    declarers: Tuple[Seat, ...]
    tricks: int

    @property
    def doubled(self) -> bool:
        return self.tricks < self.level + 6

    @property
    def over(self) -> int:
        """The tricks above the contract; less than 0 where it goes down."""
        return self.tricks - self.level - 6

    def __str__(self) -> str:
        result = f"{self.over:+d}" if self.over else "="
        seats = "".join(seat.letter for seat in self.declarers)
        return f"{self.level}{self.trump.symbol}{'x' * self.doubled} {seats} {result}"


@dataclass(frozen=True)
class Par:
    """Par: the score of North and South, and the contracts worth it; none where all pass."""

    score: int
    contracts: Tuple[Contract, ...]
    deal: Optional[Deal] = None

    @classmethod
    def of_reply(cls, reply: Mapping[str, Any], deal: Optional[Deal]) -> Par:
        contracts = tuple(
            Contract(it["level"], Strain(it["trump"]), tuple(Seat(seat) for seat in it["declarers"]), it["tricks"]) for it in reply["contracts"]
        )
        return cls(reply["score"], contracts, deal)

    @property
    def text(self) -> str:
        if not self.contracts:
            return "Par: passed out"
        side = Side.NORTH_SOUTH if self.score >= 0 else Side.EAST_WEST
        return f"Par: {side.letters} {abs(self.score)}, {', '.join(map(str, self.contracts))}"

    def __str__(self) -> str:
        return self.text if self.deal is None else f"{self.deal}\n\n{self.text}"

    def _repr_html_(self) -> str:
        return show.html_diagram(self.deal.hands, self.text) if self.deal is not None else f"<p>{show.escape(self.text)}</p>"


@dataclass(frozen=True)
class Step:
    """A card of a play: who played it, the tricks of declarer's side after it, and what it cost the side that played it."""

    seat: Seat
    card: Card
    tricks: int
    cost: int


@dataclass(frozen=True)
class Play:
    """The trace of a play: the tricks of declarer's side before the first card and after each one."""

    tricks: Tuple[int, ...]
    deal: Deal
    trump: Strain
    first: Seat
    cards: Tuple[Card, ...]

    @classmethod
    def of_reply(cls, tricks: Sequence[int], deal: Deal, trump: Strain, first: Seat, cards: Tuple[Card, ...]) -> Play:
        return cls(tuple(tricks), deal, trump, first, cards)

    @property
    def declarer(self) -> Seat:
        """The hand whose left opponent leads."""
        return Seat((self.first + 3) % 4)

    @property
    def steps(self) -> Tuple[Step, ...]:
        found = []
        for card, before, after in zip(self.cards, self.tricks, self.tricks[1:]):
            seat = self.deal.holder(card)
            assert seat is not None
            cost = before - after if seat.side == self.declarer.side else after - before
            found.append(Step(seat, card, after, cost))
        return tuple(found)

    @property
    def mistakes(self) -> Tuple[Step, ...]:
        """The cards that cost a trick."""
        return tuple(step for step in self.steps if step.cost)

    @property
    def title(self) -> str:
        trumps = "notrump" if self.trump == Strain.NOTRUMP else self.trump.name.lower()
        return f"{self.declarer.name.capitalize()} declares in {trumps}: {self.tricks[0]} tricks before the lead, {self.tricks[-1]} after {len(self.cards)} cards"

    def __str__(self) -> str:
        steps = self.steps
        rows = []
        for at in range(0, len(steps), 4):
            cards = [f"{step.seat.letter} {step.card.symbol} {step.tricks}{'!' * step.cost}" for step in steps[at : at + 4]]
            rows.append(f"{at // 4 + 1:2}  " + "".join(f"{card:10}" for card in cards).rstrip())
        return "\n".join([str(self.deal), "", self.title, *rows])

    def _repr_html_(self) -> str:
        costs = [(at + 1, f"{step.seat.letter} {step.card.symbol} cost {step.cost}") for at, step in enumerate(self.steps) if step.cost]
        return show.beside(show.html_diagram(self.deal.hands, self.title), show.svg_trace(self.tricks, costs))


Result = Union[Cards, Table, Par, Play]


def _choice(suit: int, rank: int, equals: int, score: int) -> Choice:
    ranks = [rank, *(lower for lower in range(HIGHEST, LOWEST - 1, -1) if equals >> lower & 1)]
    of = Strain(suit)
    return Choice(tuple(Card.of((of, it)) for it in ranks), score)
