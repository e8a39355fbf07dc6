"""The words of bridge: suits, strains, seats, vulnerability and cards. The numbers are those of the protocol."""
from __future__ import annotations

import re
from enum import IntEnum
from typing import Iterable, NamedTuple, Tuple, Type, TypeVar, Union

RANKS = "23456789TJQKA"
# A card in a text: suit and rank in either order.
_CARD = re.compile(r"[SHDC♠♥♦♣](?:10|[2-9TJQKA])|(?:10|[2-9TJQKA])[SHDC♠♥♦♣]")
LOWEST, HIGHEST = 2, 14
PER_HAND = 13


class Suit(IntEnum):
    SPADES = 0
    HEARTS = 1
    DIAMONDS = 2
    CLUBS = 3

    @property
    def symbol(self) -> str:
        return "♠♥♦♣"[self]

    @property
    def letter(self) -> str:
        return "SHDC"[self]

    @classmethod
    def of(cls, value: SuitLike) -> Suit:
        """A suit from itself, its number, letter, symbol or name."""
        return _member(cls, value, _SUITS, "suit")


class Strain(IntEnum):
    SPADES = 0
    HEARTS = 1
    DIAMONDS = 2
    CLUBS = 3
    NOTRUMP = 4

    @property
    def symbol(self) -> str:
        return ("♠", "♥", "♦", "♣", "NT")[self]

    @property
    def letters(self) -> str:
        return ("S", "H", "D", "C", "NT")[self]

    @classmethod
    def of(cls, value: StrainLike) -> Strain:
        """A strain from itself, its number, letter, symbol or name."""
        return _member(cls, value, _STRAINS, "strain")


class Seat(IntEnum):
    NORTH = 0
    EAST = 1
    SOUTH = 2
    WEST = 3

    @property
    def letter(self) -> str:
        return "NESW"[self]

    @property
    def next(self) -> Seat:
        """The hand to the left, which plays next."""
        return Seat((self + 1) % 4)

    @property
    def side(self) -> Side:
        return Side(self % 2)

    @classmethod
    def of(cls, value: SeatLike) -> Seat:
        """A seat from itself, its number, letter or name."""
        return _member(cls, value, _SEATS, "seat")


class Side(IntEnum):
    NORTH_SOUTH = 0
    EAST_WEST = 1

    @property
    def letters(self) -> str:
        return ("NS", "EW")[self]

    @classmethod
    def of(cls, value: SideLike) -> Side:
        """A side from itself, its number, or as `"NS"` and `"EW"`."""
        return _member(cls, value, _SIDES, "side")


class Vulnerable(IntEnum):
    NEITHER = 0
    BOTH = 1
    NORTH_SOUTH = 2
    EAST_WEST = 3

    @property
    def words(self) -> str:
        return ("neither side vulnerable", "both sides vulnerable", "North-South vulnerable", "East-West vulnerable")[self]

    @classmethod
    def of(cls, value: VulnerableLike) -> Vulnerable:
        """Vulnerability from itself, its number, or a word of PBN: `None`, `NS`, `EW`, `All`, also `Love`, `-` and `Both`."""
        return _member(cls, value, _VULNERABLE, "vulnerability")


class Card(NamedTuple):
    """A card; ranks are 2 to 14. Its text is suit and rank, as in `SA` and `HT`."""

    suit: Suit
    rank: int

    def __str__(self) -> str:
        return f"{self.suit.letter}{RANKS[self.rank - LOWEST]}"

    @property
    def symbol(self) -> str:
        return f"{self.suit.symbol}{RANKS[self.rank - LOWEST]}"

    @classmethod
    def of(cls, value: CardLike) -> Card:
        """A card from itself, from suit and rank, or from a text in either order: `SA`, `AS`, `♥10`, `ht`."""
        if not isinstance(value, str):
            suit, rank = value
            if isinstance(rank, str):
                rank = _rank(rank)
            if not LOWEST <= rank <= HIGHEST:
                raise ValueError(f"{rank} is no rank")
            return cls(Suit.of(suit), rank)
        text = value.strip().upper()
        if len(text) >= 2 and text[0] in _SUITS:
            return cls(_SUITS[text[0]], _rank(text[1:]))
        if len(text) >= 2 and text[-1] in _SUITS:
            return cls(_SUITS[text[-1]], _rank(text[:-1]))
        raise ValueError(f"{value!r} is no card")


def cards_of(cards: Iterable[CardLike]) -> Tuple[Card, ...]:
    """Cards from a list of them, or from a text that has one after the other: `S6S2SAS3`, `S6 S2 SA S3`, `6S, 2S`."""
    if not isinstance(cards, str):
        return tuple(map(Card.of, cards))
    text = re.sub(r"[\s,]", "", cards).upper()
    found = []
    while text:
        card = _CARD.match(text)
        if not card:
            raise ValueError(f"{cards[:80]!r} is no list of cards: none begins with {text[:3]!r}")
        found.append(Card.of(card.group()))
        text = text[card.end() :]
    return tuple(found)


SuitLike = Union[Suit, int, str]
StrainLike = Union[Strain, Suit, int, str]
SeatLike = Union[Seat, int, str]
SideLike = Union[Side, int, str]
VulnerableLike = Union[Vulnerable, int, str]
CardLike = Union[Card, str, Tuple[SuitLike, Union[int, str]]]

Member = TypeVar("Member", bound=IntEnum)


def _member(of: Type[Member], value: Union[int, str], words: dict[str, Member], what: str) -> Member:
    if isinstance(value, str):
        found = words.get(value.strip().upper())
        if found is None:
            raise ValueError(f"{value!r} is no {what}")
        return found
    try:
        return of(value)
    except ValueError:
        raise ValueError(f"{value!r} is no {what}") from None


def _rank(text: str) -> int:
    text = "T" if text == "10" else text.upper()
    if len(text) != 1 or text not in RANKS:
        raise ValueError(f"{text!r} is no rank")
    return RANKS.index(text) + LOWEST


def _words(of: Type[Member], **words: str) -> dict[str, Member]:
    found = {member.name: member for member in of}
    for name, others in words.items():
        found.update({word: of[name] for word in others.split()})
    return found


_SUITS = _words(Suit, SPADES="S ♠ SPADE", HEARTS="H ♥ HEART", DIAMONDS="D ♦ DIAMOND", CLUBS="C ♣ CLUB")
_STRAINS = _words(Strain, SPADES="S ♠ SPADE", HEARTS="H ♥ HEART", DIAMONDS="D ♦ DIAMOND", CLUBS="C ♣ CLUB", NOTRUMP="N NT NOTRUMPS")
_SEATS = _words(Seat, NORTH="N", EAST="E", SOUTH="S", WEST="W")
_SIDES = _words(Side, NORTH_SOUTH="NS N-S", EAST_WEST="EW E-W")
_VULNERABLE = _words(Vulnerable, NEITHER="NONE LOVE - O", BOTH="ALL B", NORTH_SOUTH="NS N-S N", EAST_WEST="EW E-W E")
