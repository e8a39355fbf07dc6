"""A deal: the cards of four hands."""
from __future__ import annotations

import random
import re
from dataclasses import dataclass
from typing import Iterable, Mapping, Optional, Tuple, Union
from urllib.parse import unquote

from . import show
from .bridge import HIGHEST, LOWEST, PER_HAND, RANKS, Card, CardLike, Seat, SeatLike, Suit, cards_of
from .marks import TagText, marks

Hand = Tuple[str, str, str, str]
HandLike = Union[str, Iterable[CardLike]]
DECK = tuple(Card(suit, rank) for suit in Suit for rank in range(HIGHEST, LOWEST - 1, -1))


class BadDeal(ValueError):
    """A text or a list of cards that is no deal."""


@dataclass(frozen=True)
class Deal:
    """Four hands from North clockwise. Each is its spades, hearts, diamonds and clubs, the highest rank first.

    It may have fewer than 52 cards, and hands of different lengths, as within a trick."""

    hands: Tuple[Hand, Hand, Hand, Hand]

    def __post_init__(self) -> None:
        seen = set()
        for card in (card for seat in Seat for card in self.cards(seat)):
            if card in seen:
                raise BadDeal(f"{card} stands twice in the deal")
            seen.add(card)

    @classmethod
    def from_pbn(cls, text: str) -> Deal:
        """A deal from the value of PBN's tag Deal, `N:AKQ.J98..T ...`, or from a text that has the whole tag."""
        value = (_tag_deal(text) if "[" in text else text).strip()
        found = re.fullmatch(r"([NESWnesw]):(.*)", value, re.DOTALL)
        if not found:
            raise BadDeal(f"{value[:80]!r} is no deal of PBN: it doesn't begin with a seat and a colon, as in N:")
        hands = found.group(2).split()
        if len(hands) != 4:
            raise BadDeal(f"{value[:80]!r} is no deal of PBN: it has {len(hands)} hands")
        return cls._from(Seat.of(found.group(1)), [_hand_of_pbn(hand) for hand in hands])

    @classmethod
    def from_lin(cls, text: str) -> Deal:
        """A deal from a line of LIN, `..|md|3SAKQ..,..|..`, from an address that has one, or from the value of `md` alone.

        The hands stand from South clockwise. A hand that is left out has the cards of the deck that are left."""
        text = unquote(text) if re.search("%7c", text, re.IGNORECASE) else text
        tag = re.search(r"(?:^|[|=])\s*md\s*\|([^|]*)", text)
        value = re.sub(r"\s", "", tag.group(1) if tag else text.strip().strip("|"))
        found = re.fullmatch(r"([1-4]?)([^,]*(?:,[^,]*){2,3})", value)
        if not found:
            raise BadDeal(f"{value[:80]!r} is no deal of LIN")
        hands = [_hand_of_lin(hand) for hand in found.group(2).split(",")][:4]
        hands += [("", "", "", "")] * (4 - len(hands))
        missing = [at for at, hand in enumerate(hands) if not any(hand)]
        if len(missing) == 1:
            held = {card for hand in hands for card in _cards(hand)}
            hands[missing[0]] = _hand_of([card for card in DECK if card not in held])
        return cls._from(Seat.SOUTH, hands)

    @classmethod
    def from_cards(cls, hands: Union[Mapping[SeatLike, HandLike], Mapping[str, HandLike], Mapping[Seat, HandLike], Iterable[HandLike]]) -> Deal:
        """A deal from each seat's cards, or from four hands from North clockwise.

        A hand is a list of cards, `["SA", "HT"]`, or a text with dots between its suits."""
        held: dict[Seat, HandLike]
        if isinstance(hands, Mapping):
            held = {Seat.of(seat): hand for seat, hand in hands.items()}
        else:
            listed = list(hands)
            if len(listed) != 4:
                raise BadDeal(f"a deal has four hands, and not {len(listed)}")
            held = dict(zip(Seat, listed))
        hands_of = [held.get(seat, ()) for seat in Seat]
        return cls._from(Seat.NORTH, [_hand_of_pbn(hand) if isinstance(hand, str) else _hand_of(map(_card, hand)) for hand in hands_of])

    @classmethod
    def by_chance(cls, cards: int = PER_HAND, rng: Optional[random.Random] = None) -> Deal:
        """A deal of so many cards a hand, all deals alike likely. `rng` may be a `random.Random` with a seed."""
        if not 1 <= cards <= PER_HAND:
            raise BadDeal(f"a hand has 1 to {PER_HAND} cards, and not {cards}")
        drawn = (rng or random.SystemRandom()).sample(DECK, 4 * cards)
        return cls._from(Seat.NORTH, [_hand_of(drawn[at * cards : (at + 1) * cards]) for at in range(4)])

    @classmethod
    def of(cls, value: DealLike) -> Deal:
        """A deal from itself, or from a text of PBN or LIN."""
        if isinstance(value, Deal):
            return value
        if not isinstance(value, str):
            raise BadDeal(f"{repr(value)[:80]} is no deal")
        # LIN has bars between its fields and commas between its hands. PBN has neither.
        is_pbn = re.match(r"\s*[NESWnesw]:|[^|]*\[", value) or not re.search("[|,]|%7c", value, re.IGNORECASE)
        return cls.from_pbn(value) if is_pbn else cls.from_lin(value)

    @classmethod
    def _from(cls, first: Seat, hands: list[Hand]) -> Deal:
        turned = [hands[(seat - first) % 4] for seat in Seat]
        return cls((turned[0], turned[1], turned[2], turned[3]))

    def cards(self, seat: SeatLike) -> Tuple[Card, ...]:
        return _cards(self.hands[Seat.of(seat)])

    def holder(self, card: CardLike) -> Optional[Seat]:
        """Who has the card."""
        card = Card.of(card)
        return next((seat for seat in Seat if card in self.cards(seat)), None)

    def without(self, cards: Iterable[CardLike]) -> Deal:
        """The deal when these cards have left it."""
        gone = cards_of(cards)
        for card in gone:
            if self.holder(card) is None:
                raise BadDeal(f"{card} is in no hand")
        return Deal._from(Seat.NORTH, [_hand_of([card for card in self.cards(seat) if card not in gone]) for seat in Seat])

    @property
    def pbn(self) -> str:
        """The value of PBN's tag Deal."""
        return "N:" + " ".join(".".join(hand) for hand in self.hands)

    def __str__(self) -> str:
        return show.diagram(self.hands)

    def _repr_html_(self) -> str:
        return show.html_diagram(self.hands)


DealLike = Union[Deal, str]


def _tag_deal(text: str) -> str:
    """What the first tag Deal of a text says, or else the text."""
    tags = (it for it in marks(text.encode("utf-8", "replace")) if isinstance(it, TagText))
    return next((tag.value.decode() for tag in tags if tag.name.lower() == b"deal"), text)


def _card(value: CardLike) -> Card:
    try:
        return Card.of(value)
    except ValueError as error:
        raise BadDeal(str(error)) from None


def _cards(hand: Hand) -> Tuple[Card, ...]:
    return tuple(Card(suit, RANKS.index(rank) + LOWEST) for suit, ranks in zip(Suit, hand) for rank in ranks)


def _hand_of(cards: Iterable[Card]) -> Hand:
    held = list(cards)
    return _suits(["".join(RANKS[card.rank - LOWEST] for card in held if card.suit == suit) for suit in Suit])


def _hand_of_pbn(text: str) -> Hand:
    suits = text.strip().split(".")
    if len(suits) != 4:
        raise BadDeal(f"{text[:80]!r} is no hand: its spades, hearts, diamonds and clubs with dots between")
    return _suits(suits)


def _hand_of_lin(text: str) -> Hand:
    found = re.fullmatch(r"(?:S([^SHDC]*))?(?:H([^SHDC]*))?(?:D([^SHDC]*))?(?:C([^SHDC]*))?", text.upper())
    if not found:
        raise BadDeal(f"{text[:80]!r} is no hand of LIN")
    return _suits([suit or "" for suit in found.groups()])


def _suits(suits: list[str]) -> Hand:
    upper = [suit.upper() for suit in suits]
    for suit in upper:
        # In the text of a deal each card is one letter, as the program reads it.
        wrong = re.search(f"10|[^{RANKS}]", suit)
        if wrong:
            raise BadDeal(f"{wrong.group()!r} is no rank" + (": the ten is written T" if wrong.group() == "10" else ""))
    sorted_ = ["".join(sorted(suit, key=RANKS.index, reverse=True)) for suit in upper]
    return (sorted_[0], sorted_[1], sorted_[2], sorted_[3])
