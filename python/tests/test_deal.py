"""Deals, cards and the words of bridge, from the forms in which people have them."""
import pickle
import random
from typing import Any, Callable, Dict, List

import pytest

from ddserve import BadDeal, Card, Deal, Seat, Strain, Suit, Vulnerable, requests
from ddserve.bridge import SeatLike, StrainLike, cards_of
from ddserve.deal import HandLike

PBN = "N:J6.72.AQ7643.AJ7 Q9842.Q854.T.K42 AT75.AT9.KJ8.T83 K3.KJ63.952.Q965"
# The same deal, as a line of BBO has it: from South clockwise, with East's hand left out.
LIN = "qx|o1|md|3SAT75HAT9DKJ8CT83,SK3HKJ63D952CQ965,SJ6H72DAQ7643CAJ7,|rh||ah|Board 1|sv|o|mb|p|"


@pytest.mark.parametrize(
    "text, suit, rank",
    [("SA", Suit.SPADES, 14), ("as", Suit.SPADES, 14), ("♥10", Suit.HEARTS, 10), ("HT", Suit.HEARTS, 10), ("2c", Suit.CLUBS, 2), ("D9", Suit.DIAMONDS, 9)],
)
def test_a_card_is_read_in_either_order(text: str, suit: Suit, rank: int) -> None:
    assert Card.of(text) == (suit, rank)


@pytest.mark.parametrize("text", ["", "S", "SX", "S1", "AA", "S11", "10"])
def test_what_is_no_card_is_refused(text: str) -> None:
    with pytest.raises(ValueError):
        Card.of(text)


def test_words_have_the_numbers_of_the_protocol() -> None:
    strains: List[StrainLike] = ["S", "hearts", "♦", "c", "NT", "N", 4]
    assert [Strain.of(it) for it in strains] == [0, 1, 2, 3, 4, 4, 4]
    seats: List[SeatLike] = ["N", "east", "S", 3]
    assert [Seat.of(it) for it in seats] == [0, 1, 2, 3]
    assert [Vulnerable.of(it) for it in ("None", "-", "Love", "All", "Both", "NS", "E-W")] == [0, 0, 0, 1, 1, 2, 3]
    wrong: List[Callable[[], object]] = [lambda: Strain.of("X"), lambda: Seat.of("Q"), lambda: Vulnerable.of("some"), lambda: Strain.of(5)]
    for of in wrong:
        with pytest.raises(ValueError):
            of()


@pytest.mark.parametrize(
    "text",
    [
        PBN,
        f'[Deal "{PBN}"]',
        f'[Event "x"]\n[Deal "{PBN}"]\n[Dealer "N"]\n',
        "E:Q9842.Q854.T.K42 AT75.AT9.KJ8.T83 K3.KJ63.952.Q965 J6.72.AQ7643.AJ7",
        "S:at75.9ta.kj8.t83  3k.kj63.952.q965 j6.72.aq7643.aj7 q9842.q854.t.k42",
        LIN,
        "https://www.bridgebase.com/tools/handviewer.html?lin=md%7C3SAT75HAT9DKJ8CT83%2CSK3HKJ63D952CQ965%2CSJ6H72DAQ7643CAJ7%2C%7C",
        "3SAT75HAT9DKJ8CT83,SK3HKJ63D952CQ965,SJ6H72DAQ7643CAJ7,SQ9842HQ854DTCK42",
        "sat75hat9dkj8ct83,sk3hkj63d952cq965,sj6h72daq7643caj7",
    ],
)
def test_one_deal_in_many_forms(text: str) -> None:
    assert Deal.of(text).pbn == PBN


def test_a_deal_from_cards() -> None:
    hands: Dict[SeatLike, HandLike] = {"S": ["SA", "HK"], Seat.NORTH: "32..5.", "E": [("C", 9), "D2"], "W": []}
    deal = Deal.from_cards(hands)
    assert deal.pbn == "N:32..5. ..2.9 A.K.. ..."
    assert Deal.from_cards(["A...", "K...", "Q...", "J..."]).cards("W") == (Card(Suit.SPADES, 11),)
    assert deal.holder("HK") == Seat.SOUTH and deal.holder("CA") is None
    assert deal.without(["HK", "D5"]).pbn == "N:32... ..2.9 A... ..."
    assert Deal.of(deal) is deal and pickle.loads(pickle.dumps(deal)) == deal and len({deal, deal}) == 1


@pytest.mark.parametrize(
    "text",
    ["", "N:", "N:A... K... Q...", "X:A... K... Q... J...", "N:A.. K... Q... J...", "N:A... A... Q... J...", "N:1... K... Q... J...", "3SAT,SK", "md|3S|"],
)
def test_what_is_no_deal_is_refused(text: str) -> None:
    with pytest.raises(BadDeal):
        Deal.of(text)


@pytest.mark.parametrize("text", [PBN[2:], "", "A K Q J", PBN[2:].replace(" ", "\n"), f'[Event "{PBN}"]'])
def test_a_deal_without_its_first_seat_is_none_of_pbn(text: str) -> None:
    with pytest.raises(BadDeal, match="is no deal of PBN"):
        Deal.of(text)


@pytest.mark.parametrize("value", [None, 7, ["A..."]])
def test_what_is_no_text_is_no_deal(value: Any) -> None:
    with pytest.raises(BadDeal, match="is no deal"):
        Deal.of(value)


def test_a_deal_is_that_of_a_tag_and_not_of_a_comment() -> None:
    other = PBN.replace("N:", "S:")
    for tag in (f'[deal"{PBN}"]', f'[\nDeal ; a comment\n"{PBN}"\n]', f'{{[Deal "{other}"]}}[Deal "{PBN}"]', f'% [Deal "{other}"]\n[Deal "{PBN}"]\n[Deal "{other}"]'):
        assert Deal.of(tag).pbn == PBN


@pytest.mark.parametrize("text", ["S6S2SAS3", "S6 S2 SA S3", "s6,s2,sa,s3", "6S 2S AS 3S", " ♠6♠2\nAS S3 "])
def test_cards_may_be_one_text(text: str) -> None:
    cards = [(Suit.SPADES, rank) for rank in (6, 2, 14, 3)]
    assert list(cards_of(text)) == cards
    assert requests.play(PBN, "NT", "N", text).fields["cards"] == [[0, 6], [0, 2], [0, 14], [0, 3]]
    assert requests.solve("N:9... ... ... ...", "NT", "E", text).fields["played"] == [[0, 6], [0, 2], [0, 14], [0, 3]]
    assert Deal.of("N:6... 2... A... 3...").without(text).pbn == "N:... ... ... ..."


@pytest.mark.parametrize("text", [
    PBN.replace(".T.", ".10."),
    PBN.lower().replace(".t.", ".10."),
    f'[Deal "{PBN.replace("KJ8.T83", "KJ8.1083")}"]',
    LIN.replace("SAT75", "SA1075"),
    LIN.replace("CT83", "C1083"),
])  # fmt: skip
def test_a_ten_of_two_digits_is_none_in_the_text_of_a_deal(text: str) -> None:
    assert Deal.of(text.replace("10", "T")).pbn == PBN
    reads: List[Callable[[str], object]] = [Deal.of, requests.table]
    for read in reads:
        with pytest.raises(BadDeal, match="^'10' is no rank: the ten is written T$"):
            read(text)


def test_a_ten_of_two_digits_is_none_in_a_hand_and_one_as_a_card() -> None:
    with pytest.raises(BadDeal, match="the ten is written T"):
        Deal.from_cards(["10...", "K...", "Q...", "J..."])
    assert Deal.from_cards([["S10"], "K...", "Q...", ["♠J"]]).pbn == "N:T... K... Q... J..."
    for wrong in ("N:1... K... Q... J...", "N:0... K... Q... J...", "N:01... K2... Q3... J4..."):
        with pytest.raises(BadDeal, match="^'[01]' is no rank$"):
            Deal.of(wrong)


def test_tens_are_cards_of_a_text() -> None:
    assert [str(card) for card in cards_of("H10D10 10c TS")] == ["HT", "DT", "CT", "ST"] and cards_of("") == ()
    for wrong in ("S6S", "S1", "S6 X", "66", "SS"):
        with pytest.raises(ValueError, match="is no list of cards"):
            cards_of(wrong)


def test_deals_by_chance() -> None:
    deal = Deal.by_chance(rng=random.Random(1))
    assert sorted(card for seat in Seat for card in deal.cards(seat)) == sorted(Card(suit, rank) for suit in Suit for rank in range(2, 15))
    assert all(len(deal.cards(seat)) == 13 for seat in Seat)
    assert deal == Deal.by_chance(rng=random.Random(1)) != Deal.by_chance(rng=random.Random(2))
    assert [len(Deal.by_chance(3).cards(seat)) for seat in Seat] == [3] * 4
    with pytest.raises(BadDeal):
        Deal.by_chance(14)
