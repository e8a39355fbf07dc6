"""Deals of the first so many cards of a shuffled pack, from a fixed seed: lines `trump first deal`, or request lines."""
import argparse
import random

RANKS = "23456789TJQKA"


def suits_of(text):
    """Returns the cards of a hand, such as AKQ.KJ2.AQ5.KQJ3."""
    return [(suit, RANKS.index(rank)) for suit, ranks in enumerate(text.split(".")) for rank in ranks]


parser = argparse.ArgumentParser(description=__doc__)
parser.add_argument("cards", type=int, choices=range(1, 14), help="cards a hand")
parser.add_argument("deals", type=int)
parser.add_argument("--seed", type=int, default=20261122)
parser.add_argument("--strain", type=int, choices=range(5), help="for all deals; else each strain in turn")
parser.add_argument("--first", type=int, choices=range(4), help="who leads, in all deals; else each hand in turn")
parser.add_argument("--south", type=suits_of, default=[], metavar="HAND", help="South's cards in all deals, as S.H.D.C")
parser.add_argument("--points", type=int, default=0, help="the least that North and South have together: ace 4, king 3, queen 2, jack 1")
parser.add_argument("--requests", action="store_true", help="request lines for the scores of all cards")
words = parser.parse_args()


def dealt():
    """Returns the cards of each hand, North first."""
    pack = [(suit, rank) for suit in range(4) for rank in range(13) if (suit, rank) not in words.south]
    random.shuffle(pack)
    pack[2 * words.cards:2 * words.cards] = words.south
    return [pack[seat * words.cards:(seat + 1) * words.cards] for seat in range(4)]


def points(cards):
    return sum(max(0, rank - RANKS.index("T")) for _, rank in cards)


if words.south and len(words.south) != words.cards:
    parser.error("South's hand has another number of cards")
random.seed(words.seed)
for number in range(words.deals):
    hands = dealt()
    while points(hands[0] + hands[2]) < words.points:
        hands = dealt()
    texts = [".".join("".join(RANKS[r] for r in range(12, -1, -1) if (suit, r) in own) for suit in range(4)) for own in hands]
    deal = "N:" + " ".join(texts)
    trump = number % 5 if words.strain is None else words.strain
    first = number % 4 if words.first is None else words.first
    if words.requests:
        print(f'{{"do":"solve","deal":"{deal}","trump":{trump},"first":{first},"solutions":3}}')
    else:
        print(trump, first, deal)
