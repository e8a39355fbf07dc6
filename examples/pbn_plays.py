#!/usr/bin/env python3
"""Turns the plays of PBN files, and of LIN files, into `play` lines of ddserve: one line for each board with a play.

    python3 examples/pbn_plays.py games.pbn | ddserve solve

A board of PBN has its play in the section Play, and its contract in the tags Contract and Declarer or in the section
Auction. A board of LIN has its hands in `md`, its calls in `mb` and its cards in `pc`; `mc`, a claim, ends the play.
Boards without a deal, a contract or a play are left out. In a deal the ten is T, as for ddserve; a card of a play may be
S10. Nothing of this program is proved.
"""

import argparse
import json
import re
import sys

SEATS = "NESW"
SUITS = "SHDC"
RANKS = "23456789TJQKA"
STRAINS = "SHDCN"

# The tags that every game should have: one that comes again begins the next game.
REQUIRED = set(
    "event site date board west north east south dealer vulnerable deal scoring declarer contract result".split()
)


def card_of(text):
    """The card that the text names, as suit and rank, or None."""
    text = text.upper().replace("10", "T")
    if len(text) == 2 and text[0] in SUITS and text[1] in RANKS:
        return SUITS.index(text[0]), RANKS.index(text[1]) + 2
    return None


def written(hands):
    """The hands of North, East, South and West as the tag Deal has them."""
    def suit(hand, number):
        ranks = sorted((rank for s, rank in hand if s == number), reverse=True)
        return "".join(RANKS[rank - 2] for rank in ranks)
    return "N:" + " ".join(".".join(suit(hand, s) for s in range(4)) for hand in hands)


def hands_of(value):
    """The four hands that the value of a tag Deal spells, North's first, or None."""
    match = re.fullmatch(r"\s*([NESWnesw])\s*:\s*(\S+)\s+(\S+)\s+(\S+)\s+(\S+)\s*", value)
    if not match:
        return None
    first = SEATS.index(match.group(1).upper())
    hands = [None] * 4
    for place, text in enumerate(match.groups()[1:]):
        suits = text.upper().split(".")
        if len(suits) != 4 or any(rank not in RANKS for suit in suits for rank in suit):
            return None
        hands[(first + place) % 4] = [(s, RANKS.index(rank) + 2) for s, suit in enumerate(suits) for rank in suit]
    return hands


def contract_of(dealer, calls):
    """Strain and declarer of an auction, or None where it is passed out. Calls are `1C` to `7N`, and others."""
    last, named, seat = None, {}, dealer
    for call in calls:
        if re.fullmatch(r"[1-7][SHDCN]", call):
            strain = STRAINS.index(call[1])
            named.setdefault((strain, seat % 2), seat)
            last = strain, named[strain, seat % 2]
        seat = (seat + 1) % 4
    return last


def winner(cards, trump, leader):
    """The seat that wins a trick of four cards, the leader's first."""
    led = cards[0][0]
    def strength(card):
        suit, rank = card
        return (2 if suit == trump else 1 if suit == led else 0), rank
    best = max(range(4), key=lambda place: strength(cards[place]))
    return (leader + best) % 4


def played(tokens, first, trump):
    """The cards of a section Play in the order in which they were played: columns begin at the opening leader, and a row
    is turned to begin with the winner of the trick before."""
    cards, leader = [], first
    for at in range(0, len(tokens), 4):
        row = tokens[at:at + 4]
        turn = (leader - first) % 4
        trick = []
        for place in range(4):
            column = (turn + place) % 4
            card = row[column] if column < len(row) else None
            if card is None:
                return cards + trick
            trick.append(card)
        cards += trick
        leader = winner(trick, trump, leader)
    return cards


def play_line(hands, trump, first, cards):
    return json.dumps(
        {"do": "play", "deal": written(hands), "trump": trump, "first": first, "cards": [list(card) for card in cards]},
        separators=(",", ":"),
    )


# ---- PBN


def skip_gap(text, at):
    """Past blanks, line ends, comments and escaped lines."""
    while at < len(text):
        if text[at] == "%" and (at == 0 or text[at - 1] == "\n"):
            end = text.find("\n", at)
            at = len(text) if end < 0 else end
        elif text[at] in " \t\v\f\r\n":
            at += 1
        elif text[at] == ";":
            end = text.find("\n", at)
            at = len(text) if end < 0 else end
        elif text[at] == "{":
            end = text.find("}", at)
            at = len(text) if end < 0 else end + 1
        else:
            return at
    return at


STRING = re.compile(r'"((?:[^"\\\n]|\\[^\n])*)"')
NAME = re.compile(r"[0-9A-Za-z_]+")


def tag_at(text, at):
    """The tag that begins here: its name, its value and its end. None where none does."""
    if text[at] != "[":
        return None
    name = NAME.match(text, skip_gap(text, at + 1))
    if not name:
        return None
    string = STRING.match(text, skip_gap(text, name.end()))
    if not string:
        return None
    end = skip_gap(text, string.end())
    if text[end:end + 1] != "]":
        return None
    return name.group().lower(), re.sub(r'\\(["\\])', r"\1", string.group(1)), end + 1


def ends_game(text, at):
    """Does a line begin here that holds nothing but blanks?"""
    return (at == 0 or text[at - 1] == "\n") and re.match(r"[ \t\v\f\r]*(\n|\Z)", text[at:at + 65536])


def games_of(text):
    """The games of a PBN file: for each its tags, and the data of its sections by the names of their tags."""
    game, at = [], 1 if text.startswith("\ufeff") else 0
    while at < len(text):
        if game and ends_game(text, at):
            yield game
            game = []
        tag = tag_at(text, at)
        if tag:
            name, value, at = tag
            if name in REQUIRED and any(name == other for other, _, _ in game):
                yield game
                game = []
            game.append((name, value, []))
            continue
        past = skip_gap(text, at)
        if past > at:
            # An empty line may stand among what is passed over.
            at = min(past, at + 1) if text[at] in " \t\v\f\r\n" else past
            continue
        string = STRING.match(text, at)
        token = string.group() if string else re.match(r"""[^\s"{;\[]+|.""", text[at:]).group()
        if game:
            game[-1][2].append(token)
        at += len(token)
    if game:
        yield game


def section(game, name):
    """The value of a tag and the data behind it, or None."""
    for other, value, data in game:
        if other == name:
            return value, data
    return None


def data_words(data):
    """The words of a section's data up to `*` or `+`, without notes, suffixes and numbers of notes."""
    for word in data:
        word = re.sub(r"[!?]+$", "", word)
        if word in ("*", "+"):
            return
        if word and not re.match(r"[$=^]", word):
            yield word


def pbn_contract(game):
    """Strain and declarer by the tags, else by the auction."""
    contract, declarer = section(game, "contract"), section(game, "declarer")
    # A word of another language is none of these: `3SA` is not spades.
    match = re.match(r"[1-7](NT?|[SHDC])X{0,2}(?![^\W\d_])", contract[0].upper()) if contract else None
    if match and declarer and declarer[0].upper()[-1:] in tuple(SEATS):
        return STRAINS.index(match.group(1)[0]), SEATS.index(declarer[0].upper()[-1])
    auction = section(game, "auction")
    if not auction or auction[0].upper() not in tuple(SEATS):
        return None
    calls = [re.sub("NT$", "N", word.upper()) for word in data_words(auction[1])]
    return contract_of(SEATS.index(auction[0].upper()), calls)


def pbn_lines(text):
    """A line for each game with a deal, a contract and a play."""
    for game in games_of(text):
        deal, play, contract = section(game, "deal"), section(game, "play"), pbn_contract(game)
        hands = hands_of(deal[0]) if deal else None
        if not hands or not play or not contract:
            continue
        strain, declarer = contract
        first = (declarer + 1) % 4
        if play[0].upper() in tuple(SEATS):
            first = SEATS.index(play[0].upper())
        tokens = [card_of(word) for word in data_words(play[1])]
        cards = played(tokens, first, strain)
        if cards:
            yield play_line(hands, strain, first, cards)


# ---- LIN


def lin_hands(value):
    """Dealer and hands of a field `md`: its digit is the dealer, South's hand comes first, and East's may be left out. The hands are None
    where a letter is no suit and no rank: the ten is `T`."""
    dealer = "SWNE".find("SWNE"[int(value[0]) - 1]) if value[:1] in tuple("1234") else 0
    dealer = SEATS.index("SWNE"[dealer])
    texts = re.sub(r"^\d", "", value).split(",")[:4]
    hands = {}
    for seat, text in zip("SWNE", texts):
        suit, hand = None, []
        for letter in "".join(text.upper().split()):
            if letter in SUITS:
                suit = SUITS.index(letter)
            elif letter in RANKS and suit is not None:
                hand.append((suit, RANKS.index(letter) + 2))
            else:
                return dealer, None
        if hand:
            hands[seat] = hand
    missing = [seat for seat in SEATS if seat not in hands]
    if len(missing) == 1:
        dealt = {card for hand in hands.values() for card in hand}
        hands[missing[0]] = [(s, r) for s in range(4) for r in range(2, 15) if (s, r) not in dealt]
    return dealer, [hands.get(seat, []) for seat in SEATS]


def lin_lines(text):
    """A line for each board with hands, a contract and cards."""
    fields = text.replace("\r", "").replace("\n", "").split("|")
    board = None
    for name, value in list(zip(fields[::2], fields[1::2])) + [("md", "")]:
        name = name.strip().lower()
        if name in ("md", "qx"):
            if board and board["hands"] and board["cards"]:
                contract = contract_of(board["dealer"], board["calls"])
                if contract:
                    strain, declarer = contract
                    yield play_line(board["hands"], strain, (declarer + 1) % 4, board["cards"])
            board = None
        if name == "md" and value:
            dealer, hands = lin_hands(value)
            board = {"dealer": dealer, "hands": hands, "calls": [], "cards": [], "over": False}
        elif board and name == "mb":
            board["calls"] += re.findall(r"[1-7][SHDCN]|P|D|R", re.sub("NT", "N", value.upper().replace("!", "")))
        elif board and name == "pc" and not board["over"]:
            cards = [card_of(piece) for piece in re.findall(r"[SHDCshdc](?:10|.)", value)]
            board["cards"] += [card for card in cards if card]
        elif board and name == "mc":
            board["over"] = True


def lines_of(data):
    text = data.decode("latin-1" if not is_utf8(data) else "utf-8")
    return lin_lines(text) if re.search(r"(^|\|)\s*md\|", text) else pbn_lines(text)


def is_utf8(data):
    try:
        data.decode("utf-8")
        return True
    except UnicodeDecodeError:
        return False


def main():
    parser = argparse.ArgumentParser(description=__doc__.split("\n\n")[0])
    parser.add_argument("files", nargs="*", help="PBN or LIN files; the standard input where none is given")
    arguments = parser.parse_args()
    if not arguments.files:
        for line in lines_of(sys.stdin.buffer.read()):
            print(line)
    for name in arguments.files:
        with open(name, "rb") as file:
            for line in lines_of(file.read()):
                print(line)


if __name__ == "__main__":
    main()
