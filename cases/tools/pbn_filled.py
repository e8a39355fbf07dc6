#!/usr/bin/env python3
"""What comes out for a file of PBN when its games get the lines that they lack: a reader of its own, by regular expressions
where the program has a machine over bytes. It knows nothing of the program. Results are those that its caller has.

As a program: pbn_filled.py FILE.. writes for each cut of each file, after each of its bytes, what comes out for it where all
deals have one table of results: the length as a line, then the bytes."""

import re
import sys

BLANK = rb"[ \t\v\f\r]"
# What may stand between the parts of a tag. A line that begins with `%` is passed over; inside of braces it is nothing special.
COMMENT = rb"(?:;[^\n]*|\{[^}]*\})"
REST = rb"(?:" + BLANK + rb"|" + COMMENT + rb")*"
GAP = REST + rb"(?:\n(?:%[^\n]*|" + REST + rb"))*"
TAG = re.compile(rb"\[" + GAP + rb"([A-Za-z0-9_]+)" + GAP + rb'"((?:[^"\\\n]|\\[^\n])*)"' + GAP + rb"\]")
# The same, cut off by the end of the file behind any of its parts.
OPEN_GAP = GAP + rb"(?:\{[^}]*|;[^\n]*)?"
CUT = re.compile(
    rb"\[(?:" + OPEN_GAP + rb"|" + GAP + rb"[A-Za-z0-9_]+(?:" + OPEN_GAP + rb"|" + GAP
    + rb'"(?:(?:[^"\\\n]|\\[^\n])*\\?|(?:[^"\\\n]|\\[^\n])*"' + OPEN_GAP + rb")))\Z"
)
# A byte that begins nothing, and those after it that can't.
PLAIN = re.compile(rb"[^\n][^\n;{\"\[]*")
EMPTY = re.compile(BLANK + rb"*(?:\n|\Z)")
STRING = re.compile(rb'"(?:[^"\\\n]|\\[^\n])*(?:"|\\?(?=\n)|\\?\Z)')

FIFTEEN = set(
    b"event site date board west north east south dealer vulnerable deal scoring declarer contract result".split()
)
SEATS = "NESW"
STRAINS = ["S", "H", "D", "C", "NT"]
ORDER = [4, 0, 1, 2, 3]


def deal_of(value):
    """The hands of a value, North's first, a set of cards for each; or the reason why it is left."""
    if value in (None, b"", b"?"):
        return "no deal"
    text = value.decode("latin-1")
    hand = r"((?:[2-9TJQKA]*\.){3}[2-9TJQKA]*|-)"
    # Blanks may stand before the colon.
    text = re.sub(r"^[ \t\v\f\r]*(.)[ \t\v\f\r]*:", r"\1:", text, count=1, flags=re.DOTALL)
    match = re.fullmatch(r"[ \t]*([NESW]):[ \t]*" + r"[ \t]+".join([hand] * 4) + r"[ \t]*", text, re.IGNORECASE)
    if len(value) > 1024 or not match or not text.isascii():
        return "deal refused, fault 4"
    if "-" in match.groups()[1:]:
        return "deal refused, fault 5"
    hands = [None] * 4
    cards = []
    for place, text in enumerate(match.groups()[1:]):
        held = [(suit, rank) for suit, ranks in enumerate(text.upper().split(".")) for rank in ranks]
        hands[(SEATS.index(match.group(1).upper()) + place) % 4] = held
        cards += held
    if len(set(cards)) < len(cards):
        return "deal refused, fault 6"
    counts = [len(held) for held in hands]
    if len(set(counts)) > 1:
        return "deal refused, fault 7"
    if counts[0] == 0:
        return "deal refused, fault 8"
    if counts[0] != 13:
        return "deal refused, fault 23"
    return tuple(frozenset(held) for held in hands)


def dealer_of(value):
    text = (value or b"").decode("latin-1").upper()
    return SEATS.index(text) if len(text) == 1 and text in SEATS else None


def vulnerable_of(value):
    """Which sides are vulnerable, North and South first."""
    words = {"none": (0, 0), "love": (0, 0), "-": (0, 0), "ns": (1, 0), "ew": (0, 1), "all": (1, 1), "both": (1, 1)}
    return words.get((value or b"").decode("latin-1").lower())


def points(level, strain, doubled, vulnerable, tricks):
    """The points of declarer's side (Law 77)."""
    over = tricks - level - 6
    if over < 0:
        if not doubled:
            return over * (100 if vulnerable else 50)
        steps = [200, 300] if vulnerable else [100, 200, 200, 300]
        return -sum(steps[min(step, len(steps) - 1)] for step in range(-over))
    each = 20 if strain in (2, 3) else 30
    bid = each * level + (10 if strain == 4 else 0)
    bid *= 2 if doubled else 1
    extra = (200 if vulnerable else 100) if doubled else each
    premium = (500 if vulnerable else 300) if bid >= 100 else 50
    slam = {6: 750 if vulnerable else 500, 7: 1500 if vulnerable else 1000}.get(level, 0)
    return bid + over * extra + premium + slam + (50 if doubled else 0)


# The strains from clubs up, as they are bid.
BIDS = [3, 2, 1, 0, 4]


def par_of(table, dealer, vulnerable):
    """Par and its contracts: (score, [(declarers, level, strain, tricks)])."""
    order = [(dealer + place) % 4 for place in range(4)]

    def worth(number, seat):
        level, strain = 1 + (number - 1) // 5, BIDS[(number - 1) % 5]
        tricks = table[strain][seat]
        side = points(level, strain, tricks < level + 6, vulnerable[seat % 2], tricks)
        return side if seat % 2 == 0 else -side

    score = 0
    for number in range(1, 36):
        for seat in reversed(order):
            score = (max if seat % 2 == 0 else min)(score, worth(number, seat))

    def stands(number, seat):
        for other in range(number, 36):
            for place, rival in enumerate(order):
                if rival % 2 == seat % 2 or (other == number and place > order.index(seat)):
                    continue
                better = worth(other, rival) > score if rival % 2 == 0 else worth(other, rival) < score
                if better:
                    return False
        return True

    found = [(n, s) for n in range(1, 36) for s in range(4) if worth(n, s) == score and stands(n, s)] if score else []
    contracts = []
    for strain in range(5):
        for side in range(2):
            group = [(n, s) for n, s in found if BIDS[(n - 1) % 5] == strain and s % 2 == side]
            if group:
                least = min(n for n, _ in group)
                seats = sorted(s for n, s in group if n == least)
                contracts.append((seats, 1 + (least - 1) // 5, strain, table[strain][seats[0]]))
    return score, contracts


def lines_of(table, par):
    """The lines by the names of their tags."""
    lines = {}
    seats = [0, 2, 1, 3]
    digits = "".join(f"{table[strain][seat]:x}" for seat in seats for strain in ORDER)
    lines[b"doubledummytricks"] = [f'[DoubleDummyTricks "{digits}"]']
    if par:
        score, contracts = par
        side = "NS" if score >= 0 else "EW"
        lines[b"optimumscore"] = [f'[OptimumScore "{side} {abs(score)}"]']
        texts = []
        for declarers, level, strain, tricks in contracts:
            over = tricks - level - 6
            result = "=" if over == 0 else f"+{over}" if over > 0 else f"X{over}"
            texts.append("".join(SEATS[s] for s in declarers) + f" {level}{STRAINS[strain]}{result}")
        lines[b"parcontract"] = ['[ParContract "' + ("; ".join(texts) or "Pass") + '"]']
    rows = [f"{SEATS[seat]} {STRAINS[strain]:>2} {table[strain][seat]:>2}" for seat in seats for strain in ORDER]
    lines[b"optimumresulttable"] = ['[OptimumResultTable "Declarer;Denomination\\2R;Result\\2R"]'] + rows
    return lines


class Value:
    """A value of a game, with what it has from the games before."""

    def __init__(self):
        self.own, self.before, self.lacking = [], None, None
        # What the tag of this game says.
        self.text = b""

    def told(self, text):
        self.text = text
        if text == b"#":
            self.own = [self.before]
        elif text.startswith(b"##"):
            self.own = [text[2:]]
            self.lacking = text[2:]
        else:
            self.own = [text]

    def value(self):
        return self.own[0] if self.own else self.lacking

    def end_game(self):
        self.before, self.own, self.text = self.value(), [], b""

    def unknown(self):
        """What is said of the text where it tells no value: its first 32 bytes, but control bytes, if there are any."""
        if self.text in (b"", b"?"):
            return ""
        return " or unknown: " + re.sub(r"[\0-\x1f\x7f]", "?", self.text[:32].decode("latin-1"))


def filled(data, results_of, tags=None):
    """What comes out for the bytes, and the notes of the games that are left: (number, board, reason)."""
    wanted = tags or [b"doubledummytricks", b"optimumscore", b"parcontract", b"optimumresulttable"]
    out, notes = [], []
    values = {name: Value() for name in (b"deal", b"dealer", b"vulnerable")}
    game = {"begun": False, "names": set(), "number": 1, "board": b""}

    def line_ends(place):
        head = data[:place]
        last = head.rfind(b"\n")
        returns = last > 0 and head[last - 1 : last] == b"\r"
        return (b"\r\n" if returns else b"\n"), not head.endswith(b"\n")

    def note(reason):
        if any(tag not in game["names"] for tag in wanted):
            notes.append((game["number"], game["board"], reason))

    def end_game(place, has_place, closed=True):
        if not game["begun"]:
            return
        add(place, has_place, closed)
        for value in values.values():
            value.end_game()
        game.update(begun=False, names=set(), number=game["number"] + 1, board=b"")

    def add(place, has_place, closed):
        if not (has_place and closed):
            note("not closed")
            return
        deal = deal_of(values[b"deal"].value())
        if isinstance(deal, str):
            note(deal)
            return
        lacking = [tag for tag in wanted if tag not in game["names"]]
        dealer, vulnerable = dealer_of(values[b"dealer"].value()), vulnerable_of(values[b"vulnerable"].value())
        known = dealer is not None and vulnerable is not None
        if {b"optimumscore", b"parcontract"} & set(lacking) and not known:
            name = "Dealer" if dealer is None else "Vulnerable"
            note(f"no par: {name} is missing{values[name.lower().encode()].unknown()}")
        if not any(known or tag in (b"doubledummytricks", b"optimumresulttable") for tag in lacking):
            return
        table = results_of(deal)
        if table is None:
            note("spent")
            return
        lines = lines_of(table, par_of(table, dealer, vulnerable) if known else None)
        end, leads = line_ends(place)
        for tag in (b"doubledummytricks", b"optimumscore", b"parcontract", b"optimumresulttable"):
            if tag in lacking:
                for line in lines.get(tag, []):
                    out.append(end + line.encode() if leads else line.encode() + end)

    def take(match):
        name, text = match.group(1).lower(), re.sub(rb'\\(["\\])', rb"\1", match.group(2))
        game["begun"] = True
        game["names"].add(name)
        if name in values:
            values[name].told(text)
        if name == b"board":
            game["board"] = text

    place, closed = 0, True
    if data.startswith(b"\xef\xbb\xbf"):
        place = 3
        out.append(data[:3])
    is_start = True
    while place < len(data):
        begin, first = place, is_start
        is_start = False
        if first and data[place : place + 1] == b"%":
            place = (data.find(b"\n", place) + 1) or len(data)
            is_start = True
            out.append(data[begin:place])
            continue
        if first and EMPTY.match(data, place):
            end_game(place, True)
        blanks = re.compile(BLANK + rb"*").match(data, place).end() if first else place
        tag = TAG.match(data, blanks)
        byte = data[place : place + 1]
        if tag:
            if tag.group(1).lower() in FIFTEEN & game["names"]:
                end_game(place, first)
            take(tag)
            place = tag.end()
        elif CUT.match(data, blanks):
            closed = False
            place = len(data)
        elif byte == b";":
            place = (data.find(b"\n", place) + len(data) + 1) % (len(data) + 1) if b"\n" in data[place:] else len(data)
        elif byte == b"{":
            stop = data.find(b"}", place)
            closed = stop >= 0
            place = stop + 1 if closed else len(data)
        elif byte == b'"':
            place = STRING.match(data, place).end()
        elif byte == b"\n":
            is_start = True
            place += 1
        elif first:
            place += 1
        else:
            place = PLAIN.match(data, place).end()
        out.append(data[begin:place])
    end_game(len(data), True, closed)
    return b"".join(out), notes


# The results of each deal, where none are searched for: par of them is another by who deals and who is vulnerable.
RESULTS = [[7, 6, 7, 6], [6, 7, 6, 7], [10, 3, 10, 3], [7, 6, 7, 6], [9, 3, 9, 3]]


def main():
    for path in sys.argv[1:]:
        with open(path, "rb") as file:
            data = file.read()
        for cut in range(len(data) + 1):
            text, notes = filled(data[:cut], lambda deal: RESULTS)
            sys.stdout.buffer.write(b"%d %d\n" % (len(text), len(notes)) + text)


if __name__ == "__main__":
    main()
