"""Hand records: a page of boards for a browser or a printer, sixteen to a sheet of A4."""
from __future__ import annotations

import html
import re
from itertools import groupby
from typing import Iterable, List, Match, Sequence, Tuple

from .bridge import Seat, Side, Suit
from .deal import Deal
from .pbn import Board
from .results import PRINTED, Table

PER_SHEET = 16
# The letters of a contract with its declarers and its result, and some more.
LONGEST_WHOLE = 16
# What is wrong with a deal, by the number of its fault.
TEXT = 4
REFUSED = {
    TEXT: "its text is no deal of PBN",
    5: "a hand is left out",
    6: "a card stands twice in it",
    7: "its hands have not equally many cards",
    8: "it has no card",
    23: "its hands have not thirteen cards",
}
# The suit of a contract, behind its level.
_CONTRACT_SUIT = re.compile("(?<=[1-7])[SHDC]")
MONTHS = "January February March April May June July August September October November December".split()
STYLE = """
@page { size: A4 portrait; margin: 7mm; }
body { background: #fff; color: #000; font: 13px/1.25 Arial, Helvetica, "Liberation Sans", sans-serif; margin: 1em; }
main { display: grid; gap: 8px; grid-template-columns: repeat(auto-fill, minmax(20em, 1fr)); }
.sheet, .boards { display: contents; }
header { grid-column: 1 / -1; }
h1 { display: inline; font-size: 1.4em; margin: 0 .6em 0 0; }
.again { display: none; }
section { border: 1px solid #888; break-inside: avoid; min-width: 0; padding: .5em; }
.top, .middle { display: flex; }
.middle { justify-content: space-between; margin: .3em 0; }
.title { flex: none; margin: 0; overflow-wrap: anywhere; width: 38%; }
.title b, .title span { display: block; }
.south { margin-left: 38%; }
.east { min-width: 32%; }
.hand div, .whole, td, th { white-space: nowrap; }
.red { color: #c00; }
table { border-collapse: collapse; margin: .4em 0; width: 100%; }
td, th { border: 1px solid #ccc; font-weight: normal; padding: 0 .2em; text-align: center; width: 16%; }
p { margin: .4em 0 0; overflow-wrap: anywhere; }
@media print {
body { font-size: 7pt; margin: 0; }
main, .again { display: block; }
.sheet { break-after: page; display: block; }
.sheet:last-child { break-after: auto; }
.boards { display: grid; gap: 1.5mm; grid-auto-rows: minmax(66mm, auto); grid-template-columns: repeat(4, minmax(0, 1fr)); }
header { margin: 0 0 1.5mm; }
section { padding: .8mm; }
}
"""


def page(boards: Iterable[Board]) -> str:
    """A page of HTML. Boards that follow one another with the same event and date stand under one heading."""
    held = list(boards)
    sheets = [_sheets(heading, list(group)) for heading, group in groupby(held, key=heading_of)]
    title = next((", ".join(filter(None, heading_of(board))) for board in held), "") or "Hand records"
    head = f'<meta charset="utf-8"><meta name="viewport" content="width=device-width, initial-scale=1"><title>{_text(title)}</title>'
    body = "\n".join(sheets)
    return f'<!DOCTYPE html>\n<html lang="en">\n<head>{head}<style>{STYLE}</style></head>\n<body>\n<main>\n{body}\n</main>\n</body>\n</html>\n'


def heading_of(board: Board) -> Tuple[str, str]:
    """The event and the date, as far as they are known."""
    return board.value("Event") or "", date_of(board.value("Date") or "")


def date_of(value: str) -> str:
    """A date in words: `2026.11.25` is `25 November 2026`, and what isn't known of one is left out. Another text stays as it is."""
    found = re.fullmatch(r"([0-9]{4}|\?{4})[.](0[1-9]|1[0-2]|\?\?)[.](0[1-9]|[12][0-9]|3[01]|\?\?)", value)
    if not found:
        return value
    year, month, day = ("" if "?" in it else it for it in found.groups())
    named = MONTHS[int(month) - 1] if month else ""
    return " ".join(filter(None, [str(int(day)) if day and month else "", named, year]))


def _sheets(heading: Tuple[str, str], boards: Sequence[Board]) -> str:
    """The sheets of boards under one heading, which a screen shows once and a printer on each sheet."""
    event, date = heading
    shown = (f"<h1>{_text(event)}</h1> " if event else "") + (f"<span>{_text(date)}</span>" if date else "")
    sheets = []
    for at in range(0, len(boards), PER_SHEET):
        again = ' class="again"' if at else ""
        head = f"<header{again}>{shown}</header>\n" if shown else ""
        held = "\n".join(map(section_of, boards[at : at + PER_SHEET]))
        sheets.append(f'<div class="sheet">\n{head}<div class="boards">\n{held}\n</div>\n</div>')
    return "\n".join(sheets)


def section_of(board: Board) -> str:
    """One board: who deals and who is vulnerable, the hands, the results and par."""
    if board.deal is None:
        return f"<section>\n{_title(board)}\n<p>No deal{_why(board)}.</p>\n</section>"
    north, east, south, west = (_hand(board.deal, seat) for seat in Seat)
    hands = f'<div class="top">{_title(board)}\n{north}</div>\n<div class="middle">{west}\n{east}</div>\n{south}'
    doubt = "\n<p>Its tags tell different results, so none are shown.</p>" if board.differs else ""
    results = _table(board.table) if board.table is not None else ""
    return f"<section>\n{hands}\n{results}{doubt}{_par(board)}\n</section>"


def _why(board: Board) -> str:
    """What is wrong with the deal, where there is one."""
    if board.fault is None:
        return ""
    ten = "; the ten is written T" if board.fault == TEXT and "10" in (board.value("Deal") or "") else ""
    return f": {REFUSED[board.fault]}{ten}"


def _title(board: Board) -> str:
    lines = []
    dealer, vulnerable = board.value("Dealer"), board.value("Vulnerable")
    if board.dealer is not None:
        lines.append(f"{board.dealer.name.capitalize()} deals")
    elif dealer:
        lines.append(f"Dealer: {dealer}")
    if board.vulnerable is not None:
        lines.append(board.vulnerable.words[0].upper() + board.vulnerable.words[1:])
    elif vulnerable:
        lines.append(f"Vulnerable: {vulnerable}")
    return f'<div class="title"><b>Board {_text(board.name)}</b>\n' + "\n".join(f"<span>{_text(line)}</span>" for line in lines) + "</div>"


def _hand(deal: Deal, seat: Seat) -> str:
    rows = [f"<div>{_suit(suit)}&nbsp;{ranks or '–'}</div>" for suit, ranks in zip(Suit, deal.hands[seat])]
    return f'<div class="hand {seat.name.lower()}">' + "\n".join(rows) + "</div>"


def _table(table: Table) -> str:
    """Declarers North, South, East and West; strains from notrump to clubs."""
    head = "<tr><th></th>" + "".join(f"<th>{_symbols(strain.symbol)}</th>" for strain in PRINTED) + "</tr>"
    rows = [f"<tr><th>{seat.letter}</th>" + "".join(f"<td>{table[strain, seat]}</td>" for strain in PRINTED) + "</tr>" for seat in (Seat.NORTH, Seat.SOUTH, Seat.EAST, Seat.WEST)]
    return f"<table>{head}\n" + "\n".join(rows) + "</table>"


def _par(board: Board) -> str:
    """The score and the contracts of par, those that stand in another form as they are."""
    if board.differs:
        return ""
    if board.score == 0 and board.contracts == ():
        parts = ["passed out"]
    else:
        parts = [*_score(board), *_contracts(board)]
    return f"\n<p>Par: {', '.join(map(_whole, parts))}</p>" if parts else ""


def _score(board: Board) -> List[str]:
    if board.score is None:
        told = board.value("OptimumScore")
        return [told] if told else []
    side = Side.NORTH_SOUTH if board.score >= 0 else Side.EAST_WEST
    return [f"{side.letters} {abs(board.score)}"]


def _contracts(board: Board) -> List[str]:
    if board.contracts is None:
        told = board.value("ParContract")
        return [_CONTRACT_SUIT.sub(_symbol_of, text.strip()) for text in told.split(";")] if told else []
    return [str(contract) for contract in board.contracts] or ["Pass"]


def _symbol_of(suit: Match[str]) -> str:
    return Suit.of(suit.group()).symbol


def _whole(part: str) -> str:
    """A part of a line that isn't broken, unless it is a long text of another form."""
    return f'<span class="whole">{_symbols(part)}</span>' if len(part) <= LONGEST_WHOLE else _symbols(part)


def _suit(suit: Suit) -> str:
    return _symbols(suit.symbol)


def _symbols(text: str) -> str:
    """A text whose red suits are red."""
    return re.sub("[♥♦]", lambda symbol: f'<span class="red">{symbol.group()}</span>', _text(text))


def _text(text: str) -> str:
    """A text as it stands in HTML. Control characters, which HTML hasn't, are replaced."""
    return html.escape(re.sub(r"[\x00-\x08\x0b\x0c\x0e-\x1f\x7f-\x9f]", "\N{REPLACEMENT CHARACTER}", text))
