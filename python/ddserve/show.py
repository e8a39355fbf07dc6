"""Hands as text, and as HTML for notebooks. Styles stand in the elements, since notebooks drop sheets of style."""
from __future__ import annotations

import html
from typing import Mapping, Optional, Sequence, Tuple

from .bridge import LOWEST, RANKS, Card, Seat, Strain, Suit

RED = "#d0342c"
WIDTH = 14
Hands = Sequence[Sequence[str]]
escape = html.escape


def diagram(hands: Hands) -> str:
    """North above, West and East beside each other, South below."""

    def rows(seat: Seat) -> list[str]:
        return [f"{suit.symbol} {ranks or '-'}" for suit, ranks in zip(Suit, hands[seat])]

    centre = [" " * WIDTH + row for row in rows(Seat.NORTH)]
    middle = [f"{west:{2 * WIDTH}}{east}" for west, east in zip(rows(Seat.WEST), rows(Seat.EAST))]
    return "\n".join([*centre, *middle, *(" " * WIDTH + row for row in rows(Seat.SOUTH))])


def html_diagram(hands: Hands, title: str = "", to_play: Optional[Seat] = None, tricks: Optional[Mapping[Card, int]] = None) -> str:
    """The diagram; over each card of the hand to play that has one stands the number of its tricks, the greatest in bold."""
    tricks = tricks or {}
    cells = {seat: _html_hand(hands[seat], tricks if seat == to_play else {}, seat == to_play) for seat in Seat}
    empty = '<td style="border:0"></td>'
    rows = [
        f"{empty}{_cell(cells[Seat.NORTH])}{empty}",
        f'{_cell(cells[Seat.WEST])}<td style="border:0;text-align:center;opacity:.7">{_compass(to_play)}</td>{_cell(cells[Seat.EAST])}',
        f"{empty}{_cell(cells[Seat.SOUTH])}{empty}",
    ]
    body = "".join(f'<tr style="background:none">{row}</tr>' for row in rows)
    caption = f'<div style="margin:0 0 4px">{_coloured(title)}</div>' if title else ""
    return f'<div style="display:inline-block;vertical-align:top">{caption}<table style="border-collapse:collapse;border:0">{body}</table></div>'


def html_strain(strain: Strain) -> str:
    return _coloured(strain.symbol)


def html_table(head: Sequence[str], rows: Sequence[Sequence[str]]) -> str:
    cell = "padding:2px 10px;text-align:right;border:0"
    top = "".join(f'<th style="{cell}">{it}</th>' for it in head)
    body = "".join("<tr>" + f'<th style="{cell}">{row[0]}</th>' + "".join(f'<td style="{cell}">{it}</td>' for it in row[1:]) + "</tr>" for row in rows)
    return f'<table style="border-collapse:collapse"><tr>{top}</tr>{body}</table>'


def beside(left: str, right: str) -> str:
    return f'<div style="display:flex;flex-wrap:wrap;gap:32px;align-items:center">{left}{right}</div>'


def svg_trace(tricks: Sequence[int], notes: Sequence[Tuple[int, str]]) -> str:
    """A line of the tricks after each card; a mark with a title where a card cost some."""
    low, high = max(0, min(tricks) - 1), max(tricks) + 1
    step, unit, left, top = 9, 22, 26, 10
    width, height = left + step * max(1, len(tricks) - 1) + 12, top + unit * (high - low) + 22

    def x(at: int) -> int:
        return left + step * at

    def y(value: int) -> int:
        return top + unit * (high - value)

    grid = "".join(
        f'<line x1="{left}" x2="{width - 8}" y1="{y(it)}" y2="{y(it)}" stroke="currentColor" stroke-opacity=".15"/>'
        f'<text x="{left - 8}" y="{y(it) + 4}" text-anchor="end" font-size="11" fill="currentColor">{it}</text>'
        for it in range(low, high + 1)
    )
    ticks = "".join(
        f'<text x="{x(it)}" y="{height - 4}" text-anchor="middle" font-size="11" fill="currentColor">{it}</text>' for it in range(0, len(tricks), 8)
    )
    path = f"M{x(0)} {y(tricks[0])}" + "".join(f"H{x(at)}V{y(value)}" for at, value in enumerate(tricks) if at)
    line = f'<path d="{path}" fill="none" stroke="#2a6fb0" stroke-width="2"/>'
    marks = "".join(f'<circle cx="{x(at)}" cy="{y(tricks[at])}" r="4" fill="{RED}"><title>{escape(note)}</title></circle>' for at, note in notes)
    return f'<svg width="{width}" height="{height}" role="img" aria-label="Tricks of declarer\'s side after each card">{grid}{ticks}{line}{marks}</svg>'


def _cell(content: str) -> str:
    return f'<td style="border:0;padding:4px 8px;text-align:left;vertical-align:middle">{content}</td>'


def _compass(to_play: Optional[Seat]) -> str:
    def letter(seat: Seat) -> str:
        return f"<b>{seat.letter}</b>" if seat == to_play else seat.letter

    return f"{letter(Seat.NORTH)}<br>{letter(Seat.WEST)}&emsp;{letter(Seat.EAST)}<br>{letter(Seat.SOUTH)}"


def _html_hand(hand: Sequence[str], tricks: Mapping[Card, int], is_to_play: bool) -> str:
    most = max(tricks.values(), default=0)
    rows = []
    for suit, ranks in zip(Suit, hand):
        shown = ranks or "–"
        if is_to_play and tricks:
            shown = "".join(_html_card(rank, tricks.get(Card(suit, RANKS.index(rank) + LOWEST)), most) for rank in ranks) or "–"
        rows.append(f'<div style="white-space:nowrap;min-height:1.4em">{_coloured(suit.symbol)} {shown}</div>')
    return "".join(rows)


def _html_card(rank: str, tricks: Optional[int], most: int) -> str:
    number = "" if tricks is None else f"<b>{tricks}</b>" if tricks == most else str(tricks)
    faint = "" if tricks == most else "opacity:.65"
    over = f'<span style="display:block;font-size:.7em;line-height:1.1;{faint}">{number or "&nbsp;"}</span>'
    # A block has the line of its last row: so ranks stand on the line of their suit.
    return f'<span style="display:inline-block;text-align:center;min-width:1.2em;line-height:1.2">{over}{rank}</span>'


def _coloured(text: str) -> str:
    shown = escape(text)
    for symbol in "♥♦":
        shown = shown.replace(symbol, f'<span style="color:{RED}">{symbol}</span>')
    return shown
