"""The boards of PBN files: games with their deals, results and par.

What a deal, a dealer and vulnerability are: Values in docs/DEFINITIONS.md."""
from __future__ import annotations

import os
import re
from dataclasses import dataclass, field
from typing import IO, Any, Callable, Iterator, List, Mapping, Optional, Tuple, TypeVar, Union

from . import show
from .bridge import PER_HAND, Seat, Vulnerable
from .deal import BadDeal, Deal
from .games import LATER, SAME, Game, Values, games
from .result_tags import contracts_of, score_of, tricks_of_digits, tricks_of_table
from .results import Contract, Par, Table

T = TypeVar("T")
# A longer value spells no deal.
LONGEST_DEAL = 1_024
_HAND = rb"((?:[2-9TJQKA]*\.){3}[2-9TJQKA]*|-)"
_DEAL = re.compile(
    rb"[ \t\v\f\r]*([NESW])[ \t\v\f\r]*:[ \t]*" + rb"[ \t]+".join([_HAND] * 4) + rb"[ \t]*",
    re.IGNORECASE,
)
_VULNERABLE = {
    b"none": Vulnerable.NEITHER,
    b"love": Vulnerable.NEITHER,
    b"-": Vulnerable.NEITHER,
    b"ns": Vulnerable.NORTH_SOUTH,
    b"ew": Vulnerable.EAST_WEST,
    b"all": Vulnerable.BOTH,
    b"both": Vulnerable.BOTH,
}


@dataclass(frozen=True)
class Board:
    """A game of a PBN file. What its tags don't tell, or tell in another form than PBN has, is None.

    `game` is its number in the file, from 1, and `values` what its tags say by their names in small letters, those of the games before
    where `#` or `##` says so. `deal` has thirteen cards a hand, and `fault` is the number in `FAULTS` of what is wrong with one that
    doesn't. `score` is North and South's par, in points. Where tags of the board tell different results or par, `differs` is true and
    there are none of them. It isn't `closed` where the file ends within a comment or a tag of it, or where the next game begins within
    its last line; `ddserve pbn` adds nothing then."""

    game: int
    values: Mapping[str, str] = field(hash=False)
    deal: Optional[Deal] = None
    fault: Optional[int] = None
    dealer: Optional[Seat] = None
    vulnerable: Optional[Vulnerable] = None
    table: Optional[Table] = None
    score: Optional[int] = None
    contracts: Optional[Tuple[Contract, ...]] = None
    differs: bool = False
    closed: bool = True

    def value(self, name: str) -> Optional[str]:
        """What the tag of this name says, letters in either case; None where it isn't there, is empty or `?`."""
        text = self.values.get(name.lower(), "").strip(" \t\v\f\r")
        return None if text in ("", "?") else text

    @property
    def name(self) -> str:
        """What its tag Board says, mostly a number; `?` where it has none."""
        return self.value("Board") or "?"

    @property
    def par(self) -> Optional[Par]:
        """Par, where its score and its contracts are told."""
        if self.score is None or self.contracts is None or bool(self.score) != bool(self.contracts):
            return None
        return Par(self.score, self.contracts, self.deal)

    @property
    def title(self) -> str:
        deals = [f"{self.dealer.name.capitalize()} deals"] if self.dealer is not None else []
        return ", ".join([f"Board {self.name}", *deals, *([self.vulnerable.words] if self.vulnerable is not None else [])])

    def __str__(self) -> str:
        shown = [self.title, str(self.table or self.deal or "No deal."), *([self.par.text] if self.par else [])]
        return "\n\n".join(shown)

    def _repr_html_(self) -> str:
        held = self.table or self.deal
        shown = held._repr_html_() if held else "No deal."
        par = f"<div>{show.escape(self.par.text)}</div>" if self.par else ""
        return f"<div><b>{show.escape(self.title)}</b></div>{shown}{par}"


def boards(data: Union[bytes, str]) -> Iterator[Board]:
    """The boards of a file's bytes, or of its text. Bytes that aren't UTF-8 are ISO 8859-1, as PBN has it."""
    whole = data.encode("utf-8", "surrogateescape") if isinstance(data, str) else data
    encoding = encoding_of(whole)
    values = Values()
    board: Optional[Board] = None
    for game in games(whole):
        board = _board(game, values.of(game), encoding, board)
        yield board


def read_pbn(file: Union[str, "os.PathLike[str]", IO[Any]]) -> List[Board]:
    """The boards of a PBN file: of its path, or of the file opened."""
    if isinstance(file, (str, os.PathLike)):
        with open(file, "rb") as opened:
            return list(boards(opened.read()))
    return list(boards(file.read()))


def encoding_of(data: bytes) -> str:
    try:
        data.decode("utf-8")
    except UnicodeDecodeError:
        return "iso-8859-1"
    return "utf-8"


def _board(game: Game, values: Mapping[bytes, bytes], encoding: str, before: Optional[Board]) -> Board:
    deal, fault = deal_of(values.get(b"deal", b""))
    dealer = _dealer_of(values.get(b"dealer", b""))
    vulnerable = _VULNERABLE.get(values.get(b"vulnerable", b"").lower())
    # What is told to be the same as before is so only for the same deal, and par for the same dealer and sides.
    same = before if before is not None and deal is not None and before.deal == deal else None
    par = same if same is not None and (same.dealer, same.vulnerable) == (dealer, vulnerable) else None

    def told(name: bytes, read: Callable[[bytes, bytes], Optional[T]], as_before: Optional[T]) -> List[T]:
        own = game.named(name) or ([(SAME, b"")] if name in values else [])
        found = [as_before if value == SAME else read(value[len(LATER) :] if value.startswith(LATER) else value, rows) for value, rows in own]
        return [it for it in found if it is not None]

    tricks = told(b"doubledummytricks", lambda value, _: tricks_of_digits(value), same.table.tricks if same and same.table else None)
    tricks += told(b"optimumresulttable", tricks_of_table, None)
    scores = told(b"optimumscore", lambda value, _: score_of(value), par.score if par else None)
    contracts = told(b"parcontract", lambda value, _: contracts_of(value), par.contracts if par else None)
    differs = max(len(set(tricks)), len(set(scores)), len(set(contracts))) > 1
    return Board(
        game=game.number,
        values={name.decode("ascii"): value.decode(encoding) for name, value in values.items()},
        deal=deal,
        fault=fault,
        dealer=dealer,
        vulnerable=vulnerable,
        table=Table(tricks[0], deal) if tricks and deal and not differs else None,
        score=scores[0] if scores and not differs else None,
        contracts=contracts[0] if contracts and not differs else None,
        differs=differs,
        closed=game.closed,
    )


def deal_of(value: bytes) -> Tuple[Optional[Deal], Optional[int]]:
    """The deal of thirteen cards a hand that a value of the tag Deal spells; or the number of its fault, where it is a value."""
    if value in (b"", b"?"):
        return None, None
    found = _DEAL.fullmatch(value) if len(value) <= LONGEST_DEAL else None
    if not found:
        return None, 4
    seat, *hands = (text.decode("ascii") for text in found.groups())
    if "-" in hands:
        return None, 5
    try:
        deal = Deal.from_pbn(f"{seat}:{' '.join(hands)}")
    except BadDeal:
        return None, 6
    counts = {len(deal.cards(it)) for it in Seat}
    if counts == {PER_HAND}:
        return deal, None
    return None, 7 if len(counts) > 1 else 8 if counts == {0} else 23


def _dealer_of(value: bytes) -> Optional[Seat]:
    return Seat(b"NESW".index(value.upper())) if re.fullmatch(b"[NESWnesw]", value) else None
