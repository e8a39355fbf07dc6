"""What the tags of results and of par say, in the forms in which `ddserve pbn` and other programs write them."""
from __future__ import annotations

import re
from typing import Dict, Optional, Tuple

from .bridge import PER_HAND, Seat, Strain
from .results import PRINTED, Contract

# For each strain the tricks of North, East, South and West as declarer, as `Table.tricks` has them.
Tricks = Tuple[Tuple[int, int, int, int], ...]
# The tricks that a contract's level comes on top of.
BOOK = 6
# The declarers in the order of the digits; each has the strains in the order in which people print them.
_DECLARERS = (Seat.NORTH, Seat.SOUTH, Seat.EAST, Seat.WEST)
_DIGITS = re.compile(rb"\s*([0-9A-D]{20})\s*", re.IGNORECASE)
_SCORE = re.compile(rb"\s*(NS|EW)\s+(-?[0-9]{1,5})\s*", re.IGNORECASE)
_CONTRACT = re.compile(rb"\s*(NS|EW|[NESW])\s+([1-7])(NT?|[SHDC])X{0,2}(=|[+-][0-9]{1,2})\s*", re.IGNORECASE)


def tricks_of_digits(value: bytes) -> Optional[Tricks]:
    """The results that a value of DoubleDummyTricks spells: twenty hexadecimal digits."""
    found = _DIGITS.fullmatch(value)
    if not found:
        return None
    digits = iter(found.group(1).decode())
    return _rows({(strain, declarer): int(next(digits), 16) for declarer in _DECLARERS for strain in PRINTED})


def tricks_of_table(header: bytes, rows: bytes) -> Optional[Tricks]:
    """The results that a tag OptimumResultTable has in its rows, by the columns Declarer, Denomination and Result of its header."""
    names = [re.sub(r"\\.*", "", name).strip("+- ").lower() for name in header.decode("latin-1").split(";")]
    cells = rows.decode("latin-1").upper().split()
    found: Dict[Tuple[Strain, Seat], int] = {}
    try:
        declarer, denomination, result = (names.index(name) for name in ("declarer", "denomination", "result"))
        for at in range(0, len(cells), len(names)):
            row = cells[at : at + len(names)]
            tricks = int(row[result])
            if found.setdefault((Strain.of(row[denomination]), Seat.of(row[declarer])), tricks) != tricks:
                return None
    except (ValueError, IndexError):
        return None
    return _rows(found)


def score_of(value: bytes) -> Optional[int]:
    """What North and South score by a value of OptimumScore: `NS 400`, `EW 140`."""
    found = _SCORE.fullmatch(value)
    if not found:
        return None
    return int(found.group(2)) * (1 if found.group(1).upper() == b"NS" else -1)


def contracts_of(value: bytes) -> Optional[Tuple[Contract, ...]]:
    """The contracts of a value of ParContract: `EW 3H=`, `NS 5DX-1; S 3NT+1`, or `Pass` for none."""
    if value.strip().lower() == b"pass":
        return ()
    found = [_contract_of(text) for text in value.split(b";")]
    contracts = tuple(it for it in found if it is not None)
    return contracts if len(contracts) == len(found) else None


def _contract_of(text: bytes) -> Optional[Contract]:
    found = _CONTRACT.fullmatch(text)
    if not found:
        return None
    declarers, level, strain, over = (it.decode().upper() for it in found.groups())
    tricks = int(level) + BOOK + (0 if over == "=" else int(over))
    return Contract(int(level), Strain.of(strain), tuple(map(Seat.of, declarers)), tricks) if 0 <= tricks <= PER_HAND else None


def _rows(found: Dict[Tuple[Strain, Seat], int]) -> Optional[Tricks]:
    """The results, where all twenty are there and none is over 13."""
    if len(found) < len(Strain) * len(Seat) or not all(0 <= it <= PER_HAND for it in found.values()):
        return None
    return tuple((found[it, Seat.NORTH], found[it, Seat.EAST], found[it, Seat.SOUTH], found[it, Seat.WEST]) for it in Strain)
