"""PBN files without their results, so that `ddserve pbn` asks for them anew."""
from __future__ import annotations

import re
from typing import Dict, List, Tuple

from .games import Game, Values, games
from .marks import BYTE_ORDER_MARK, Mark, TagText, Text, placed

TABLE = b"optimumresulttable"
# The tags that `ddserve pbn` adds, in small letters.
RESULTS = frozenset((b"doubledummytricks", b"optimumscore", b"parcontract", TABLE))
_BLANK_LINE = re.compile(rb"[ \t\v\f\r]*\n?")
_LINES = re.compile(rb"[^\n]*\n|[^\n]+")
# The tags of a game, and their values with those of the games before.
_Told = Tuple[List[Tuple[bytes, bytes]], Dict[bytes, bytes]]


def without_results(data: bytes) -> bytes:
    """The file without results and par: without the tags DoubleDummyTricks, OptimumScore, ParContract and OptimumResultTable, whoever
    wrote them, and without the rows of the last. `ddserve pbn` then asks for them anew.

    A line that has nothing else is gone. Comments and all else stay, so a file that was filled is what it was before. A ValueError where
    another tag would change: where one would come to be, as of `[Event [OptimumScore "NS 50"] "x"]`, or where a `#` is behind a game of
    results alone, which is gone."""
    left = _Left()
    is_table = False
    start = len(BYTE_ORDER_MARK) if data.startswith(BYTE_ORDER_MARK) else 0
    for mark, begin, end in placed(data):
        if isinstance(mark, TagText):
            is_table = mark.name.lower() == TABLE
        is_table = is_table and isinstance(mark, (TagText, Text))
        left.take(mark, data[begin:end], is_table)
    found = data[:start] + left.end()
    if _told(found) != _told(data):
        raise ValueError("the results can't be taken out: another tag would change")
    return found


def has_results(game: Game) -> bool:
    return any(tag.name.lower() in RESULTS for tag in game.tags)


class _Left:
    """The lines that are left."""

    def __init__(self) -> None:
        self._lines: List[bytes] = []
        self._line = b""
        self._is_cut = False

    def take(self, mark: Mark, data: bytes, is_table: bool) -> None:
        """The next of the file. `is_table`: it is a tag of a table of results, or stands in its section."""
        if isinstance(mark, TagText) and mark.name.lower() in RESULTS:
            # So that what stands on both sides isn't joined.
            self._cut(b" ")
        elif isinstance(mark, Text) and is_table and not mark.is_comment:
            self._cut(b"\n" if data.endswith(b"\n") else b"")
        else:
            self._keep(data)

    def end(self) -> bytes:
        """The whole. Where the last line is gone and had no line end, the line before has none any more."""
        is_gone = self._is_cut and not self._flush()
        whole = b"".join(self._lines) + self._line
        return re.sub(rb"\r?\n\Z", b"", whole) if is_gone else whole

    def _cut(self, left: bytes) -> None:
        self._is_cut = True
        self._keep(left)

    def _keep(self, data: bytes) -> None:
        for part in _LINES.findall(data):
            self._line += part
            if part.endswith(b"\n"):
                self._flush()

    def _flush(self) -> bool:
        """Ends the line. One of which something was cut and no more than blanks are left is gone. Returns whether it stays."""
        stays = not (self._is_cut and _BLANK_LINE.fullmatch(self._line))
        if stays:
            self._lines.append(self._line)
        self._line, self._is_cut = b"", False
        return stays


def _told(data: bytes) -> List[_Told]:
    """What each game tells beside results. One that tells nothing else is none."""
    values = Values()
    found: List[_Told] = []
    for game in games(data):
        told = {name: value for name, value in values.of(game).items() if name not in RESULTS}
        tags = [(tag.name, tag.value) for tag in game.tags if tag.name.lower() not in RESULTS]
        if tags:
            found.append((tags, told))
    return found
