"""The games of a PBN file, told apart as `ddserve pbn` tells them apart, and what their tags say.

What a game is, and which values it has from the games before it: Games and Kepts in docs/DEFINITIONS.md."""
from __future__ import annotations

from dataclasses import dataclass, field
from typing import Dict, Iterator, List, Tuple

from .marks import EmptyLine, Mark, OpenEnd, TagText, Text, marks

# The tags that every game should have: one that comes again begins the next game.
REQUIRED = frozenset(b"event site date board west north east south dealer vulnerable deal scoring declarer contract result".split())
# As a value: what the game before says. Twice before a value: it holds for later games too.
SAME = b"#"
LATER = SAME + SAME


@dataclass
class Game:
    """A game while it is read: its tags in order, each with the text behind it."""

    number: int
    tags: List[TagText] = field(default_factory=list)
    sections: List[List[bytes]] = field(default_factory=list)
    closed: bool = True

    def ends_before(self, mark: Mark) -> bool:
        if isinstance(mark, TagText):
            return mark.name.lower() in REQUIRED and any(tag.name.lower() == mark.name.lower() for tag in self.tags)
        return isinstance(mark, EmptyLine) and bool(self.tags)

    def take(self, mark: Mark) -> None:
        if isinstance(mark, TagText):
            self.tags.append(mark)
            self.sections.append([])
        elif isinstance(mark, Text) and self.tags:
            self.sections[-1].append(mark.data)
        elif isinstance(mark, OpenEnd):
            self.closed = False

    def named(self, name: bytes) -> List[Tuple[bytes, bytes]]:
        """The value and the text behind each tag of this name."""
        return [(tag.value, b"".join(section)) for tag, section in zip(self.tags, self.sections) if tag.name.lower() == name]


def games(data: bytes) -> Iterator[Game]:
    """The games of a file. One begins with a tag; it ends before an empty line, and before a required tag that it has already."""
    game = Game(1)
    for mark in marks(data):
        if game.ends_before(mark):
            game.closed = not isinstance(mark, TagText) or mark.is_first
            yield game
            game = Game(game.number + 1)
        game.take(mark)
    if game.tags:
        yield game


class Values:
    """What tags say by their names in small letters: `#` is what the game before said, and `##` holds for later games that lack the tag."""

    def __init__(self) -> None:
        self._before: Dict[bytes, bytes] = {}
        self._later: Dict[bytes, bytes] = {}

    def of(self, game: Game) -> Dict[bytes, bytes]:
        found = dict(self._later)
        for tag in game.tags:
            name, value = tag.name.lower(), tag.value
            if value.startswith(LATER):
                found[name] = self._later[name] = value[len(LATER) :]
            elif value != SAME:
                found[name] = value
            elif name in self._before:
                found[name] = self._before[name]
            else:
                found.pop(name, None)
        self._before = found
        return found
