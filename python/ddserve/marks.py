"""What stands in a file of PBN: its tags, its empty lines, and the text outside of comments.

The grammar is that of `ddserve pbn` (Modes, Tags and Marks in docs/DEFINITIONS.md). It is one of bytes, since a file may be UTF-8 or
ISO 8859-1."""
from __future__ import annotations

import re
from dataclasses import dataclass
from typing import Iterator, Pattern, Tuple, Union

# What begins at a byte is judged by so many bytes: a longer tag is none, and a longer line of blanks isn't empty.
NEAR = 65_536
BYTE_ORDER_MARK = b"\xef\xbb\xbf"

_BLANKS = re.compile(rb"[ \t\v\f\r]*")
_SPACE = re.compile(rb"[ \t\v\f\r\n]*")
_NAME = re.compile(rb"[0-9A-Za-z_]*")
_PLAIN = re.compile(rb'[^\n;{"\[]*')
_STRING_STOP = re.compile(rb'["\\\n]')
_ESCAPED = re.compile(rb'\\(["\\])')
_LINE_FEED, _QUOTE, _PERCENT, _SEMICOLON, _BRACKET, _BACKSLASH, _BRACE = b'\n"%;[\\{'


@dataclass(frozen=True)
class TagText:
    """A tag. Its value has no backslash before a quote or a backslash. `is_first`: only blanks stand before it on its line."""

    name: bytes
    value: bytes
    is_first: bool


@dataclass(frozen=True)
class Text:
    """Bytes outside of tags; a comment is a space or a line feed. A string stands with its quotes."""

    data: bytes
    is_comment: bool = False


class EmptyLine:
    """A line of nothing but blanks."""


class OpenEnd:
    """The file ends within braces or within a tag."""


Mark = Union[TagText, Text, EmptyLine, OpenEnd]


class _NoTag(Exception):
    """No tag begins there."""


class _Ends(Exception):
    """The bytes end before the tag does."""


def marks(data: bytes) -> Iterator[Mark]:
    """What stands in the bytes, in order."""
    return (mark for mark, _, _ in placed(data))


def placed(data: bytes) -> Iterator[Tuple[Mark, int, int]]:
    """What stands in the bytes, in order, each with the place where it begins, blanks before it counted, and where it ends."""
    at = len(BYTE_ORDER_MARK) if data.startswith(BYTE_ORDER_MARK) else 0
    begins_line = True
    while at < len(data):
        begin = at
        mark, at = _line_mark(data, at) if begins_line else _mark(data, at, at, False)
        yield mark, begin, at
        # Neither a tag nor a comment in braces ends with a line feed.
        begins_line = data[at - 1] == _LINE_FEED


def _line_mark(data: bytes, at: int) -> Tuple[Mark, int]:
    """What a line begins with, and where that ends."""
    if data[at] == _PERCENT:
        return Text(b"\n", True), _past_line(data, at, len(data))
    near = min(len(data), at + NEAR)
    first = _past(_BLANKS, data, at, near)
    if first == near < len(data):
        return Text(b" "), near
    if first == near or data[first] == _LINE_FEED:
        return EmptyLine(), min(first + 1, near)
    return _mark(data, at, first, True)


def _mark(data: bytes, at: int, first: int, is_first: bool) -> Tuple[Mark, int]:
    """What stands behind the blanks from `at` to `first`, and where that ends."""
    byte = data[first]
    if byte == _BRACKET:
        return _bracket(data, at, first, is_first)
    if byte == _BRACE:
        close = data.find(b"}", first)
        if close < 0:
            return OpenEnd(), len(data)
        return Text(b" ", True), close + 1
    if byte == _SEMICOLON:
        return Text(b"\n", True), _past_line(data, first, len(data))
    if byte == _QUOTE:
        end, _ = _string_end(data, first + 1, len(data))
    else:
        end = max(first + 1, _past(_PLAIN, data, first, len(data)))
    return Text(data[at:end]), end


def _bracket(data: bytes, at: int, first: int, is_first: bool) -> Tuple[Mark, int]:
    """What begins with the bracket behind these blanks."""
    try:
        return _tag(data, first, min(len(data), at + NEAR), is_first)
    except _Ends:
        if len(data) - at <= NEAR:
            return OpenEnd(), len(data)
    except _NoTag:
        pass
    # What is too long for a tag with its blanks may be one without them.
    return (Text(b" "), first) if first > at else (Text(b"["), first + 1)


def _tag(data: bytes, at: int, near: int, is_first: bool) -> Tuple[TagText, int]:
    """The tag that begins here, and where it ends: `[`, a name, a string and `]`, with gaps between."""
    begin = _past_gap(data, at + 1, near)
    end = _past(_NAME, data, begin, near)
    if end == begin:
        raise _Ends if end == near else _NoTag
    text = _past_byte(_QUOTE, data, _past_gap(data, end, near), near)
    quote, is_closed = _string_end(data, text, near)
    if not is_closed:
        raise _Ends if quote == near else _NoTag
    past = _past_byte(ord("]"), data, _past_gap(data, quote, near), near)
    return TagText(data[begin:end], _ESCAPED.sub(rb"\1", data[text : quote - 1]), is_first), past


def _past(pattern: Pattern[bytes], data: bytes, at: int, end: int) -> int:
    found = pattern.match(data, at, end)
    assert found
    return found.end()


def _past_byte(byte: int, data: bytes, at: int, end: int) -> int:
    if at == end:
        raise _Ends
    if data[at] != byte:
        raise _NoTag
    return at + 1


def _past_line(data: bytes, at: int, end: int) -> int:
    """Past the next line feed, or to the end."""
    return data.find(b"\n", at, end) + 1 or end


def _string_end(data: bytes, at: int, end: int) -> Tuple[int, bool]:
    """Past the quote that closes a string, or else the end of its line, or of the bytes."""
    while True:
        stop = _STRING_STOP.search(data, at, end)
        if stop is None:
            return end, False
        if data[stop.start()] == _QUOTE:
            return stop.end(), True
        if data[stop.start()] == _LINE_FEED:
            return stop.start(), False
        # Behind a backslash a quote is text. A line feed ends the line there too.
        at = stop.end() + (data[stop.end() : stop.end() + 1] != b"\n")


def _past_gap(data: bytes, at: int, end: int) -> int:
    """Past blanks, line ends, comments and escaped lines."""
    while True:
        at = _past(_SPACE, data, at, end)
        if at == end:
            return end
        if data[at] == _SEMICOLON or data[at] == _PERCENT and data[at - 1] == _LINE_FEED:
            at = _past_line(data, at, end)
        elif data[at] == _BRACE:
            at = data.find(b"}", at, end) + 1 or end
        else:
            return at
