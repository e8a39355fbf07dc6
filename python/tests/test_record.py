"""The page of hand records: each board that `ddserve pbn` tells apart, with its own hands, results and par, or none."""
import os
import subprocess
import sys
from html.parser import HTMLParser
from pathlib import Path
from typing import IO, Dict, List, Optional, Tuple, Union

import pytest

from ddserve import boards
from ddserve.record import date_of, page
from drawn import EAST, NORTH

HERE = Path(__file__).resolve().parent
EXAMPLE = HERE.parents[1] / "examples" / "hand_record.py"
COMMANDS = [[sys.executable, str(EXAMPLE)], [sys.executable, "-m", "ddserve", "record"]]
VOID = {"br", "meta"}


class Page(HTMLParser):
    """The sections of a page and its headings, as texts with a space between blocks. What is opened is closed."""

    def __init__(self, text: str) -> None:
        super().__init__()
        self.sections: List[str] = []
        self.headings: List[str] = []
        self._open: List[str] = []
        self.feed(text)
        self.close()
        assert not self._open
        self.sections, self.headings = ([" ".join(it.split()) for it in found] for found in (self.sections, self.headings))

    def handle_starttag(self, tag: str, attrs: List[Tuple[str, Optional[str]]]) -> None:
        if tag not in VOID:
            self._open.append(tag)
        if tag in ("section", "header"):
            (self.sections if tag == "section" else self.headings).append("")
        self._add(" " * (tag != "span"))

    def handle_endtag(self, tag: str) -> None:
        self._add(" " * (tag != "span"))
        assert self._open.pop() == tag

    def handle_data(self, data: str) -> None:
        self._add(data)

    def _add(self, text: str) -> None:
        for name, found in (("section", self.sections), ("header", self.headings)):
            if name in self._open:
                found[-1] += text


def filled(program: str, name: str) -> bytes:
    data = (HERE / "records" / f"{name}.pbn").read_bytes()
    return subprocess.run([program, "pbn"], input=data, capture_output=True, check=True).stdout


def record(data: bytes, command: List[str] = COMMANDS[1], **variables: str) -> Tuple[Page, str]:
    """The page for a file, and what is said."""
    run = subprocess.run(command, input=data, capture_output=True, check=True, env={**os.environ, **variables})
    return Page(run.stdout.decode()), run.stderr.decode()


# The hands of a deal from North clockwise, and its twenty results, as a page has them: the results of the first two by DDS, those of the
# third by reason. (Whoever has all trumps wins all tricks, and without trumps the leader does.)
HANDS: Dict[str, str] = {
    "first": "♠ J6 ♥ 72 ♦ AQ7643 ♣ AJ7 / ♠ Q9842 ♥ Q854 ♦ T ♣ K42 / ♠ AT75 ♥ AT9 ♦ KJ8 ♣ T83 / ♠ K3 ♥ KJ63 ♦ 952 ♣ Q965",
    "second": "♠ A985 ♥ QT4 ♦ 72 ♣ AK93 / ♠ Q ♥ AKJ65 ♦ AK85 ♣ Q62 / ♠ KJ642 ♥ 93 ♦ QJT ♣ J84 / ♠ T73 ♥ 872 ♦ 9643 ♣ T75",
    "suits": "♠ AKQJT98765432 ♥ – ♦ – ♣ – / ♠ – ♥ AKQJT98765432 ♦ – ♣ – / ♠ – ♥ – ♦ AKQJT98765432 ♣ – / ♠ – ♥ – ♦ – ♣ AKQJT98765432",
}
RESULTS = {
    "first": "N 9 7 6 10 7 S 9 7 6 10 7 E 3 6 7 3 6 W 3 6 7 3 6",
    "second": "N 9 9 6 5 8 S 6 8 5 4 8 E 4 4 7 8 5 W 4 4 7 8 5",
    "suits": "N 0 13 0 13 0 S 0 13 0 13 0 E 0 0 13 0 13 W 0 0 13 0 13",
}
# Of each file the boards with their deal, or with what is said of it, and par. (`missing` has a suit of `10`, which is no rank of PBN.)
NEITHER = "Neither side vulnerable"
FIRST, NONE = "NS 400, 3NT NS =", None
FILES: Dict[str, List[Tuple[str, str, Optional[str]]]] = {
    "comm": [(f"Board 1 North deals {NEITHER}", "first", FIRST)],
    "latin": [(f"Board 1 North deals {NEITHER}", "first", FIRST)],
    "merged": [(f"Board 1 North deals {NEITHER}", "suits", "NS 1510, 7♠ NS ="), ("Board 2", "first", NONE)],
    "noblank": [(f"Board 1 North deals {NEITHER}", "first", FIRST), (f"Board 2 North deals {NEITHER}", "second", "NS 300, 4♦x EW -2")],
    "spaces": [(f"Board 1 North deals {NEITHER}", "first", FIRST)] * 2,
    "missing": [
        ("Board 1", "first", NONE),
        ("Board 2 North deals", "first", NONE),
        (f"Board 3 Dealer: X {NEITHER}", "first", NONE),
        (f"Board 4 North deals {NEITHER}", "No deal.", NONE),
        (f"Board 5 North deals {NEITHER}", "No deal: a hand is left out.", NONE),
        (f"Board 6 North deals {NEITHER}", "No deal: a card stands twice in it.", NONE),
        (f"Board 7 North deals {NEITHER}", "first", FIRST),
        ("Board 8 North deals Both sides vulnerable", "first", "NS 600, 3NT NS ="),
        (f"Board 9 North deals {NEITHER}", "No deal: its text is no deal of PBN; the ten is written T.", NONE),
        (f"Board 10 North deals {NEITHER}", "first", FIRST),
        ("Board 11 North deals Vulnerable: E-W", "No deal: its hands have not equally many cards.", NONE),
    ],
}


def shown(title: str, deal: str, par: Optional[str]) -> str:
    """The text of a board on the page: the hands of North, West, East and South, the results, and par."""
    if deal not in HANDS:
        return f"{title} {deal}"
    north, east, south, west = HANDS[deal].split(" / ")
    line = f" Par: {par}" if par else ""
    return f"{title} {north} {west} {east} {south} NT ♠ ♥ ♦ ♣ {RESULTS[deal]}{line}"


@pytest.mark.parametrize("command", COMMANDS, ids=["example", "module"])
@pytest.mark.parametrize("name", FILES)
def test_each_board_has_its_own_hands_results_and_par(program: str, name: str, command: List[str]) -> None:
    found, said = record(filled(program, name), command)
    assert found.sections == [shown(*board) for board in FILES[name]]
    without = sum(deal not in HANDS for _, deal, _ in FILES[name])
    boards_ = "1 board" if len(FILES[name]) == 1 else f"{len(FILES[name])} boards"
    assert said == f"ddserve record: {boards_} printed, {without} without results\n"


@pytest.mark.parametrize("variables", [{"LC_ALL": "C.UTF-8"}, {"LC_ALL": "C", "PYTHONCOERCECLOCALE": "0", "PYTHONUTF8": "0"}], ids=["UTF-8", "C"])
def test_a_file_in_latin_letters_is_read_in_each_locale(program: str, variables: Dict[str, str]) -> None:
    for command in COMMANDS:
        found, _ = record(filled(program, "latin"), command, **variables)
        assert found.headings == ["Münchner Frühjahr"] and len(found.sections) == 1


def test_boards_are_printed_sixteen_to_a_sheet_under_the_event_and_the_date(program: str) -> None:
    data = (EXAMPLE.parent / "record.pbn").read_bytes()
    found, said = record(data)
    assert found.headings == ["Club pairs 25 November 2026"] * 3 and len(found.sections) == 36
    assert said == "ddserve record: 36 boards printed, 36 without results\n"
    sheets = page(boards(data)).split('<div class="sheet">')[1:]
    assert [sheet.count("<section>") for sheet in sheets] == [16, 16, 4]
    # The seven hearts of board 19 are one piece with their symbol.
    assert '<div><span class="red">♥</span>&nbsp;KQT8763</div>' in sheets[1]


def test_each_event_has_its_own_sheet() -> None:
    data = b"".join(b'[Event "%s"]\n[Date "%s"]\n[Board "1"]\n\n' % it for it in [(b"A", b"2026.11.25"), (b"A", b"2026.11.25"), (b"A", b"2026.11.26"), (b"?", b"")])
    found, _ = record(data)
    assert found.headings == ["A 25 November 2026", "A 26 November 2026"] and len(found.sections) == 4


@pytest.mark.parametrize("value, words", [
    ("2026.01.05", "5 January 2026"), ("2026.12.??", "December 2026"), ("2026.??.??", "2026"), ("2026.??.05", "2026"), ("????.??.??", ""),
    ("2026.13.01", "2026.13.01"), ("Friday", "Friday"),
])  # fmt: skip
def test_a_date_in_words(value: str, words: str) -> None:
    assert date_of(value) == words


def test_what_a_file_says_is_no_html() -> None:
    text = '[Event "<b>&\\"\x00\x85"]\n[Board "<script>"]\n[Dealer "<i>"]\n[Vulnerable "<u>"]\n[OptimumScore "<s>"]\n[ParContract "<s>; NS 4S"]\n'
    found, _ = record(text.encode() + b'[Deal "' + NORTH + b'"]\n')
    assert found.headings == ['<b>&"\ufffd\ufffd']
    assert found.sections[0].startswith("Board <script> Dealer: <i> Vulnerable: <u> ♠ J6 ") and found.sections[0].endswith("Par: <s>, <s>, NS 4♠")


def test_results_that_differ_are_not_shown() -> None:
    digits = "976a7976a73673636736"
    found, said = record(b'[Deal "' + EAST + f'"]\n[DoubleDummyTricks "{digits}"]\n[DoubleDummyTricks "{digits[::-1]}"]\n[OptimumScore "NS 400"]\n'.encode())
    assert found.sections[0].endswith("♣ K42 Its tags tell different results, so none are shown.")
    assert "Par" not in found.sections[0] and said == "ddserve record: 1 board printed, 1 without results\n"


def run(words: List[str], data: bytes = b"", stdout: Union[int, IO[bytes]] = subprocess.PIPE) -> "subprocess.CompletedProcess[bytes]":
    return subprocess.run([*COMMANDS[1], *words], input=data, stderr=subprocess.PIPE, stdout=stdout)


def test_a_file_without_a_game_is_told() -> None:
    for data in (b"", b"a text\n", '[Event "x"]\n'.encode("utf-16")):
        told = run([], data)
        assert told.returncode == 1 and told.stderr == b"ddserve record: no game of PBN was found, so no board was printed\n"


def test_a_file_may_be_named(tmp_path: Path) -> None:
    path = tmp_path / "record.pbn"
    path.write_bytes(b'[Board "1"]\n')
    assert b"Board 1" in run([str(path)]).stdout
    away = run([str(tmp_path / "away.pbn")])
    assert away.returncode == 1 and away.stderr.count(b"\n") == 1 and b"away.pbn: No such file or directory" in away.stderr


def test_a_page_that_cannot_be_written_is_told() -> None:
    with open("/dev/full", "wb") as full:
        told = run([], b'[Board "1"]\n', stdout=full)
    assert told.returncode == 1 and told.stderr == b"ddserve record: the page: No space left on device\n"


@pytest.mark.parametrize("stream, device", [("<&-", b"the standard input"), (">&-", b"the page")])
def test_a_stream_that_is_closed_is_told(stream: str, device: bytes) -> None:
    words = ["sh", "-c", f'"$@" {stream}', "sh", *COMMANDS[1]]
    told = subprocess.run(words, input=b'[Board "1"]\n', capture_output=True)
    assert told.returncode == 1 and told.stderr == b"ddserve record: " + device + b": Bad file descriptor\n"
