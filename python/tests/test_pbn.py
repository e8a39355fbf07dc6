"""The boards of PBN files are those that `ddserve pbn` tells apart, with their own deals, results and par."""
import io
import re
import subprocess
from pathlib import Path
from typing import Iterator, List, Optional, Tuple

import pytest

import ddserve
from ddserve import Board, Seat, Strain, Vulnerable, boards, read_pbn
from ddserve.games import Game, games
from drawn import NORTH, RESULTS, drawn_files, long_files
from test_show import words

HERE = Path(__file__).resolve().parent
SAMPLES = HERE.parents[1] / "cases" / "data" / "pbn"
ALL = ("DoubleDummyTricks", "OptimumScore", "ParContract", "OptimumResultTable")
WANTED = [ALL, ("DoubleDummyTricks",), ("OptimumScore", "ParContract"), ("OptimumResultTable", "ParContract")]
# A line of `ddserve pbn` on a game that lacks a tag: its number, its board, and the reason. What a fault means, and a value that is
# unknown, may stand behind it.
NOTE = re.compile(
    rb"ddserve: game (\d+) \(board (.{1,32}?)\): (?:(no deal|not closed|spent)|(deal refused, fault \d+)(?:: .+)?"
    rb"|(no par: (?:Dealer|Vulnerable)) is missing(?: or unknown: .*)?)"
)
Note = Tuple[int, bytes, str]


def notes_of(told: bytes) -> List[Note]:
    found = [NOTE.fullmatch(line) for line in told.split(b"\n") if line.startswith(b"ddserve: game ")]
    assert all(found), told
    return [(int(it.group(1)), it.group(2), next(filter(None, it.groups()[2:])).decode()) for it in found if it]


def reason_of(game: Game, board: Board, lacking: List[str], gives_up: bool) -> Optional[str]:
    """Why the game lacks a tag of these, if it does. Where all searches are given up that is said in place of an unknown dealer."""
    if not lacking:
        return None
    if not board.closed:
        return "not closed"
    if board.deal is None:
        return "no deal" if board.fault is None else f"deal refused, fault {board.fault}"
    unknown = "Dealer" if board.dealer is None else "Vulnerable" if board.vulnerable is None else None
    if gives_up and (unknown is None or {"DoubleDummyTricks", "OptimumResultTable"} & set(lacking)):
        return "spent"
    return f"no par: {unknown}" if unknown and {"OptimumScore", "ParContract"} & set(lacking) else None


def expected_notes(data: bytes, wanted: Tuple[str, ...] = ALL, gives_up: bool = False) -> Iterator[Note]:
    """What `ddserve pbn` says of the file, by the reader."""
    for game, board in zip(games(data), boards(data)):
        names = {tag.name.lower() for tag in game.tags}
        reason = reason_of(game, board, [tag for tag in wanted if tag.lower().encode() not in names], gives_up)
        told = b"".join(value for value, _ in game.named(b"board"))
        if reason:
            yield board.game, told[:32] or b"?", reason


def said(program: str, data: bytes, *options: str) -> Tuple[bytes, bytes]:
    """What `ddserve pbn` writes for a file, and what it says."""
    run = subprocess.run([program, "pbn", *options], input=data, capture_output=True, check=True)
    return run.stdout, run.stderr


def test_notes_are_read_with_and_without_what_stands_behind_the_reason() -> None:
    told = (
        b"ddserve: game 1 (board 1): no par: Dealer is missing\nddserve: game 2 (board 2): no par: Vulnerable is missing\n"
        b"ddserve: game 3 (board 3): no par: Dealer is missing or unknown: x): no deal\nddserve: game 4 (board 4): no par: Vulnerable is missing or unknown: E-W\n"
        b"ddserve: game 5 (board 5): deal refused, fault 5\nddserve: game 6 (board ?): deal refused, fault 23: the hands are not of thirteen cards\n"
        b"ddserve: game 7 (board (7)): no deal\nddserve: no game was found: the input has no tag of PBN\n"
    )
    reasons = ["no par: Dealer", "no par: Vulnerable", "no par: Dealer", "no par: Vulnerable", "deal refused, fault 5", "deal refused, fault 23", "no deal"]
    assert notes_of(told) == list(zip(range(1, 8), [b"1", b"2", b"3", b"4", b"5", b"?", b"(7)"], reasons))


@pytest.mark.parametrize("path", sorted(SAMPLES.glob("*.pbn")), ids=lambda path: str(path.stem))
def test_the_games_of_a_sample_are_those_of_its_recorded_notes(path: Path) -> None:
    assert list(expected_notes(path.read_bytes())) == notes_of(path.with_suffix(".notes").read_bytes())


def test_there_are_samples() -> None:
    assert len(list(SAMPLES.glob("*.pbn"))) >= 25


def check_games(program: str, number: int, data: bytes) -> int:
    """The games of the file are those that the program tells apart. Returns how many it told of."""
    wanted = WANTED[number % len(WANTED)]
    _, notes = said(program, data, "--budget", "1", "--tags", ",".join(wanted))
    found = list(expected_notes(data, wanted, gives_up=True))
    assert found == notes_of(notes), data
    return len(found)


def test_the_games_of_drawn_files_are_those_of_the_program(program: str) -> None:
    told = [check_games(program, number, data) for number, data in enumerate(drawn_files(61, 2_000, 40))]
    assert len(told) == 2_000 and sum(told) > 8_000


def test_the_games_of_files_with_a_tag_as_long_as_is_judged_are_those_of_the_program(program: str) -> None:
    told = [check_games(program, number, data) for number, data in enumerate(long_files(62, 60))]
    assert len(told) == 60 and sum(told) > 200


def results_of(deal: ddserve.Deal) -> Tuple[Tuple[int, ...], ...]:
    """The results of the deal of `drawn`, or of the one turned by a seat, by DDS."""
    turned = 0 if deal.pbn.encode() == NORTH else 1
    return tuple(tuple(row[(seat - turned) % 4] for seat in Seat) for row in RESULTS)


def test_each_board_of_a_drawn_file_has_the_results_of_its_own_deal(program: str) -> None:
    checked = 0
    for data in drawn_files(63, 80, 25):
        filled, _ = said(program, data)
        plain, added = list(games(data)), list(boards(filled))
        assert len(plain) == len(added)
        for game, board in zip(plain, added):
            lacks = not game.named(b"doubledummytricks") and not game.named(b"optimumresulttable")
            if board.deal is not None and board.closed and lacks:
                assert board.table is not None and board.table.tricks == results_of(board.deal)
                checked += 1
            elif board.table is not None and board.deal is not None:
                # Results that were there are kept, though they may be of another deal. Beside the right ones they are none.
                kept = any(value.decode() == DIGITS for value, _ in game.named(b"doubledummytricks"))
                assert board.table.tricks == (RESULTS if kept else results_of(board.deal))
    assert checked > 40


DIGITS = "976a7976a73673636736"
CONDITIONS = '[Dealer "N"]\n[Vulnerable "None"]\n'
DEAL = f'[Deal "{NORTH.decode()}"]\n'
RESULT_TAGS = f'[DoubleDummyTricks "{DIGITS}"]\n[OptimumScore "NS 400"]\n[ParContract "NS 3NT="]\n'
OTHER = '[Deal "E:Q.AKJ65.AK85.Q62 KJ642.93.QJT.J84 T73.872.9643.T75 A985.QT4.72.AK93"]\n'


def test_a_board() -> None:
    [board] = boards('[Event "Club pairs"]\n[Board "7"]\n' + CONDITIONS + DEAL + RESULT_TAGS)
    assert (board.game, board.name, board.value("event"), board.value("Site")) == (1, "7", "Club pairs", None)
    assert board.deal is not None and board.deal.pbn.encode() == NORTH
    assert (board.dealer, board.vulnerable, board.closed, board.differs) == (Seat.NORTH, Vulnerable.NEITHER, True, False)
    assert board.table is not None and board.table.tricks == RESULTS
    assert board.par is not None and board.par.text == "Par: NS 400, 3NT NS ="
    assert str(board).startswith("Board 7, North deals, neither side vulnerable\n\n" + " " * 14 + "♠ J6\n") and str(board).endswith("Par: NS 400, 3NT NS =")


def test_a_board_in_a_notebook() -> None:
    [board, none] = boards('[Board "<7>"]\n' + DEAL + RESULT_TAGS + '\n[Board "8"]\n')
    shown = words(board._repr_html_())
    assert shown.startswith("Board <7>") and "♦ AQ7643" in shown and shown.endswith("Par: NS 400, 3NT NS =")
    assert words(none._repr_html_()) == "Board 8No deal."


def table_rows() -> str:
    rows = [
        f"{seat.letter} {strain.letters:>2} {RESULTS[strain][seat]:>2}"
        for seat in (Seat.NORTH, Seat.SOUTH, Seat.EAST, Seat.WEST)
        for strain in (Strain.NOTRUMP, Strain.SPADES, Strain.HEARTS, Strain.DIAMONDS, Strain.CLUBS)
    ]
    return '[OptimumResultTable "Declarer;Denomination\\2R;Result\\2R"]\n' + "\n".join(rows) + "\n"


def test_results_that_stand_as_a_table_alone() -> None:
    [board] = boards(DEAL + table_rows())
    assert board.table is not None and board.table.tricks == RESULTS
    [short] = boards(DEAL + table_rows().rpartition("W ")[0])
    assert short.table is None and not short.differs


def test_tags_that_tell_different_results_tell_none() -> None:
    wrong = DIGITS.replace("a", "9")
    for tags in (f'[DoubleDummyTricks "{wrong}"]\n' + table_rows(), f'[DoubleDummyTricks "{DIGITS}"]\n[DoubleDummyTricks "{wrong}"]\n'):
        [board] = boards(DEAL + tags)
        assert board.table is None and board.differs
    [board] = boards(DEAL + RESULT_TAGS + '[OptimumScore "NS 430"]\n')
    assert board.table is None and board.par is None and board.differs


def test_what_is_the_same_as_before_is_so_for_the_same_deal_alone() -> None:
    same = '[DoubleDummyTricks "#"]\n[OptimumScore "#"]\n[ParContract "#"]\n'
    first, again, vulnerable, other = boards(
        f"{CONDITIONS}{DEAL}{RESULT_TAGS}\n" + f'{CONDITIONS}[Deal "#"]\n{same}\n' + f'[Dealer "#"]\n[Vulnerable "NS"]\n[Deal "#"]\n{same}\n' + f"{CONDITIONS}{OTHER}{same}"
    )
    assert first.table == again.table == vulnerable.table and again.table is not None
    assert first.par == again.par and again.par is not None
    assert vulnerable.par is None and other.deal is not None and other.table is None and other.par is None


def test_what_holds_for_later_games() -> None:
    found = list(boards(f'[Event "##Spring"]\n[Dealer "##E"]\n{DEAL}\n[Board "2"]\n{OTHER}\n[Board "3"]\n[Dealer "S"]\n[Event "#"]\n\n[Board "4"]\n[Event "#"]\n'))
    assert [(it.value("Event"), it.dealer) for it in found] == [("Spring", Seat.EAST), ("Spring", Seat.EAST), ("Spring", Seat.SOUTH), ("Spring", Seat.EAST)]


@pytest.mark.parametrize("tags, par", [
    ('[OptimumScore "EW 140"]\n[ParContract "EW 3H="]\n', "Par: EW 140, 3♥ EW ="),
    ('[OptimumScore "NS 300"]\n[ParContract "EW 4DX-2"]\n', "Par: NS 300, 4♦x EW -2"),
    ('[OptimumScore "EW 100"]\n[ParContract "NS 3DX-1; S 2NTX-1"]\n', "Par: EW 100, 3♦x NS -1, 2NTx S -1"),
    ('[OptimumScore "NS 0"]\n[ParContract "Pass"]\n', "Par: passed out"),
    ('[OptimumScore "NS 400"]\n[ParContract "Pass"]\n', None),
    ('[OptimumScore "400"]\n[ParContract "NS 3NT="]\n', None),
    ('[OptimumScore "NS 400"]\n[ParContract "NS 3NT+9"]\n', None),
    ('[OptimumScore "NS 400"]\n', None),
])  # fmt: skip
def test_par_as_it_is_written(tags: str, par: Optional[str]) -> None:
    [board] = boards(DEAL + tags)
    assert (board.par.text if board.par else None) == par


def test_a_file_is_read_from_its_path_and_opened(tmp_path: Path) -> None:
    path = tmp_path / "latin.pbn"
    path.write_bytes('[Event "München"]\n'.encode("iso-8859-1") + DEAL.encode())
    with open(path, "rb") as file:
        assert read_pbn(path) == read_pbn(str(path)) == read_pbn(file)
    assert [board.value("Event") for board in read_pbn(path)] == ["München"]
    path.write_bytes('\ufeff[Event "München"]\n'.encode())
    assert [board.value("Event") for board in read_pbn(path)] == ["München"]
    assert [board.value("Event") for board in read_pbn(io.StringIO('[Event "München"]'))] == ["München"]
    assert list(boards(b"")) == list(boards(b"no game [here")) == []
