"""Files that were changed after they were filled: their results are taken out, and asked for anew."""
import re
import subprocess
import sys
from pathlib import Path
from typing import List, Optional, Tuple

import pytest

from ddserve import boards, without_results
from ddserve.games import games
from drawn import EAST, NORTH, RESULTS, drawn_files
from test_pbn import SAMPLES, results_of, said

COMMAND = [sys.executable, "-m", "ddserve", "clear"]
RESULT_TAGS = {b"doubledummytricks", b"optimumscore", b"parcontract", b"optimumresulttable"}
GAME = b'[Board "7"]\n[Dealer "N"]\n[Vulnerable "None"]\n[Deal "' + NORTH + b'"]\n'


def clear(data: bytes, *words: str) -> Tuple[int, bytes, bytes]:
    """The status of the command, what it writes, and what it says."""
    run = subprocess.run([*COMMAND, *words], input=data, capture_output=True)
    return run.returncode, run.stdout, run.stderr


@pytest.mark.parametrize("path", sorted(SAMPLES.glob("*.pbn")), ids=lambda path: str(path.stem))
def test_a_sample_that_was_filled_is_what_it_was(path: Path) -> None:
    plain, filled = path.read_bytes(), path.with_suffix(".expected").read_bytes()
    if path.stem == "11-there":
        # It has tags of its own.
        assert without_results(filled) == without_results(plain) == re.sub(rb"(?im)^(\[(optimum|double|par).*|N NT 1)\n", b"", plain) != plain
    else:
        assert without_results(filled) == without_results(plain) == plain


@pytest.mark.parametrize("filled, left", [
    (b'[Event "x"]\n[OptimumScore "NS 50"]\n[Site "y"]\n', b'[Event "x"]\n[Site "y"]\n'),
    (b'[Event "x"]\r\n  [parcontract\t"Pass"] \t\r\n', b'[Event "x"]\r\n'),
    (b'[Event "x"]\n[OptimumScore ; why\n  "NS 50"\n]\n\n[Event "y"]\n', b'[Event "x"]\n\n[Event "y"]\n'),
    (b'[Event "x"][OptimumScore "#"][Site "y"]\n', b'[Event "x"] [Site "y"]\n'),
    (b'[Event "x"]\n[OptimumScore "NS 50"]% [Site "y"]\n', b'[Event "x"]\n % [Site "y"]\n'),
    (b'\xef\xbb\xbf[OptimumScore "NS 50"]\n[Event "x"]\n', b'\xef\xbb\xbf[Event "x"]\n'),
    (b'[Event "x"]\n[OptimumScore "NS 50"] ; so it is\n', b'[Event "x"]\n  ; so it is\n'),
    # Rows with comments between them.
    (b'[Event "x"]\n[OptimumResultTable "a;b"]\nN NT 9 ; one\n; two\n{ three }\n\t{four} S "9"\n% five\nE\n[Play "N"]\nSA\n', b'[Event "x"]\n; one\n; two\n{ three }\n\t{four}\n% five\n[Play "N"]\nSA\n'),
    (b'[Event "x"]\n[OptimumResultTable "a;b"]\nN NT 9 { to the\n\nnext } S\n', b'[Event "x"]\n{ to the\n\nnext }\n'),
    # The lines end with the file.
    (b'[Event "x"]\n[OptimumResultTable "a;b"]\nN NT 9', b'[Event "x"]'),
    (b'[Event "x"]\r\n[ParContract "Pass"]', b'[Event "x"]'),
    (b'[Event "x"] [ParContract "Pass"]', b'[Event "x"]  '),
    # What is no tag stays.
    (b'[Event "x"]\n{[OptimumScore "NS 50"]}\n; [ParContract "Pass"]\n% [ParContract "Pass"]\n[OptimumScore NS 50]\n', None),
    (b'[Event "x"]\n[OptimumPlayTable "S"]\nSA 9\n[Score "NS 50"]\n', None),
    (b'no game [here "', None),
    (b"", None),
])  # fmt: skip
def test_what_is_taken_out(filled: bytes, left: Optional[bytes]) -> None:
    assert without_results(filled) == (filled if left is None else left)


def test_a_game_of_results_alone_is_gone() -> None:
    assert without_results(GAME + b'\n[OptimumScore "NS 400"]\n\n[Event "y"]\n') == GAME + b'\n\n[Event "y"]\n'


@pytest.mark.parametrize("data", [b'[Event [OptimumScore "NS 50"] "x"]\n', b'[Event "x"]\n[\n[OptimumScore "NS 50"]\nSite "y"]\n', GAME + b'\n[OptimumScore "NS 400"]\n\n[Event "#"]\n[Deal "#"]\n'])
def test_where_another_tag_would_change_nothing_is_taken_out(data: bytes) -> None:
    with pytest.raises(ValueError, match="can't be taken out"):
        without_results(data)
    assert clear(data) == (1, b"", b"ddserve clear: the results can't be taken out: another tag would change\n")


def tags_of(data: bytes) -> List[Tuple[bytes, bytes]]:
    return [(tag.name, tag.value) for game in games(data) for tag in game.tags]


def test_drawn_files_have_no_results_left_and_all_other_tags() -> None:
    refused = 0
    for data in drawn_files(64, 2_000, 40):
        try:
            left = without_results(data)
        except ValueError:
            refused += 1
            continue
        assert tags_of(left) == [it for it in tags_of(data) if it[0].lower() not in RESULT_TAGS], data
        assert (left == data) == (len(tags_of(left)) == len(tags_of(data)))
    assert refused <= 5


def test_each_board_of_a_cleared_file_gets_the_results_of_its_own_deal(program: str) -> None:
    checked = 0
    for data in drawn_files(65, 80, 25):
        try:
            left = without_results(data)
        except ValueError:
            continue
        filled, _ = said(program, left)
        assert without_results(filled) == left
        for board in boards(filled):
            if board.deal is not None and board.closed:
                assert board.table is not None and board.table.tricks == results_of(board.deal)
                checked += 1
    assert checked > 60


@pytest.mark.parametrize("old, new, par", [
    (NORTH, EAST, "Par: EW 400, 3NT EW ="),
    (b'Vulnerable "None"', b'Vulnerable "All"', "Par: NS 600, 3NT NS ="),
])  # fmt: skip
def test_a_board_that_was_changed_is_asked_for_anew(program: str, old: bytes, new: bytes, par: str) -> None:
    filled, _ = said(program, GAME)
    changed = filled.replace(old, new)
    # By itself nothing tells that the results are of another board: the program keeps them, and so does the reader.
    again, _ = said(program, changed)
    [kept] = boards(again)
    assert again == changed and kept.table is not None and kept.table.tricks == RESULTS and kept.par is not None and kept.par.text == "Par: NS 400, 3NT NS ="
    status, left, told = clear(changed)
    assert (status, left, told) == (0, GAME.replace(old, new), b"ddserve clear: results taken out of 1 of 1 game\n")
    [board] = boards(said(program, left)[0])
    assert board.deal is not None and board.table is not None and board.table.tricks == results_of(board.deal)
    assert board.par is not None and board.par.text == par


def test_what_the_command_says(tmp_path: Path) -> None:
    filled = SAMPLES / "16-bad-deals.expected"
    assert clear(b"", str(filled)) == (0, filled.with_suffix(".pbn").read_bytes(), b"ddserve clear: results taken out of 1 of 7 games\n")
    assert clear(b"a text\n") == (1, b"a text\n", b"ddserve clear: no game of PBN was found, so nothing was taken out\n")
    away = clear(b"", str(tmp_path / "away.pbn"))
    assert away[:2] == (1, b"") and away[2].count(b"\n") == 1 and away[2].endswith(b"away.pbn: No such file or directory\n")
    with open("/dev/full", "wb") as full:
        run = subprocess.run(COMMAND, input=GAME, stdout=full, stderr=subprocess.PIPE)
    assert (run.returncode, run.stderr) == (1, b"ddserve clear: the cleared file: No space left on device\n")
