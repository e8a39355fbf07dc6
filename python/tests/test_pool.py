"""The pool: its options, questions that are none, and programs that end before their replies."""
import sys
import time
from pathlib import Path
from typing import Any, Iterator, List

import pytest

import ddserve.pool
from ddserve import BadDeal, BadQuestion, Ended, Fault, Pool, Request, Table, requests
from ddserve.solver import Process, processors
from test_answers import asked, told

ONE_CARD = "N:A... K... Q... J..."
TWO_CARDS = "N:A.2.. K.3.. Q.4.. J.5.."


def deadly(tmp_path: Path, body: str) -> str:
    """A program in place of ddserve that notes each line which it is asked, and then does this with it."""
    path = tmp_path / "deadly"
    log = tmp_path / "log"
    path.write_text(
        f"#!{sys.executable}\nimport json, os, sys\nfor line in iter(sys.stdin.readline, ''):\n"
        f"    with open({str(log)!r}, 'a') as file:\n        file.write(line)\n    {body}\n"
        "    print(json.dumps({'table': [[1, 0, 0, 0]] * 5}), flush=True)\n"
    )
    path.chmod(0o755)
    return str(path)


def started_by(monkeypatch: pytest.MonkeyPatch) -> List[Process]:
    """The programs that pools start from now on."""
    started: List[Process] = []

    class Noted(Process):
        def __init__(self, words: List[str]) -> None:
            super().__init__(words)
            started.append(self)

    monkeypatch.setattr(ddserve.pool, "Process", Noted)
    return started


@pytest.mark.parametrize("options", [{"workers": 0}, {"workers": -2}, {"workers": 1.5}, {"workers": "2"}, {"ahead": 0}, {"ahead": -1}, {"ahead": -3}, {"ahead": "all"}])
def test_a_number_of_workers_or_of_questions_that_is_none_is_refused(program: str, options: Any) -> None:
    with pytest.raises(ValueError, match=next(iter(options))):
        Pool(program=program, **options)


def test_minus_one_is_all_processors(program: str) -> None:
    assert Pool(-1, program=program).workers == Pool(program=program).workers == processors() >= 1
    assert [table["NT", "N"] for table in Pool(-1, program=program).tables([ONE_CARD] * 3)] == [1] * 3


def test_what_is_no_question_has_its_error_in_its_place(program: str) -> None:
    question = requests.table(ONE_CARD)
    questions: List[Any] = [question, None, question, "N:A... K... Q... J...", question]
    outcomes: List[object] = list(Pool(2, program=program).outcomes(questions))
    assert [type(it) for it in outcomes] == [Table, BadQuestion, Table, BadQuestion, Table]
    found = Pool(2, program=program).ask_all(questions)
    assert isinstance(next(found), Table)
    with pytest.raises(ValueError, match="None is no question"):
        next(found)
    assert list(found) == []


@pytest.mark.parametrize("wrong", [None, "N:A... K...", 7])
def test_a_deal_that_is_none_is_told_behind_the_results_before_it(program: str, wrong: Any) -> None:
    tables = Pool(2, program=program).tables([ONE_CARD, TWO_CARDS, wrong, ONE_CARD])
    assert [next(tables).deal.pbn for _ in range(2)] == [ONE_CARD, TWO_CARDS]
    with pytest.raises(BadDeal):
        next(tables)


def test_an_exception_of_the_questions_comes_behind_the_results_before_it(program: str) -> None:
    def questions() -> Iterator["Request[Table]"]:
        yield requests.table(ONE_CARD)
        raise OSError("the list is lost")

    found = Pool(2, program=program).ask_all(questions())
    assert isinstance(next(found), Table)
    with pytest.raises(OSError, match="the list is lost"):
        next(found)


@pytest.mark.parametrize("workers", [1, 3])
def test_a_program_that_is_killed_has_a_successor(program: str, workers: int, monkeypatch: pytest.MonkeyPatch) -> None:
    started = started_by(monkeypatch)
    cases = asked("small", "tables", "small", most=60)
    found: List[object] = []
    for result in Pool(workers, program=program).ask_all(request for request, _ in cases):
        found.append(told(result))
        if len(found) in (1, 20, 50):
            alive = [it for it in started if it._process.poll() is None]
            alive[-1]._process.kill()
    assert found == [reply for _, reply in cases]
    assert workers < len(started) <= workers + 3
    # None is left behind.
    assert all(it._process.poll() is not None for it in started)


def test_a_question_that_a_program_ends_by_is_asked_three_times_and_the_others_are_answered(tmp_path: Path) -> None:
    program = deadly(tmp_path, "if 'A.2..' in line: os._exit(3)")
    deals = [ONE_CARD] * 9 + [TWO_CARDS] + [ONE_CARD] * 9
    outcomes = list(Pool(2, program=program).outcomes(map(requests.table, deals)))
    assert [isinstance(it, Table) for it in outcomes] == [deal == ONE_CARD for deal in deals]
    assert isinstance(outcomes[9], Ended) and "status 3" in str(outcomes[9])
    lines = (tmp_path / "log").read_text().splitlines()
    assert sum("A.2.." in line for line in lines) == 3 and len(lines) <= 18 + 3 + 3


def test_a_program_that_always_ends_is_told_of_each_question(tmp_path: Path) -> None:
    program = deadly(tmp_path, "sys.exit(2)")
    start = time.monotonic()
    outcomes = list(Pool(2, program=program).outcomes([requests.table(ONE_CARD)] * 5))
    assert [type(it) for it in outcomes] == [Ended] * 5 and time.monotonic() - start < 30
    with pytest.raises(Ended):
        list(Pool(2, program=program).tables([ONE_CARD] * 5))
    with pytest.raises(Ended):
        list(Pool(1, program="/bin/false").tables([ONE_CARD] * 5))


def test_a_fault_is_no_end_of_a_program(program: str) -> None:
    wrong = requests.table("N:A... K... Q... J2...")
    outcomes: List[object] = list(Pool(1, program=program).outcomes([wrong, requests.table(ONE_CARD)] * 20))
    assert [type(it) for it in outcomes] == [Fault, Table] * 20


def test_a_pool_in_with_leaves_no_program_behind(program: str, monkeypatch: pytest.MonkeyPatch) -> None:
    started = started_by(monkeypatch)
    with Pool(2, program=program) as pool:
        assert [table["NT", "N"] for table in pool.tables([ONE_CARD] * 3)] == [1] * 3
        tables, outcomes, later = pool.tables([ONE_CARD] * 50), pool.outcomes([requests.table(ONE_CARD)] * 50), pool.tables([ONE_CARD])
        assert isinstance(next(tables), Table) and isinstance(next(outcomes), Table)
        assert any(it._process.poll() is None for it in started)
    assert started and all(it._process.returncode is not None for it in started)
    count = len(started)
    for left in (tables, outcomes, later):
        with pytest.raises(Ended, match="the pool was closed"):
            next(left)
        assert list(left) == []
    assert len(started) == count
    # Another call starts programs anew.
    assert [table["NT", "N"] for table in pool.tables([ONE_CARD] * 3)] == [1] * 3
    pool.close()
    pool.close()


def test_an_exception_within_with_closes_the_pool_and_is_raised(program: str, monkeypatch: pytest.MonkeyPatch) -> None:
    started = started_by(monkeypatch)
    tables: Iterator[Table]
    with pytest.raises(KeyError), Pool(1, program=program) as pool:
        tables = pool.tables([ONE_CARD] * 50)
        next(tables)
        raise KeyError
    assert started and all(it._process.returncode is not None for it in started)


def test_questions_that_close_their_pool_start_no_program(program: str, monkeypatch: pytest.MonkeyPatch) -> None:
    started = started_by(monkeypatch)
    pool = Pool(1, program=program)

    def deals() -> Iterator[str]:
        pool.close()
        yield ONE_CARD

    with pytest.raises(Ended, match="the pool was closed"):
        list(pool.tables(deals()))
    assert not started
