"""What clients do when an answer doesn't come at once, or not at all."""
import asyncio
import os
import pickle
import signal
import threading
import time
from typing import Any, Callable, Dict, Iterator, List

import pytest

from conftest import Scripted, Serving, recorded
from ddserve import AsyncClient, AsyncSolver, Cancelled, Client, Deal, Ended, Error, Fault, NoLines, NoProgram, NoServer, Pool, Solver, Spent, Table, requests
from ddserve.client import Retries

ONE_CARD = "N:A... K... Q... J..."
CARDS = {"cards": [{"equals": 0, "rank": 14, "score": 1, "suit": 0}]}
DONE = {**CARDS, "job": 1, "state": "done"}
RESULTS = [[7, 6, 7, 6], [6, 7, 6, 7], [10, 3, 10, 3], [7, 6, 7, 6], [9, 3, 9, 3]]
PAR = {"contracts": [{"declarers": [0, 2], "level": 3, "tricks": 9, "trump": 4}], "score": 400}
FULL = "N:J6.72.AQ7643.AJ7 Q9842.Q854.T.K42 AT75.AT9.KJ8.T83 K3.KJ63.952.Q965"

# Connections with their replies, and how many lines each of them is asked.
SCRIPTS = [
    ("the answer at once", [[DONE]], [1]),
    ("it waits, runs, and is done", [[{"job": 1, "state": "waiting"}, {"job": 1, "state": "running"}, DONE]], [3]),
    ("the number of the job alone", [[{"job": 1}, DONE]], [2]),
    ("the run is used up", [[{"fault": 15}], [DONE]], [1, 1]),
    ("the run has no more connections", [[{"fault": 14}], [DONE]], [1, 1]),
    ("the run is used up at the fetch", [[{"job": 9}, {"fault": 15}], [DONE]], [2, 1]),
    ("the connection is lost", [[None], [DONE]], [1, 1]),
    ("the connection is lost at the fetch", [[{"job": 1, "state": "waiting"}, None], [DONE]], [2, 1]),
    ("the server is closing", [[{"fault": 18}], [DONE]], [1, 1]),
    ("the server is closing at the fetch", [[{"job": 1, "state": "running"}, {"job": 1, "state": "cancelled"}], [DONE]], [2, 1]),
    ("runs one after the other", [[{"fault": 15}], [{"fault": 15}], [None], [DONE]], [1, 1, 1, 1]),
]


@pytest.mark.parametrize("script, counts", [row[1:] for row in SCRIPTS], ids=[row[0] for row in SCRIPTS])
@pytest.mark.parametrize("is_async", [False, True])
def test_a_question_is_asked_until_it_is_answered(script: List[Any], counts: List[int], is_async: bool) -> None:
    server = Scripted(*script)

    async def solve() -> int:
        async with AsyncClient(port=server.port, wait=700) as client:
            return (await client.solve(ONE_CARD, "NT", "N"))["SA"]

    if is_async:
        assert asyncio.run(solve()) == 1
    else:
        with Client(port=server.port, wait=700) as client:
            assert client.solve(ONE_CARD, "NT", "N")["SA"] == 1
    lines = server.finished()
    assert [len(asked) for asked in lines] == counts
    for asked in lines:
        assert asked[0] == {"do": "solve", "deal": ONE_CARD, "trump": 4, "first": 0, "solutions": 3, "wait": 700}
        assert all(line["do"] == "fetch" and line["wait"] == 700 for line in asked[1:])


def test_par_of_a_deal_asks_a_server_for_the_table_first() -> None:
    server = Scripted([{"job": 3, "state": "running"}, {"table": RESULTS, "job": 3, "state": "done"}, PAR])
    with Client(port=server.port) as client:
        assert client.par(FULL, "None", dealer="N").score == 400
    table, fetch, par = server.finished()[0]
    assert (table["do"], fetch["job"]) == ("table", 3)
    assert par == {"do": "par", "table": RESULTS, "dealer": 0, "vulnerable": 0}


@pytest.mark.parametrize("reply, error", [({"job": 1, "state": "spent"}, Spent), ({"job": 1, "state": "cancelled"}, Cancelled), ({"fault": 18}, Fault)])
def test_what_has_no_result_is_raised(reply: Dict[str, Any], error: type) -> None:
    server = Scripted(*[[reply]] * 50)
    with Client(port=server.port, patience=0.2) as client, pytest.raises(error):
        client.solve(ONE_CARD, "NT", "N")


def test_a_server_that_is_away_is_waited_for_only_once_it_was_there() -> None:
    server = Scripted([DONE, None])
    with Client(port=server.port, patience=0.3) as client:
        client.solve(ONE_CARD, "NT", "N")
        start = time.monotonic()
        with pytest.raises(NoServer):
            client.solve(ONE_CARD, "NT", "N")
        assert 0.1 < time.monotonic() - start < 5
    with Client(port=server.port) as client:
        start = time.monotonic()
        with pytest.raises(NoServer):
            client.solve(ONE_CARD, "NT", "N")
        assert time.monotonic() - start < 5


def test_a_server_that_is_started_again_is_found(serving: Callable[..., Serving]) -> None:
    server = serving()
    with Client(port=server.port) as client:
        assert client.solve(ONE_CARD, "NT", "N")["SA"] == 1
        server.end()
        threading.Timer(0.5, serving, kwargs={"port": server.port}).start()
        assert client.solve(ONE_CARD, "NT", "N")["SA"] == 1


@pytest.mark.parametrize(
    "request_, number, field",
    [
        (requests.table("N:A... K... Q... J2..."), 7, "deal"),
        (requests.table("N:... ... ... ..."), 8, "deal"),
        (requests.solve(ONE_CARD, "NT", "N", solutions=4), 12, "solutions"),
        (requests.solve(ONE_CARD, "NT", "N", solutions=3, target=1), 12, "solutions"),
        (requests.solve(ONE_CARD, "NT", "N", solutions=2, target=14), 27, "target"),
        (requests.solve("N:A... K... Q... ...", "NT", "W", played=["SA"]), 6, "deal or played"),
        (requests.par([[14] * 4] * 5, "None", dealer="N"), 22, "table"),
        (requests.par(ONE_CARD, "None", side="NS"), 23, "deal"),
        (requests.play(ONE_CARD, "NT", "N", ["SK"]), 24, "cards"),
        (requests.play(ONE_CARD, "NT", "N", ["SA", "SK", "SQ", "SJ", "S2"]), 26, "cards"),
    ],
)
def test_a_fault_has_its_number_its_text_and_its_field(program: str, request_: Any, number: int, field: str) -> None:
    with Solver(program) as solver:
        with pytest.raises(Fault) as caught:
            solver.ask(request_)
        assert (caught.value.number, caught.value.field) == (number, field)
        assert str(caught.value).startswith(f"fault {number}: {caught.value.text} (field {field})")
        assert str(pickle.loads(pickle.dumps(caught.value))) == str(caught.value)
        # The program goes on.
        assert solver.solve(ONE_CARD, "NT", "N")["SA"] == 1


@pytest.mark.parametrize("program, status", (("/bin/true", 0), ("/bin/false", 1)))
def test_a_program_that_ends_by_itself_tells_its_own_status(program: str, status: int) -> None:
    for _ in range(20):
        with Solver(program) as solver, pytest.raises(Ended, match=f"ended with status {status} before its reply"):
            solver.table("N:A... K... Q... J...")


def test_a_target_alone_asks_for_each_card_that_reaches_it(program: str) -> None:
    with Solver(program) as solver:
        deal = "N:AK... 32... 54... 76..."
        assert solver.solve(deal, "NT", "N", target=2) == solver.solve(deal, "NT", "N", solutions=2, target=2)
        assert solver.solve(deal, "NT", "N") == solver.solve(deal, "NT", "N", solutions=3)


def test_a_budget_that_is_spent(program: str) -> None:
    with Solver(program, budget=1) as solver, pytest.raises(Spent):
        solver.table(FULL)


def test_a_program_that_is_not_there() -> None:
    with pytest.raises(NoProgram):
        Solver("/no/such/program").table(FULL)
    with pytest.raises(NoProgram):
        list(Pool(2, program="/no/such/program").tables([FULL]))


def test_a_program_that_ends_is_started_again(program: str) -> None:
    with Solver(program) as solver:
        solver.solve(ONE_CARD, "NT", "N")
        assert solver._process is not None
        os.kill(solver._process._process.pid, signal.SIGKILL)
        with pytest.raises(Ended):
            solver.solve(ONE_CARD, "NT", "N")
        assert solver.solve(ONE_CARD, "NT", "N")["SA"] == 1


class Interrupt(Exception):
    pass


def test_an_interrupted_question_leaves_no_reply_behind(program: str) -> None:
    def interrupt(*_: Any) -> None:
        raise Interrupt

    before = signal.signal(signal.SIGALRM, interrupt)
    try:
        with Solver(program) as solver:
            assert solver.solve(ONE_CARD, "NT", "N")["SA"] == 1
            signal.setitimer(signal.ITIMER_REAL, 0.01)
            with pytest.raises(Interrupt):
                while True:
                    solver.table(Deal.by_chance())
            assert solver.solve("N:2... A... Q... J...", "NT", "N")["S2"] == 0
    finally:
        signal.setitimer(signal.ITIMER_REAL, 0)
        signal.signal(signal.SIGALRM, before)


def test_a_cancelled_task_gives_its_search_up(program: str, serving: Callable[..., Serving]) -> None:
    port = serving().port

    async def ask() -> None:
        for channels in (AsyncSolver(program, processes=1), AsyncClient(port=port, connections=1)):
            async with channels:
                with pytest.raises(asyncio.TimeoutError):
                    await asyncio.wait_for(asyncio.gather(*(channels.table(Deal.by_chance()) for _ in range(50))), 0.1)
                assert (await channels.solve(ONE_CARD, "NT", "N"))["SA"] == 1

    asyncio.run(ask())


def test_connections_that_were_lost_together_are_left_together(serving: Callable[..., Serving], monkeypatch: pytest.MonkeyPatch) -> None:
    server = serving()
    pauses: List[float] = []

    def pause_after(retries: Retries, error: Error) -> float:
        pauses.append(before(retries, error))
        return pauses[-1]

    async def ask() -> None:
        async with AsyncClient(port=server.port, connections=8) as client:
            await asyncio.gather(*(client.table(Deal.by_chance(2)) for _ in range(8)))
            server.end()
            serving(port=server.port)
            assert (await client.solve(ONE_CARD, "NT", "N"))["SA"] == 1

    before = Retries.pause_after
    monkeypatch.setattr(Retries, "pause_after", pause_after)
    asyncio.run(ask())
    assert pauses == [0]


def test_a_forked_process_has_a_program_of_its_own(program: str) -> None:
    with Solver(program) as solver:
        solver.solve(ONE_CARD, "NT", "N")
        pid = os.fork()
        if pid == 0:
            os._exit(0 if solver.solve(ONE_CARD, "NT", "N")["SA"] == 1 and not solver.close() else 1)  # type: ignore[func-returns-value]
        assert os.waitpid(pid, 0)[1] == 0
        assert solver.solve(ONE_CARD, "NT", "N")["SA"] == 1


def test_threads_share_a_solver(program: str) -> None:
    wrong: List[str] = []

    def ask(solver: Solver, at: int) -> None:
        for request, reply in recorded("tables")[at : at + 4]:
            if [list(row) for row in solver.table(request["deal"]).tricks] != reply["table"]:
                wrong.append(request["deal"])

    with Solver(program) as solver:
        threads = [threading.Thread(target=ask, args=(solver, at)) for at in range(0, 16, 4)]
        for thread in threads:
            thread.start()
        for thread in threads:
            thread.join()
    assert not wrong


def test_the_pool_takes_no_more_than_it_may_hold(program: str) -> None:
    taken = 0

    def deals() -> Iterator[str]:
        nonlocal taken
        while True:
            taken += 1
            yield ONE_CARD

    told = 0
    for _ in Pool(2, ahead=5, program=program).tables(deals()):
        told += 1
        assert taken - told <= 5
        if told == 200:
            break
    assert taken <= 205


def test_the_pool_tells_faults_in_their_places(program: str) -> None:
    questions = [requests.table(deal) for deal in (ONE_CARD, "N:A... K... Q... J2...", ONE_CARD)]
    outcomes = list(Pool(2, program=program).outcomes(questions))
    assert [type(it) for it in outcomes] == [Table, Fault, Table]
    found = Pool(2, program=program).ask_all(questions)
    assert isinstance(next(found), Table)
    with pytest.raises(Fault):
        next(found)
    assert list(found) == []


def test_the_pool_of_no_questions(program: str) -> None:
    assert list(Pool(program=program).tables([])) == []


@pytest.mark.parametrize(
    "make",
    [
        lambda program: Solver(program, budget=-1),
        lambda program: Solver(program, budget=10**12 + 1),
        lambda program: Solver(program, budget="many"),  # type: ignore[arg-type]
        lambda program: Solver(program, entries=0),
        lambda program: Solver(program, entries=65_537),
        lambda program: Solver(program, entries=4.5),  # type: ignore[arg-type]
        lambda program: Pool(1, program=program, entries=0),
        lambda program: AsyncSolver(program, processes=0),
        lambda program: AsyncSolver(program, processes=-2),
        lambda program: AsyncSolver(program, entries=-1),
        lambda program: Client(port=65_536),
        lambda program: Client(port="4100"),  # type: ignore[arg-type]
        lambda program: Client(wait=-1),
        lambda program: Client(patience=-0.5),
        lambda program: Client(patience=float("nan")),
        lambda program: AsyncClient(port=-1),
        lambda program: AsyncClient(connections=0),
        lambda program: AsyncClient(wait="long"),  # type: ignore[arg-type]
        lambda program: AsyncClient(patience="long"),  # type: ignore[arg-type]
    ],
)
def test_a_wrong_option_is_refused(program: str, make: Callable[[str], object]) -> None:
    with pytest.raises(ValueError):
        make(program)


def test_the_least_and_the_greatest_options_are_taken(program: str) -> None:
    with Solver(program, budget=10**12, entries=65_536) as solver:
        assert solver.solve(ONE_CARD, "NT", "N")["SA"] == 1
    with Solver(program, budget=0, entries=1) as solver, pytest.raises(Spent):
        solver.solve(ONE_CARD, "NT", "N")


def test_a_server_of_websockets_is_told_from_one_of_lines(serving: Callable[..., Serving]) -> None:
    port = serving("--websocket").port

    async def solve() -> None:
        async with AsyncClient(port=port) as client:
            await client.solve(ONE_CARD, "NT", "N")

    start = time.monotonic()
    with Client(port=port) as client, pytest.raises(NoLines, match="--websocket"):
        client.solve(ONE_CARD, "NT", "N")
    with pytest.raises(NoLines, match="--websocket"):
        asyncio.run(solve())
    assert time.monotonic() - start < 5
