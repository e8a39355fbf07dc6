"""The answers of each client are those that DDS gave."""
import asyncio
from typing import Any, Callable, Dict, List, Tuple, Union

import pytest

import ddserve
from conftest import Serving, recorded
from ddserve import AsyncClient, AsyncSolver, BadDeal, Cards, Client, Par, Play, Pool, Request, Solver, Table, requests

Result = Union[Cards, Par, Play, Table]


def request_of(fields: Dict[str, Any]) -> "Request[Any]":
    """The request by the package's own calls."""
    fields = dict(fields)
    do = fields.pop("do")
    if do == "par":
        of = fields.pop("deal") if "deal" in fields else fields.pop("table")
        return requests.par(of, **fields)
    cards = {name: [tuple(card) for card in fields.pop(name)] for name in ("played", "cards") if name in fields}
    return {"solve": requests.solve, "table": requests.table, "play": requests.play}[do](**fields, **cards)  # type: ignore[operator,no-any-return]


def told(result: Result) -> Dict[str, Any]:
    """The result as a reply of the protocol."""
    if isinstance(result, Table):
        return {"table": [list(row) for row in result.tricks]}
    if isinstance(result, Play):
        return {"tricks": list(result.tricks)}
    if isinstance(result, Par):
        contracts = [{"declarers": list(it.declarers), "level": it.level, "tricks": it.tricks, "trump": it.trump} for it in result.contracts]
        return {"contracts": contracts, "score": result.score}
    classes = [
        {"equals": sum(1 << card.rank for card in it.cards[1:]), "rank": it.card.rank, "score": it.tricks, "suit": it.card.suit} for it in result
    ]
    return {"cards": classes}


def asked(*names: str, most: int = 1000) -> List[Tuple["Request[Any]", Dict[str, Any]]]:
    found = [(request_of(request), reply) for name in names for request, reply in recorded(name)[:most] if "fault" not in reply]
    assert found
    return found


def test_the_line_tool(program: str) -> None:
    with Solver(program) as solver:
        for request, reply in asked("small", "full", "tables", "targets", "plays", "par", "par_deals", "par_definition"):
            assert told(solver.ask(request)) == reply


def test_a_server(serving: Callable[..., Serving]) -> None:
    with Client(port=serving().port) as client:
        for request, reply in asked("small", "tables", "targets", "par", "par_deals", most=100):
            assert told(client.ask(request)) == reply


def test_runs_that_are_used_up_are_left(serving: Callable[..., Serving]) -> None:
    # A run of 1,024 events has room for some 190 of these.
    with Client(port=serving("--events", "1024").port) as client:
        for request, reply in asked("small"):
            assert told(client.ask(request)) == reply


def test_asyncio_over_the_line_tool(program: str) -> None:
    cases = asked("tables", "small", "par_deals", "plays", most=20)

    async def ask_all() -> List[Result]:
        async with AsyncSolver(program, processes=3) as solver:
            found: List[Result] = await asyncio.gather(*(solver.ask(request) for request, _ in cases))
            return found

    assert [told(result) for result in asyncio.run(ask_all())] == [reply for _, reply in cases]


def test_asyncio_over_runs_that_are_used_up(serving: Callable[..., Serving]) -> None:
    cases = asked("small", "par_deals")
    port = serving("--events", "1024").port

    async def ask_all() -> List[Result]:
        async with AsyncClient(port=port, connections=4) as client:
            found: List[Result] = await asyncio.gather(*(client.ask(request) for request, _ in cases))
            return found

    assert [told(result) for result in asyncio.run(ask_all())] == [reply for _, reply in cases]


@pytest.mark.parametrize("workers, ahead", [(1, 1), (2, None), (3, 5)])
def test_the_pool_answers_in_order(program: str, workers: int, ahead: int) -> None:
    cases = asked("small", "tables", "small", most=60)
    pool = Pool(workers, ahead=ahead, program=program)
    assert [told(result) for result in pool.ask_all(request for request, _ in cases)] == [reply for _, reply in cases]


def test_one_call_each(program: str, monkeypatch: pytest.MonkeyPatch) -> None:
    monkeypatch.setenv("DDSERVE", program)
    [(request, reply)] = recorded("tables")[:1]
    table = ddserve.table(request["deal"])
    assert told(table) == reply and table["NT", "N"] == reply["table"][4][0]
    [(request, reply)] = recorded("full")[:1]
    declarer = ddserve.Seat((request["first"] + 3) % 4)
    leads = ddserve.leads(request["deal"], request["trump"], declarer)
    assert told(leads) == reply == told(ddserve.solve(request["deal"], request["trump"], request["first"]))
    [(request, reply)] = recorded("par")[:1]
    assert told(ddserve.par(request["table"], request["vulnerable"], side=request["side"])) == reply
    [(request, reply)] = recorded("plays")[:1]
    cards = [(suit, rank) for suit, rank in request["cards"]]
    assert told(ddserve.play(request["deal"], request["trump"], request["first"], cards)) == reply


FULL = "N:J6.72.AQ7643.AJ7 Q9842.Q854.T.K42 AT75.AT9.KJ8.T83 K3.KJ63.952.Q965"
TABLE = [[7, 6, 7, 6], [6, 7, 6, 7], [10, 3, 10, 3], [7, 6, 7, 6], [9, 3, 9, 3]]


@pytest.mark.parametrize("tags, missing", [
    ('[Vulnerable "None"]', "the dealer is missing"),
    ('[Dealer "?"][Vulnerable "None"]', "the dealer is missing"),
    ('[Dealer "North"][Vulnerable "None"]', "the dealer is missing"),
    ('[Dealer "N"]', "the vulnerability is missing"),
    ('[Dealer "N"][Vulnerable "E-W"]', "the vulnerability is missing"),
    ("", "the dealer is missing"),
])  # fmt: skip
def test_par_of_a_board_says_what_is_missing(tags: str, missing: str) -> None:
    [board] = ddserve.boards(f'{tags}[Deal "{FULL}"]')
    for of in (board.deal, TABLE):
        with pytest.raises(ValueError, match=f"^{missing}: give ") as caught:
            requests.par(of, board.vulnerable, dealer=board.dealer)  # type: ignore[arg-type]
        assert "just one" not in str(caught.value)


def test_par_of_no_deal_and_by_dealer_and_side() -> None:
    with pytest.raises(BadDeal, match="^the deal is missing: "):
        requests.par(None, "None", dealer="N")  # type: ignore[arg-type]
    with pytest.raises(ValueError, match="^dealer and side are both given: .* just one of the two$"):
        requests.par(FULL, "None", dealer="N", side="NS")
    assert requests.par(FULL, "None", side="NS").fields["side"] == 0 and requests.par(FULL, "None", "W").fields["dealer"] == 3
