"""Double-dummy answers of ddserve: the tricks of each card, the twenty results of a deal, par, and the trace of a play.

`table`, `solve`, `leads`, `par` and `play` ask a program that is started with the first question. `Solver`, `Client`,
`AsyncSolver`, `AsyncClient` and `Pool` are for more. `read_pbn` and `boards` read PBN files, and `without_results` clears one of results
that are no longer those of its deals."""
from . import requests
from .aio import AsyncClient, AsyncSolver
from .bridge import Card, Seat, Side, Strain, Suit, Vulnerable
from .cleared import without_results
from .client import Client
from .deal import BadDeal, Deal
from .default import ask, leads, par, play, solve, table
from .faults import FAULTS, BadQuestion, Cancelled, Ended, Error, Fault, NoLines, NoProgram, NoServer, Spent
from .pbn import Board, boards, read_pbn
from .pool import Pool
from .requests import Request
from .results import Cards, Choice, Contract, Par, Play, Step, Table
from .solver import Solver

__version__ = "0.2.0"

__all__ = [
    "FAULTS",
    "AsyncClient",
    "AsyncSolver",
    "BadDeal",
    "BadQuestion",
    "Board",
    "Cancelled",
    "Card",
    "Cards",
    "Choice",
    "Client",
    "Contract",
    "Deal",
    "Ended",
    "Error",
    "Fault",
    "NoLines",
    "NoProgram",
    "NoServer",
    "Par",
    "Play",
    "Pool",
    "Request",
    "Seat",
    "Side",
    "Solver",
    "Spent",
    "Step",
    "Strain",
    "Suit",
    "Table",
    "Vulnerable",
    "ask",
    "boards",
    "leads",
    "par",
    "play",
    "read_pbn",
    "requests",
    "solve",
    "table",
    "without_results",
]
