"""What can go wrong: a line that can't be answered, a budget that was spent, a program or a server that is away."""
from __future__ import annotations

from typing import Optional, Tuple

# Number: text, and the fields of a request that it may be about.
FAULTS: dict[int, Tuple[str, Tuple[str, ...]]] = {
    1: ("the line is no JSON object", ()),
    2: ("the line is over 4,096 bytes", ()),
    3: ("a field is missing, unknown or of the wrong kind", ()),
    4: ("the text of the deal hasn't the form of a deal", ("deal",)),
    5: ("a hand of the deal is -", ("deal",)),
    6: ("a card stands twice in the deal, or is on the trick and in a hand, or stands twice on the trick", ("deal", "played")),
    7: ("the hands don't have equally many cards (a hand that has played to the trick: one fewer)", ("deal",)),
    8: ("there is no card to play", ("deal",)),
    9: ("trump is not 0 to 4", ("trump",)),
    10: ("first is not 0 to 3", ("first",)),
    11: ("played has more than three cards, cards more than 52, or one of them is no card", ("played", "cards")),
    12: ("solutions is not 1 to 3, or not 1 or 2 beside a target", ("solutions",)),
    13: ("64 jobs of this connection are open", ()),
    14: ("the run of this connection has no room for more jobs", ()),
    15: ("the run of this connection is used up", ()),
    16: ("this connection has no job of that number", ("job",)),
    17: ("the job has ended: there is nothing to cancel", ("job",)),
    18: ("the server is closing and takes no more jobs", ()),
    19: ("memory ran out; nothing was changed", ()),
    20: ("dealer is not 0 to 3, or side not 0 or 1", ("dealer", "side")),
    21: ("vulnerable is not 0 to 3", ("vulnerable",)),
    22: ("a result of the table is over 13", ("table",)),
    23: ("par of hands that are not of thirteen cards", ("deal",)),
    24: ("a card of the play is not in the hand that is to play it", ("cards",)),
    25: ("a card of the play is not of the suit led, which the hand has", ("cards",)),
    26: ("the play has a card after the last", ("cards",)),
    27: ("target is over 13", ("target",)),
}
# The run or the server has to be left: a client connects anew.
CONNECT_ANEW = (14, 15, 18)


class Error(Exception):
    """Whatever this package raises for a question that has no answer."""


class Fault(Error):
    """The program can't answer the line: `number` and `text` are the fault's, `field` is what it is about where that is known."""

    def __init__(self, number: int, line: str = "", fields: Tuple[str, ...] = ()) -> None:
        self.number = number
        self.line = line
        self.text, about = FAULTS.get(number, ("a fault that this package doesn't know", ()))
        asked = [field for field in about if field in fields]
        self.field: Optional[str] = " or ".join(asked) or None
        super().__init__(f"fault {number}: {self.text}" + (f" (field {self.field})" if self.field else ""))

    def __reduce__(self) -> Tuple[object, ...]:
        return (Fault, (self.number, self.line, tuple(self.field.split(" or ") if self.field else ())))


class Spent(Error):
    """The search ended with its budget: ask again with a greater one."""


class Cancelled(Error):
    """The job was cancelled: the server is closing, or its run is."""


class Ended(Error):
    """The program or the connection ended before the reply."""


class NoProgram(Error):
    """The program can't be started."""


class NoServer(Error):
    """The server can't be reached."""


class NoLines(NoServer):
    """The server is there and speaks HTTP, as one for WebSockets does: it takes no lines."""


class BadQuestion(Error, ValueError):
    """What was asked is no question."""
