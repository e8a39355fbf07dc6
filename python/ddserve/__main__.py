"""`python -m ddserve record < filled.pbn > record.html` turns a PBN file with results into a page of hand records.

`python -m ddserve clear < edited.pbn | ddserve pbn` asks for all results of a file anew."""
from __future__ import annotations

import argparse
import sys
from typing import List, Optional, Tuple

from .cleared import has_results, without_results
from .games import games
from .pbn import Board, boards
from .record import page

RECORD_EXAMPLE = """\
examples:
  ddserve pbn < record.pbn | python -m ddserve record > record.html"""
CLEAR_EXAMPLE = """\
examples:
  python -m ddserve clear < edited.pbn | ddserve pbn > filled.pbn"""
NO_GAME = "no game of PBN was found"


def arguments(words: Optional[List[str]]) -> argparse.Namespace:
    parser = argparse.ArgumentParser(prog="python -m ddserve", description="Tools for files, in pure Python.")
    commands = parser.add_subparsers(dest="command", metavar="COMMAND", required=True)
    record = commands.add_parser(
        "record",
        help="turn a PBN file into a page of hand records",
        description="Turns a PBN file, as `ddserve pbn` fills it, into a page of hand records: HTML, sixteen boards to a printed sheet of A4.",
        epilog=RECORD_EXAMPLE,
        formatter_class=argparse.RawDescriptionHelpFormatter,
    )
    clear = commands.add_parser(
        "clear",
        help="take the results and par out of a PBN file",
        description="Writes a PBN file without its results and par, so that `ddserve pbn` asks for them anew.\nFor a file in which a deal, a dealer or who is vulnerable was changed.",
        epilog=CLEAR_EXAMPLE,
        formatter_class=argparse.RawDescriptionHelpFormatter,
    )
    for command in (record, clear):
        command.add_argument("file", nargs="?", default="-", metavar="FILE", help="the PBN file; the standard input where it is left out")
    return parser.parse_args(words)


def read(path: str) -> bytes:
    # By their numbers, since a standard stream that was closed is no file of `sys`.
    with open(0 if path == "-" else path, "rb", closefd=path != "-") as file:
        return file.read()


def write(data: bytes) -> None:
    with open(1, "wb", closefd=False) as file:
        file.write(data)


def told(found: List[Board]) -> str:
    """How many boards were printed, and how many of them have no results."""
    if not found:
        return f"{NO_GAME}, so no board was printed"
    without = sum(board.table is None for board in found)
    return f"{len(found)} board{'s' * (len(found) > 1)} printed, {without} without results"


def recorded(data: bytes) -> Tuple[bytes, str, bool]:
    """The page, what is said of it, and whether there is a board."""
    found = list(boards(data))
    return page(found).encode("utf-8", "replace"), told(found), bool(found)


def cleared(data: bytes) -> Tuple[bytes, str, bool]:
    """The file without results, what is said of it, and whether there is a game that could be cleared."""
    found = [has_results(game) for game in games(data)]
    try:
        left = without_results(data)
    except ValueError as error:
        return b"", str(error), False
    said = f"results taken out of {sum(found)} of {len(found)} game{'s' * (len(found) > 1)}" if found else f"{NO_GAME}, so nothing was taken out"
    return left, said, bool(found)


def main(words: Optional[List[str]] = None) -> int:
    """Runs the command. Returns the status: 1 where there is no board, the file can't be cleared, or a device failed."""
    chosen = arguments(words)
    make, made = {"record": (recorded, "the page"), "clear": (cleared, "the cleared file")}[chosen.command]
    device = "the standard input" if chosen.file == "-" else chosen.file
    try:
        found, said, is_some = make(read(chosen.file))
        device = made
        write(found)
    except OSError as error:
        said, is_some = f"{device}: {error.strerror}", False
    print(f"ddserve {chosen.command}: {said}", file=sys.stderr)
    return 0 if is_some else 1


if __name__ == "__main__":
    sys.exit(main())
