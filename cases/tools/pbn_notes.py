#!/usr/bin/env python3
"""What `ddserve pbn` says of games that lack a tag, and of a file without games: of drawn files each line is the one that a reader of
its own has (`pbn_filled.py`), with the words that explained replies have for the fault of a deal. Words: the program, and how many
files (300)."""

import json
import random
import subprocess
import sys

from pbn_filled import filled

# A suit in each hand: its results are found at once.
SUITS = "N:AKQJT98765432... .AKQJT98765432.. ..AKQJT98765432. ...AKQJT98765432"
# Of each fault a deal.
FAULTS = {
    4: "N:A... K... Q... 10...",
    5: "N:A... K... Q... -",
    6: "N:A... A... Q... J...",
    7: "N:A... K... Q... J2...",
    8: "N:... ... ... ...",
    23: "N:A... K... Q... J...",
}
SEATS = "NeSw"
DEALERS = ["North", "NS", "10", "N ", "??", "?", "", "#", "#", "##", "##N", "##East", "##?", "No\\\"r\\\\th", "\x1b[2J\r\x07", "x" * 31, "x" * 32, "x" * 33, "\xe9st"]
SIDES = ["None", "love", "-", "NS", "ew", "All", "BOTH", "E-W", "N/S", "none ", "?", "", "#", "#", "##None", "##E-W", "y" * 40, "\x7f\0"]
NO_GAME = b"ddserve: no game was found: the input has no tag of PBN\n"


def said(program, data):
    """What the program says of a file, which it passes on."""
    ran = subprocess.run([program, "pbn"], input=data, capture_output=True, check=True)
    return ran.stdout, ran.stderr


def words_of(program):
    """The words that an explained reply has for each of these faults: par asks for thirteen cards a hand, as a file does."""
    lines = "".join(json.dumps({"do": "par", "deal": deal, "dealer": 0, "vulnerable": 0}) + "\n" for deal in FAULTS.values())
    ran = subprocess.run([program, "solve", "--explain"], input=lines, capture_output=True, text=True, check=True)
    told = [json.loads(line) for line in ran.stdout.splitlines()]
    assert [it["fault"] for it in told] == list(FAULTS), told
    return {f"deal refused, fault {it['fault']}": it["text"] for it in told}


def drawn_game(drawn, number):
    tags = [f'Board "{number}"']
    if drawn.random() < 0.85:
        tags.append(f'Dealer "{drawn.choice(DEALERS if drawn.random() < 0.5 else SEATS)}"')
    if drawn.random() < 0.85:
        tags.append(f'Vulnerable "{drawn.choice(SIDES)}"')
    if drawn.random() < 0.95:
        tags.append(f'Deal "{SUITS if drawn.random() < 0.7 else drawn.choice([*FAULTS.values(), "?"])}"')
    for name in ("DoubleDummyTricks", "OptimumScore"):
        if drawn.random() < 0.2:
            tags.append(f'{name} "?"')
    drawn.shuffle(tags)
    return "".join(f"[{tag}]" if drawn.random() < 0.9 else "[" + tag.replace(" ", drawn.choice(["\n", " { ] } ", "\t"]), 1) + "]" for tag in tags)


def drawn_file(drawn):
    between = ["\n\n", "\r\n\r\n", "\n"]
    return "".join(drawn_game(drawn, number) + drawn.choice(between) for number in range(1, drawn.randrange(2, 14))).encode("latin-1")


def compare(program, data, words):
    """Are the lines those of the reader? Returns their reasons."""
    wanted = []
    _, notes = filled(data, lambda deal: [[0] * 4] * 5)
    for number, board, reason in notes:
        told = f"{reason}: {words[reason]}" if reason in words else reason
        wanted.append(b"ddserve: game %d (board %s): %s\n" % (number, board[:32] or b"?", told.encode("latin-1")))
    _, told = said(program, data)
    if told != b"".join(wanted):
        sys.exit(f"cases: of {data!r} it says {told!r}, and not {b''.join(wanted)!r}")
    return [reason for _, _, reason in notes]


def main():
    program = sys.argv[1]
    count = int(sys.argv[2]) if len(sys.argv) > 2 else 300
    words = words_of(program)
    drawn = random.Random(26)
    reasons = [reason for _ in range(count) for reason in compare(program, drawn_file(drawn), words)]
    # That all of it was drawn: each fault, both tags, missing and unknown.
    kinds = [*words, *(f"no par: {name} is missing{more}" for name in ("Dealer", "Vulnerable") for more in ("", " or unknown: #", " or unknown: "))]
    lacking = [kind for kind in kinds if sum(it == kind or kind.endswith(": ") and it.startswith(kind) for it in reasons) < count / 30]
    if lacking:
        sys.exit(f"cases: too few games are left for {lacking}")
    print(f"notes: {len(reasons)} of {count} drawn files are those of the other reader, and the words of faults those of explained replies")
    texts = [b"", b"\n\n", b"words [ without ] a tag\n", '[Event "x"]\n[Board "1"]\n'.encode("utf-16"), b'[Event "not closed']
    for text in texts:
        if said(program, text) != (text, NO_GAME):
            sys.exit(f"cases: of {text!r}, which has no game, it says {said(program, text)!r}")
    print(f"notes: {len(texts)} files without a game come out as they are, and it is said that no game was found")


if __name__ == "__main__":
    main()
