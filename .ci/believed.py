#!/usr/bin/env python3
"""That the files which must be believed say so and rest on nothing else. A file of `specs/` whose first line begins with
`-- To be believed:` imports, of this repository, only `specs` that begin so too, and what the compiler declares
(`specs.declared`), and never proofs; and `docs/PROOF.md` lists just these files, under the heading `The definitions, in order
of reading`. Where no file begins so there is nothing to look at. A lemma that opens a closed word stands only where it is
listed here, and only the word's own file unfolds it, and none renames it, so that nothing else can show what that word says. Prints
`file:line: what` for each breach, and ends with status 1."""
import glob
import os
import re
import sys

BEGINNING = "-- To be believed:"
PAGE = "docs/PROOF.md"
HEADING = "## The definitions, in order of reading"
IMPORT = re.compile(r"\buse Rattle\.([a-z_]+)\.(specs|proofs)((?:\.[A-Za-z_]\w*)+)")
FILE = re.compile(r"`([\w./-]+\.antt)`")
SPENT, SIGHTINGS, DESK = "crates/dd_bounds/specs/Spent.antt", "crates/dd_desk/specs/Sightings.antt", "crates/dd_desk/proofs"
TICK = "crates/dd_bounds/proofs/meter/BudgetMeter/tick/Answers.antt"
OPENING = {
    "refused-tick": {SPENT, TICK},
    "granted-tick": {SPENT, TICK},
    "seen-journal": {SIGHTINGS, f"{DESK}/locked_state/LockedState/seen/Answers.antt", f"{DESK}/recall/recall/Answers.antt", f"{DESK}/seen/goes_on/Answers.antt"},
    "passes-given": {SIGHTINGS, f"{DESK}/locked_state/LockedState/given/Answers.antt"},
    "refused-call": {SIGHTINGS, f"{DESK}/recording/record_held/Answers.antt"},
    "cut-wait": {SIGHTINGS, f"{DESK}/desk/Desk/fetch_within/Answers.antt"},
}
CLOSED = {"WasSpent": SPENT, "WasTicked": SPENT, "WasSeen": SIGHTINGS, "HasGiven": SIGHTINGS, "WasRefused": SIGHTINGS, "CutsWait": SIGHTINGS}


def lines_of(path):
    with open(path, encoding="utf-8") as file:
        return file.read().split("\n")


breaches = []
believed = {it for it in glob.glob("crates/*/specs/**/*.antt", recursive=True) if lines_of(it)[0].startswith(BEGINNING)}
for path in sorted(believed):
    for number, line in enumerate(lines_of(path), 1):
        for crate, part, rest in IMPORT.findall(line.partition("--")[0]):
            names = rest.split(".")[1:]
            if not os.path.isdir(f"crates/{crate}") or part == "specs" and names[0] == "declared":
                continue
            # The longest beginning of the names that is a file.
            files = [f"crates/{crate}/{part}/{'/'.join(names[:length])}.antt" for length in range(len(names), 0, -1)]
            file = next(filter(os.path.isfile, files), None)
            if file not in believed:
                breaches.append((path, number, f"imports {file or files[-1]}, which does not begin with {BEGINNING!r}"))

if believed:
    lines = lines_of(PAGE) if os.path.isfile(PAGE) else []
    listed, heading = {}, 0
    for number, line in enumerate(lines, 1):
        if line.startswith("## "):
            inside = line == HEADING
            heading = number if inside else heading
        elif heading and inside:
            # A bare name is of the folder of the path before it in the line.
            folder = None
            for name in FILE.findall(line):
                folder = os.path.dirname(name) or folder
                listed[f"{folder}/{os.path.basename(name)}"] = number
    if not heading:
        breaches.append((PAGE, 1, f"has no heading {HEADING!r}, under which stand the files that must be believed"))
    else:
        for path in sorted(believed - listed.keys()):
            breaches.append((PAGE, heading, f"does not list {path}, which begins with {BEGINNING!r}"))
        for path in sorted(listed.keys() - believed):
            breaches.append((PAGE, listed[path], f"lists {path}, which does not begin with {BEGINNING!r}"))

for path in sorted(it for part in ("src", "specs", "proofs") for it in glob.glob(f"crates/*/{part}/**/*.*", recursive=True)):
    for number, line in enumerate(lines_of(path), 1):
        for name, places in OPENING.items():
            if name in line and path not in places:
                breaches.append((path, number, f"names {name}, which stands nowhere but in {', '.join(sorted(places))}"))
        for word, place in CLOSED.items():
            if re.search(rf"\bunfolding\b.*\b{word}\b|\b{word}\s+as\b", line) and path != place:
                breaches.append((path, number, f"unfolds or renames {word}, which is closed but in {place}"))

for path, number, what in breaches:
    print(f"{path}:{number}: {what}")
sys.exit(1 if breaches else 0)
