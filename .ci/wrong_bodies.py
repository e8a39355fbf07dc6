#!/usr/bin/env python3
"""That each wrong body, of the gate or not, can be applied: its `file:` is one of the crate's, and each `old:` text stands there
exactly once, after the replacements before it. One that tests refuse begins with the name of their crate. Prints
`file:line: what` for each that can't, and ends with status 1."""
import glob
import os
import sys


def breaches(edit, crate):
    """Yields the line and the fault of what can't be applied."""
    texts, path, old, pairs = {}, None, None, 0
    with open(edit, encoding="utf-8") as file:
        lines = file.read().split("\n")
    for number, line in enumerate(lines, 1):
        if line.startswith("file: "):
            path, old = line[len("file: "):].strip(), None
            if os.path.normpath(path) != path or not path.startswith(("src/", "specs/", "proofs/")):
                yield number, f"{path} is no file below src/, specs/ or proofs/"
                return
            if path not in texts:
                if not os.path.isfile(f"{crate}/{path}"):
                    yield number, f"there is no {crate}/{path}"
                    return
                with open(f"{crate}/{path}", encoding="utf-8") as file:
                    texts[path] = file.read()
        elif line.startswith("old: "):
            old, at = line[len("old: "):], number
        elif line.startswith("new:"):
            if not path or not old:
                yield number, "a new: line without its file: and old: lines"
                return
            found = texts[path].count(old)
            if found != 1:
                yield at, f"the old: text stands {found} times in {crate}/{path}, and not once"
            texts[path] = texts[path].replace(old, line[len("new:") + line.startswith("new: "):])
            old, pairs = None, pairs + 1
    if old:
        yield at, "an old: line without its new: line"
    if not pairs:
        yield 1, "there is no pair of old: and new: lines"


def crate_of(edit):
    """The folder of the crate whose wrong body it is."""
    parts = edit.split("/")
    return f"crates/{parts[2 if parts[1] == 'by_tests' else 1]}"


def names_no_tests(edit):
    """Whether its first line lacks a crate of tests, or names a module behind it that isn't there."""
    with open(edit, encoding="utf-8") as file:
        word, _, tests = file.readline().rstrip("\n").partition(": ")
    crate, *modules = tests.split() or [""]
    lacks = [module for module in modules if not os.path.isfile(f"crates/{crate}/src/{module}.rt")]
    return word != "tests" or not crate.endswith("_tests") or not os.path.isdir(f"crates/{crate}") or bool(lacks)


found = 0
by_tests = glob.glob("wrong_bodies/by_tests/*/*.edit")
for edit in sorted(glob.glob("crates/*/must-fail/*.edit") + glob.glob("wrong_bodies/*/*.edit") + by_tests):
    crate = crate_of(edit)
    if edit.startswith("wrong_bodies/") and os.path.exists(f"{crate}/must-fail/{os.path.basename(edit)}"):
        print(f"{edit}:1: stands under {crate}/must-fail/ too")
        found += 1
    if edit in by_tests and names_no_tests(edit):
        print(f"{edit}:1: no line tests: with a crate of tests, and modules of it if any")
        found += 1
    for number, what in breaches(edit, crate):
        print(f"{edit}:{number}: {what}")
        found += 1
sys.exit(1 if found else 0)
