"""Compares what a program prints over the library with what it prints over DDS, as both stand. Words: its name, and the two files.

Each line has to be the same, but for these: rows of a list of cards may stand in another order where their scores are equal, and a
title then has the word ERROR where DDS's has OK, with a line of another length below it. The numbers and the scores of a list are the
same row for row. Prints how many lists have another order, or nothing where both files are the same. Ends with status 1 where
something else differs."""
import itertools
import re
import sys

name, ours, theirs = sys.argv[1], *(open(path).read().split("\n") for path in sys.argv[2:])


def fail(number, what):
    print(f"c/tests/lists.py: {name}, line {number + 1}: {what}", file=sys.stderr)
    sys.exit(1)


def is_row(line):
    return bool(re.match(r" +\d+ [SHDC] ", line))


def is_in_order(first, last):
    """Whether the lists in these lines are the same; ends the program where they differ in more than the order of equal scores."""
    pairs = [[row.split() for row in rows[first:last]] for rows in (ours, theirs)]
    for column in 0, -1:
        if [row[column] for row in pairs[0]] != [row[column] for row in pairs[1]]:
            fail(first, "the list has other numbers or scores")
    if sorted(row[1:] for row in pairs[0]) != sorted(row[1:] for row in pairs[1]):
        fail(first, "the list has other cards")
    return pairs[0] == pairs[1]


if len(ours) != len(theirs):
    fail(min(len(ours), len(theirs)), "one of them ends")
lists = others = 0
# By DDS's title, which may stand twice above its lists: whether one of these has another order, and whether our title says so.
has_other, says_so = {}, {}
title = None
at = 0
while at < len(ours):
    if is_row(ours[at]) and is_row(theirs[at]):
        last = at + len(list(itertools.takewhile(is_row, theirs[at:])))
        same = is_in_order(at, last)
        lists += 1
        others += not same
        has_other[title] = has_other.get(title, False) or not same
        at = last
        continue
    if re.search(r"\b(OK|ERROR)\b", theirs[at]):
        title = theirs[at]
        says_so[title] = says_so.get(title, False) or "ERROR" in ours[at]
        if re.sub(r"\bERROR\b", "OK", ours[at]) != title:
            fail(at, "another title")
    elif ours[at] != theirs[at] and {*ours[at]} | {*theirs[at]} != {"-"}:
        fail(at, "another line")
    at += 1
for title, said in says_so.items():
    if has_other.get(title, False) != said:
        fail(theirs.index(title), "the word ERROR does not tell whether a list below has another order")
if others:
    print(f"{name}: of {lists} lists of cards {others} have another order of equal scores")
elif ours != theirs:
    fail(0, "they differ, and no list has another order")
