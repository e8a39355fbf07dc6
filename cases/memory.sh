#!/usr/bin/env bash
# Refuses memory to the built program as the line tool (`tools/refuse.c`, for which a C compiler is needed): of each of its
# first 400 allocations, one a run, with one worker and with two. A run whose start finds no memory answers nothing, and ends with
# status 1 and its line. Each other one ends with status 0 and answers every line as recorded, but for one line at most, which is
# told 19. The first lines are read with no memory, and never told so; with one worker each other one is in some run. It takes seconds.
set -eu
here=$(cd -- "$(dirname -- "$0")" && pwd)
data=$here/data
for tool in cc python3; do
    command -v "$tool" > /dev/null || { echo "cases: the command $tool is missing" >&2; exit 1; }
done
work=$(mktemp -d)
trap 'rm -rf "$work"' EXIT
# `DDSERVE` names another built program. It is started without the script `ddserve`, whose tools would be refused memory too.
program=${DDSERVE:-$here/../crates/ddserve/out/ddserve}
[ -n "${DDSERVE:-}" ] || "$here/../ddserve" serve --help > /dev/null
cc -O2 -shared -fPIC -o "$work/refuse.so" "$here/tools/refuse.c"
# The first lines of a file of requests, changed by sed, and their replies.
put() {
    head -n "$1" "$data/$2.jsonl" | sed "$3" >> "$work/lines"
    head -n "$1" "$data/$2.expected" >> "$work/expected"
}
# Those of a usual form, then one that has a text where a number belongs and is read as JSON, then the same in another form, with a
# space before the brace, then another kind.
put 4 written ''
put 4 par ''
put 3 target_faults ''
usual=$(wc -l < "$work/lines")
sed -n 4p "$data/target_faults.jsonl" >> "$work/lines"
sed -n 4p "$data/target_faults.expected" >> "$work/expected"
put 4 written 's/}$/ }/'
put 4 par 's/}$/ }/'
put 4 target_faults 's/}$/ }/'
put 4 play_faults ''
python3 - "$program" "$work" "$usual" <<'END'
import os, subprocess, sys
program, work, usual = sys.argv[1:]
ALLOCATIONS = 400
OUT, REFUSED = "ddserve: out of memory\n", '{"fault":19}'
asked = open(f"{work}/lines").read()
wanted = open(f"{work}/expected").read().splitlines()


def run(refused, workers):
    """The status, the replies and what was said where the allocation of this number is refused."""
    environment = {**os.environ, "LD_PRELOAD": f"{work}/refuse.so", "REFUSED": str(refused)}
    done = subprocess.run([program, "solve", "--workers", workers], input=asked, capture_output=True, text=True, env=environment, timeout=60)
    return done.returncode, done.stdout.splitlines(), done.stderr


for workers in "1", "2":
    ended, told = 0, []
    for refused in range(1, ALLOCATIONS + 1):
        status, replies, said = run(refused, workers)
        place = f"{workers} workers, allocation {refused}"
        if status == 1:
            assert (replies, said) == ([], OUT), f"{place}: {replies} {said}"
            ended += 1
            continue
        assert (status, said, len(replies)) == (0, "", len(wanted)), f"{place}: {status} {replies} {said}"
        others = [line for line, (reply, right) in enumerate(zip(replies, wanted)) if reply != right]
        assert len(others) <= 1 and all(replies[line] == REFUSED for line in others), f"{place}: {replies}"
        told += others
    assert ended and told, f"{workers} workers: {ended} runs ended at the start, {len(told)} lines were told 19"
    needing = set(range(int(usual), len(wanted)))
    assert set(told) <= needing, f"{workers} workers: lines told 19 that need no memory: {set(told) - needing}"
    assert workers != "1" or set(told) == needing, f"lines never told 19: {needing - set(told)}"
    print(f"memory: of {ALLOCATIONS} allocations refused singly with --workers {workers}, {ended} end the program at its start, {len(told)} are told of one line, and all other lines are right")
END
