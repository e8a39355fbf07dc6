#!/usr/bin/env bash
# `ddserve solve` beside DDS 2.9 (SolveBoard, target -1, mode 1, one thread) over the same request lines, with the scores of
# all leads. DDS is there twice: built from its source at -O3 (`peer.sh`), which is the peer, and as Debian's package libdds-dev
# has it, which is slower. First deals of 6, 8 and 9 cards a hand: the least time of several runs of each over all
# lines, taken in turns, and their ratio; and 2,000 lines of 1, 4 and 6 cards a hand at once through a pipe: lines a second
# with the program's start and without, the most of several runs. Then full deals, as many of each strain, line by line
# through a pipe to each program in one run, over a table of 65,536 entries: the least time of each reply in as many such runs,
# of these the mean, the geometric mean and the slowest, and the most memory that each program had. Then in the same way one
# best lead of each deal, where the replies agree that have one score; one lead that reaches a target, the best score and then
# one more, which none reaches; one best lead against notrump by South, with a fixed strong hand of South's, and with 26 points
# of North and South together; and in three runs at most the twenty results, beside DDS's CalcDDtable. Ratios are to each of the
# two. Deals are from fixed seeds; it says whether the replies agree, and ends with status 1 where some don't.
# Words: the number of runs (5), of full deals (40), the seed of the full deals (1013), and the parts, with commas between them
# (small,leads,best,targets,declarers,tables). `DDS_PEER` names a folder in which the built DDS is kept, `DDSERVE` another built program.
set -eu
here=$(cd -- "$(dirname -- "$0")" && pwd)
top=$(cd -- "$here/../.." && pwd)
runs=${1:-5}
full=${2:-40}
seed=${3:-1013}
parts=${4:-small,leads,best,targets,declarers,tables}

for tool in python3 g++; do
    command -v "$tool" > /dev/null || { echo "bench/dds: the command $tool is missing" >&2; exit 1; }
done
[ -e /usr/include/dds/dll.h ] || { echo 'bench/dds: the package libdds-dev is missing' >&2; exit 1; }

work=$(mktemp -d)
trap 'rm -rf "$work"' EXIT
g++ -O2 -o "$work/debian" "$here/dds.cpp" -ldds
bash "$here/peer.sh" "${DDS_PEER:-$work/peer}"
g++ -O3 -march=x86-64-v3 -flto=auto -pthread -I"${DDS_PEER:-$work/peer}/include" -o "$work/dds" "$here/dds.cpp" "${DDS_PEER:-$work/peer}/libdds.a"
"${DDSERVE:-$top/ddserve}" serve --help > /dev/null
for cards in 1 4 6; do
    python3 "$top/bench/tools/deals.py" "$cards" 2000 --seed $((2000 + cards)) --requests > "$work/small$cards.jsonl"
done
for cards in 6 8 9; do
    python3 "$top/bench/tools/deals.py" "$cards" 40 --seed $((1000 + cards)) --requests > "$work/$cards.jsonl"
done
python3 "$top/bench/tools/deals.py" 13 "$full" --seed "$seed" --requests > "$work/13.jsonl"
sed 's/"solutions":3/"solutions":1/' "$work/13.jsonl" > "$work/one.jsonl"
against_notrump() {
    python3 "$top/bench/tools/deals.py" 13 "$full" --seed "$seed" --strain 4 --first 3 "$@" --requests | sed 's/"solutions":3/"solutions":1/'
}
against_notrump --south AQ7.KQ5.AKJ4.KJ3 > "$work/south.jsonl"
against_notrump --points 26 > "$work/games.jsonl"
sed 's/"do":"solve"/"do":"table"/; s/,"trump".*}$/}/' "$work/13.jsonl" > "$work/tables.jsonl"

python3 - "$runs" "${DDSERVE:-$top/crates/ddserve/out/ddserve}" "$work" "$parts" <<'PY'
import json
import math
import subprocess
import sys
import time

runs, ours, work, parts = int(sys.argv[1]), sys.argv[2], sys.argv[3], sys.argv[4].split(",")
commands = {"ddserve": [ours, "solve", "--entries", "65536"], "DDS": [f"{work}/dds"], "Debian": [f"{work}/debian"]}
differing = 0


def all_of(replies, seen=str):
    global differing
    same = len({str(seen(reply)) for reply in replies.values()}) == 1
    differing += not same
    return "agree" if same else "DIFFER"


if "small" in parts:
    print(f"all lines at once, least of {runs} runs")
    print("cards a hand  lines  ddserve s    DDS s  ratio  Debian s  ratio  replies")
for cards in (6, 8, 9) if "small" in parts else ():
    with open(f"{work}/{cards}.jsonl") as file:
        lines = file.read()
    least, replies = dict.fromkeys(commands, math.inf), {}
    for _ in range(runs):
        for name, command in commands.items():
            start = time.perf_counter()
            done = subprocess.run(command, input=lines, capture_output=True, text=True, check=True)
            least[name] = min(least[name], time.perf_counter() - start)
            replies[name] = done.stdout
    a, b, c = least["ddserve"], least["DDS"], least["Debian"]
    print(f"{cards:>12}  {lines.count(chr(10)):>5}  {a:9.3f}  {b:7.3f}  {a / b:5.2f}  {c:8.3f}  {a / c:5.2f}  {all_of(replies)}")


def answer(program, line):
    start = time.perf_counter()
    program.stdin.write(line)
    program.stdin.flush()
    reply = program.stdout.readline()
    if not reply.endswith("\n"):
        sys.exit(f"bench/dds: {program.args[0]} ended without a reply to {line}")
    return time.perf_counter() - start, reply


def geometric_mean(numbers):
    return math.exp(sum(map(math.log, numbers)) / len(numbers))


# One card a hand comes first, so that no line waits for a program to start.
def started(command):
    program = subprocess.Popen(command, stdin=subprocess.PIPE, stdout=subprocess.PIPE, text=True)
    answer(program, '{"do":"solve","deal":"N:A... K... Q... J...","trump":4,"first":0,"solutions":3}\n')
    return program


def ended(program):
    program.stdin.close()
    if program.wait() != 0:
        sys.exit(f"bench/dds: {program.args[0]} ended with status {program.returncode}")


# The most memory that a program had so far, in MB.
def most_memory(program):
    with open(f"/proc/{program.pid}/status") as file:
        return next(int(line.split()[1]) / 1024 for line in file if line.startswith("VmHWM"))


# All lines sent at once through a pipe: lines a second with the program's start and without, and the replies.
def rates(command, path):
    begin = time.perf_counter()
    program = started(command)
    start = time.perf_counter()
    sender = subprocess.Popen(["cat", path], stdout=program.stdin)
    program.stdin.close()
    replies = program.stdout.read()
    end = time.perf_counter()
    if sender.wait() != 0 or program.wait() != 0:
        sys.exit(f"bench/dds: {program.args[0]} ended with status {program.returncode}")
    count = replies.count("\n")
    return [count / (end - begin), count / (end - start)], replies


def small_lines():
    print(f"\nlines at once through a pipe, lines a second, the most of {runs} runs: with the program's start, and without")
    print("cards a hand  lines   ddserve       DDS  ratio    Debian  ratio   ddserve       DDS  ratio    Debian  ratio  replies")
    for cards in (1, 4, 6):
        path = f"{work}/small{cards}.jsonl"
        most, replies = {name: [0, 0] for name in commands}, {}
        for _ in range(runs):
            for name, command in commands.items():
                found, replies[name] = rates(command, path)
                most[name] = list(map(max, most[name], found))
        columns = "".join(f"  {a:8.0f}  {b:8.0f}  {a / b:5.2f}  {c:8.0f}  {a / c:5.2f}" for a, b, c in zip(*most.values()))
        print(f"{cards:>12}  {replies['ddserve'].count(chr(10)):>5}{columns}  {all_of(replies)}", flush=True)


def one_run(lines):
    programs = {name: started(command) for name, command in commands.items()}
    answers = [{name: answer(program, line) for name, program in programs.items()} for line in lines]
    memory = {name: most_memory(program) for name, program in programs.items()}
    for program in programs.values():
        ended(program)
    return answers, memory


def one_by_one(title, lines, strains, tries, seen=str):
    answers, memories = zip(*[one_run(lines) for _ in range(tries)])
    times, agreed = {name: [] for name in commands}, 0
    print(f"\n{title}: {len(lines)} full deals, one by one, milliseconds, least of {len(answers)} runs")
    print("deal  strain  ddserve ms    DDS ms  ratio  Debian ms  replies")
    for number in range(len(lines)):
        for name in commands:
            times[name].append(1000 * min(run[number][name][0] for run in answers))
        a, b, c = (times[name][-1] for name in commands)
        found = {all_of({name: run[number][name][1] for name in commands}, seen) for run in answers}
        agreed += found == {"agree"}
        print(f"{number + 1:>4}  {strains[number % len(strains)]:>6}  {a:10.1f}  {b:8.1f}  {a / b:5.2f}  {c:9.1f}  {'agree' if found == {'agree'} else 'DIFFER'}", flush=True)

    print(f"\n{'':24}  {'mean':>8}  {'geom. mean':>10}  {'slowest':>8}")
    for name, list_of in times.items():
        print(f"{name + ' ms':24}  {sum(list_of) / len(list_of):8.2f}  {geometric_mean(list_of):10.2f}  {max(list_of):8.2f}")
    for name in ("DDS", "Debian"):
        a, b = times["ddserve"], times[name]
        print(f"{'ddserve / ' + name:24}  {sum(a) / sum(b):8.2f}  {geometric_mean(a) / geometric_mean(b):10.2f}  {max(a) / max(b):8.2f}")
        ratios = [x / y for x, y in zip(a, b)]
        print(f"{'the most of a deal':24}  {max(ratios):8.2f}")
        for strain in strains if len(strains) > 1 else "":
            of = [ratio for number, ratio in enumerate(ratios) if strains[number % len(strains)] == strain]
            if of:
                print(f"{'of strain ' + strain:24}  {'':8}  {geometric_mean(of):10.2f}")
    print(f"{agreed} of {len(lines)} replies agree")
    memory = {name: max(memory[name] for memory in memories) for name in commands}
    print("the most memory: " + ", ".join(f"{name} {most:.0f} MB" for name, most in memory.items()))


def scores(reply):
    return [card["score"] for card in json.loads(reply)["cards"]]


# The lines with their best score as the target, and with one more, where the tricks allow that.
def with_targets(lines):
    done = subprocess.run(commands["ddserve"], input="".join(lines), capture_output=True, text=True, check=True)
    best = [scores(reply)[0] for reply in done.stdout.splitlines()]
    rows = list(zip(lines, best))
    return [[line.replace("}", f',"target":{score + more}' + "}") for line, score in rows if score + more <= 13] for more in (0, 1)]


def lines_of(name):
    with open(f"{work}/{name}.jsonl") as file:
        return file.readlines()


if "small" in parts:
    small_lines()
if "leads" in parts:
    one_by_one("all leads", lines_of("13"), "SHDCN", runs)
if "best" in parts:
    one_by_one("one best lead", lines_of("one"), "SHDCN", runs, scores)
if "targets" in parts:
    reached, missed = with_targets(lines_of("one"))
    one_by_one("one lead that reaches the best score", reached, "SHDCN", runs, scores)
    one_by_one("one lead that reaches a trick more", missed, "SHDCN", runs, scores)
if "declarers" in parts:
    one_by_one("one best lead against a fixed strong South", lines_of("south"), "N", runs, scores)
    one_by_one("one best lead against 26 points", lines_of("games"), "N", runs, scores)
if "tables" in parts:
    one_by_one("twenty results", lines_of("tables"), ["all"], min(runs, 3))
sys.exit(1 if differing else 0)
PY
