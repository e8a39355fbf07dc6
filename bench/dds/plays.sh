#!/usr/bin/env bash
# The tricks after each card of whole plays: `ddserve solve` beside DDS 2.9 built at -O3 (`peer.sh`; AnalysePlayBin, one thread) over the
# same lines, one by one through a pipe to each program, over a table of 65,536 entries. Strains in turn; of three plays the first
# has random cards, the second best ones, the third a mistake now and then. The least time of each reply in several runs; of
# these, for each kind and for all, the mean and the geometric mean of both and of the ratio of a play. It says whether the
# replies agree, where the numbers after the first card of the last trick, which DDS leaves out, are taken to be the last that it
# gives; and it ends with status 1 where some don't. Words: the number of runs (1), of plays (100), and their seed (1124).
set -eu
here=$(cd -- "$(dirname -- "$0")" && pwd)
top=$(cd -- "$here/../.." && pwd)
runs=${1:-1}
plays=${2:-100}
seed=${3:-1124}

for tool in python3 g++; do
    command -v "$tool" > /dev/null || { echo "bench/dds: the command $tool is missing" >&2; exit 1; }
done

work=$(mktemp -d)
trap 'rm -rf "$work"' EXIT
bash "$here/peer.sh" "${DDS_PEER:-$work/peer}"
g++ -O3 -march=x86-64-v3 -flto=auto -pthread -I"${DDS_PEER:-$work/peer}/include" -o "$work/dds" "$here/dds.cpp" "${DDS_PEER:-$work/peer}/libdds.a"
"${DDSERVE:-$top/ddserve}" serve --help > /dev/null
ours="${DDSERVE:-$top/crates/ddserve/out/ddserve}"
python3 "$top/bench/tools/plays.py" "$ours" "$plays" --seed "$seed" > "$work/plays.jsonl"

python3 - "$runs" "$ours" "$work" <<'PY'
import math
import subprocess
import sys
import time

runs, ours, work = int(sys.argv[1]), sys.argv[2], sys.argv[3]
commands = {"ddserve": [ours, "solve", "--entries", "65536"], "DDS": [f"{work}/dds"]}


def answer(program, line):
    start = time.perf_counter()
    program.stdin.write(line)
    program.stdin.flush()
    reply = program.stdout.readline()
    if not reply.endswith("\n"):
        sys.exit(f"bench/dds: {program.args[0]} ended without a reply to {line}")
    return 1000 * (time.perf_counter() - start), reply


# One card a hand comes first, so that no line waits for a program to start.
def started(command):
    program = subprocess.Popen(command, stdin=subprocess.PIPE, stdout=subprocess.PIPE, text=True)
    answer(program, '{"do":"solve","deal":"N:A... K... Q... J...","trump":4,"first":0,"solutions":3}\n')
    return program


def one_run(lines):
    programs = {name: started(command) for name, command in commands.items()}
    answers = [{name: answer(program, line) for name, program in programs.items()} for line in lines]
    for program in programs.values():
        program.stdin.close()
        if program.wait() != 0:
            sys.exit(f"bench/dds: {program.args[0]} ended with status {program.returncode}")
    return answers


def geometric_mean(numbers):
    return math.exp(sum(map(math.log, numbers)) / len(numbers))


with open(f"{work}/plays.jsonl") as file:
    lines = file.readlines()
answers = [one_run(lines) for _ in range(runs)]
times = [{name: min(run[number][name][0] for run in answers) for name in commands} for number in range(len(lines))]
agreed = sum(run[number]["ddserve"][1] == run[number]["DDS"][1] for run in answers for number in range(len(lines)))

print(f"{len(lines)} plays, one by one, milliseconds, least of {runs} runs")
print("cards     plays  ddserve mean  geom. mean  slowest   DDS mean  geom. mean  slowest  ratio of means  of geom. means")
for kind, chosen in [("random", times[0::3]), ("best", times[1::3]), ("mistakes", times[2::3]), ("all", times)]:
    a, b = [[time[name] for time in chosen] for name in ("ddserve", "DDS")]
    if chosen:
        print(f"{kind:8}  {len(chosen):>5}  {sum(a) / len(a):12.2f}  {geometric_mean(a):10.2f}  {max(a):7.1f}  {sum(b) / len(b):9.2f}  {geometric_mean(b):10.2f}  {max(b):7.1f}  {sum(a) / sum(b):14.2f}  {geometric_mean(a) / geometric_mean(b):14.2f}")
print(f"{agreed} of {runs * len(lines)} replies agree")
sys.exit(agreed != runs * len(lines))
PY
