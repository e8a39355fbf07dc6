#!/usr/bin/env bash
# Tests the C library over the program that DDSERVE names (or the built one of this repository). The client: recorded lines, buffers,
# threads, forks, ends. What is said where the program doesn't start; how the library is linked and installed. The calls of DDS: what no
# comparison shows; DDS's structures and texts by DDS's own header; thousands of drawn
# questions beside DDS; DDS's thirteen example programs, and its `dtest` over a hundred of its own deals. Then the client and the calls
# under valgrind and under -fsanitize=address,undefined, and what a call costs beyond its line. DDS's source is fetched from Debian by
# `bench/dds/peer.sh` and is not kept; `DDS_PEER` names a folder in which the built DDS is kept. At last the same over the library
# without the program, where that is built. Ends with 77 where a tool is missing, and says which. The word `quick` leaves dtest and valgrind out.
set -eu
here=$(cd -- "$(dirname -- "$0")" && pwd)
top=$(cd -- "$here/.." && pwd)
missing() {
    echo "c/test.sh: $1 is missing" >&2
    exit 77
}
for tool in gcc g++ gcc-ar make pkg-config python3 apt-get tar; do
    command -v "$tool" > /dev/null || missing "the command $tool"
done
[ "${1:-}" = quick ] || command -v valgrind > /dev/null || missing 'the command valgrind'
program=${DDSERVE:-$top/crates/ddserve/out/ddserve}
[ -x "$program" ] || missing "the program $program"
DDSERVE=$(readlink -f -- "$program")
export DDSERVE
data=$top/cases/data
work=$(mktemp -d)
trap 'rm -rf "$work"' EXIT

make -s -C "$here" BUILD="$work/build" CFLAGS='-O2 -Werror'
library=$work/build/libddserve.a
build() { # NAME FLAGS..
    name=$1
    shift
    gcc -std=gnu11 -O1 -g -Wall -Wextra -Werror -I"$here" "$@" -o "$work/$name" -pthread
}
build client "$here/tests/client.c" "$library"
build calls "$here/tests/calls.c" "$library"
build cost "$here/tests/cost.c" "$library"
for name in written small plays targets; do
    "$work/client" "$data/$name.jsonl" "$data/$name.expected"
done
"$work/calls"
build starts "$here/tests/starts.c" "$library"
"$here/tests/starts.sh" "$work/starts" "$DDSERVE"
"$here/tests/installed.sh" "$work/build" "$DDSERVE"

# The examples of both READMEs print what these say.
python3 - "$here/README.md" "$top/README.md" "$work" <<'PY'
import re
import subprocess
import sys

own, top, work = open(sys.argv[1]).read(), open(sys.argv[2]).read(), sys.argv[3]
found = re.findall(r"```c\n(.*?)```.*?\n\n    gcc .*?\n\n    (.*?)\n", own, re.S)
part = top[top.index("## From C") : top.index("## A server")]
code, printed = re.search(r"(    #include.*?\n    }\n).*?It prints `(.*?)` after", part, re.S).groups()
found.append((re.sub("^    ", "", code, flags=re.M), printed))
assert len(found) == 3
for number, (code, printed) in enumerate(found):
    with open(f"{work}/example{number}.c", "w") as file:
        file.write(code)
    include = sys.argv[1].replace("/README.md", "")
    subprocess.run(["gcc", "-I", include, f"{work}/example{number}.c", f"{work}/build/libddserve.a", "-pthread", "-o", f"{work}/example"], check=True)
    said = subprocess.run([f"{work}/example"], capture_output=True, text=True, check=True).stdout
    assert said == printed + "\n", (said, printed)
print(f"README: {len(found)} examples print what it says")
PY

peer=${DDS_PEER:-$work/peer}
bash "$top/bench/dds/peer.sh" "$peer" || missing "DDS's source"
ours=$work/ours theirs=$work/theirs
mkdir "$ours" "$theirs"
[ -e "$peer/libpeer.so" ] ||
    g++ -O2 -flto=auto -shared -fPIC -o "$peer/libpeer.so" -Wl,--whole-archive "$peer/libdds.a" -Wl,--no-whole-archive -pthread
peer_library=("$(readlink -f -- "$peer")/libpeer.so")
for test in layout compare; do
    gcc -std=gnu11 -O1 -I"$here" -o "$ours/$test" "$here/tests/$test.c" "$library" -pthread
    gcc -std=gnu11 -O1 -I"$peer/include" -o "$theirs/$test" "$here/tests/$test.c" "${peer_library[@]}"
done
same() { # WHAT COMMAND WORDS..: what both commands print
    what=$1 command=$2
    shift 2
    # DDS leaves a file where it finds a fault.
    cd "$work"
    "$ours/$command" "$@" > "$work/ours.txt" || { echo "c/test.sh: $what: ours ended with $?" >&2; exit 1; }
    "$theirs/$command" "$@" > "$work/theirs.txt" || { echo "c/test.sh: $what: DDS ended with $?" >&2; exit 1; }
    cmp "$work/ours.txt" "$work/theirs.txt" || { diff "$work/ours.txt" "$work/theirs.txt" | head -20 >&2; exit 1; }
    echo "$what: $(wc -l < "$work/ours.txt") lines are those of DDS"
}
same layout layout
same positions compare positions 3000 1
same 'larger positions' compare full 30 2
same faults compare faults 3000 3
same boards compare boards 200 4
same tables compare tables 8 5
same plays compare plays 400 6
lists() { # NAME COMMAND WORDS..: what both commands print, but for the order of equal scores; what is said of that
    name=$1 command=$2
    shift 2
    (cd "$work" && "$ours/$command" "$@") > "$work/ours.txt" || { echo "c/test.sh: $name: ours ended with $?" >&2; return 1; }
    (cd "$work" && "$theirs/$command" "$@") > "$work/theirs.txt" || { echo "c/test.sh: $name: DDS ended with $?" >&2; return 1; }
    python3 "$here/tests/lists.py" "$name" "$work/ours.txt" "$work/theirs.txt"
}
lists 'drawn positions' compare lists 1000 10

# DDS's own programs, of the same package.
bash "$here/tests/source.sh" "$work/source" || missing "DDS's source"
source=$work/source
alike='' differ=''
for example in "$source"/examples/[A-Z]*.cpp; do
    name=$(basename "$example" .cpp)
    g++ -O1 -w -o "$ours/$name" "$example" "$source/examples/hands.cpp" "$library" -pthread
    g++ -O1 -w -o "$theirs/$name" "$example" "$source/examples/hands.cpp" "${peer_library[@]}"
    said=$(lists "$name" "$name")
    if grep -q ERROR "$work/theirs.txt"; then echo "c/test.sh: $name finds an error over DDS" >&2; exit 1; fi
    if [ -z "$said" ]; then
        alike="$alike $name"
    else
        echo "$said"
        differ="$differ $name"
    fi
done
# These three list cards and compare with DDS's order; the README says so.
[ "$differ" = ' SolveAllBoards SolveBoard SolveBoardPBN' ] || { echo "c/test.sh: other examples than the README says differ:$differ" >&2; exit 1; }
for name in $differ; do
    grep -q "^- Cards with the same score .*\`$name\`" "$here/README.md" || { echo "c/test.sh: the README does not tell of $name" >&2; exit 1; }
done
echo "examples: $(wc -w <<< "$alike") programs of DDS print the same, and $(wc -w <<< "$differ") but for the order of equal scores"
# One that is linked with the shared library of DDS's name.
g++ -O1 -w -o "$work/shared" "$source/examples/CalcDDtable.cpp" "$source/examples/hands.cpp" "$work/build/libdds.so.0" -pthread
LD_LIBRARY_PATH=$work/build "$work/shared" > "$work/ours.txt"
"$theirs/CalcDDtable" | cmp - "$work/ours.txt"
echo 'shared: a program linked with libdds.so.0 runs over ddserve'

if [ "${1:-}" != quick ]; then
    # Its `solve` asks for DDS's order of equal scores, which `boards` above doesn't.
    (cd "$source/test" && g++ -O1 -w -o "$work/dtest" dtest.cpp args.cpp compare.cpp loop.cpp parse.cpp print.cpp testcommon.cpp TestTimer.cpp "$library" -pthread)
    for of in par:list1000 dealerpar:list1000 play:list100 calc:list100; do
        "$work/dtest" -f "$source/hands/${of#*:}.txt" -s "${of%:*}" > "$work/dtest.txt"
        grep -q 'Number of hands' "$work/dtest.txt" || { cat "$work/dtest.txt" >&2; exit 1; }
        if grep -A8 Difference "$work/dtest.txt" >&2; then exit 1; fi
        echo "dtest: ${of%:*} of ${of#*:} has no difference"
    done
    for test in "client $data/written.jsonl $data/written.expected" calls; do
        # shellcheck disable=SC2086
        UNDER_VALGRIND=1 valgrind -q --leak-check=full --show-leak-kinds=all --errors-for-leak-kinds=all --error-exitcode=9 --child-silent-after-fork=yes "$work/"$test
    done
    echo 'valgrind: nothing to say'
fi
over_program=("$here"/dds_*.c "$here/ddserve.c" "$here/start_program.c")
build client_checked -fsanitize=address,undefined -fno-sanitize-recover=all "$here/tests/client.c" "${over_program[@]}"
build calls_checked -fsanitize=address,undefined -fno-sanitize-recover=all "$here/tests/calls.c" "${over_program[@]}"
build compare_checked -fsanitize=address,undefined -fno-sanitize-recover=all "$here/tests/compare.c" "${over_program[@]}"
"$work/client_checked" "$data/written.jsonl" "$data/written.expected"
"$work/calls_checked"
"$work/compare_checked" faults 1000 7 > /dev/null
"$work/compare_checked" plays 100 8 > /dev/null
"$work/compare_checked" tables 2 9 > /dev/null
echo 'sanitizers: nothing to say'
"$work/cost" 40

# The same without the program, where the proved library is built.
proved=${PROVED:-$top/crates/ddserve_c/out/libddserve_c.a}
if [ ! -e "$proved" ] || ! command -v rt > /dev/null; then
    echo "alone: not tried, since $proved or the command rt is missing"
    exit 0
fi
make -s -C "$here" BUILD="$work/build" PROVED="$proved" alone
library=$work/build/libddserve_alone.a
for test in client calls cost compare; do
    build "${test}_alone" -DALONE "$here/tests/$test.c" "$library"
done
for name in written small plays targets; do
    "$work/client_alone" "$data/$name.jsonl" "$data/$name.expected"
done
DDSERVE=/nowhere/ddserve "$work/calls_alone"
for kind in 'positions 3000 1' 'boards 200 4' 'tables 8 5' 'plays 400 6'; do
    # shellcheck disable=SC2086
    "$work/compare_alone" $kind | cmp - <("$ours/compare" $kind)
done
if [ "${1:-}" != quick ]; then
    for test in "client_alone $data/written.jsonl $data/written.expected" calls_alone; do
        # shellcheck disable=SC2086
        UNDER_VALGRIND=1 valgrind -q --leak-check=full --show-leak-kinds=all --errors-for-leak-kinds=all --error-exitcode=9 --child-silent-after-fork=yes "$work/"$test
    done
fi
over_library=("$here"/dds_*.c "$here/ddserve_alone.c" "$library")
for test in client calls compare; do
    build "${test}_alone_checked" -DALONE -fsanitize=address,undefined -fno-sanitize-recover=all "$here/tests/$test.c" "${over_library[@]}"
done
"$work/client_alone_checked" "$data/written.jsonl" "$data/written.expected"
"$work/calls_alone_checked"
"$work/compare_alone_checked" plays 100 8 > /dev/null
"$work/compare_alone_checked" tables 2 9 > /dev/null
"$work/cost_alone" 40
echo 'alone: the library without the program answers the same'
