#!/usr/bin/env bash
# Long files through the built program, with one worker and with four: a reader that is slow; a million lines, in memory that does not
# grow with them; a last line without a line end; breaks by signals and by a file that is full, after which `examples/resume.sh` goes
# on. The expected replies are those of DDS 2.9, as recorded, and of full deals those of an unbroken run. LINES_IN_ALL is the number of
# lines that are a million. Where a tool is missing it says which, and ends with status 77.
set -eu
here=$(cd -- "$(dirname -- "$0")" && pwd)
top=$(cd -- "$here/.." && pwd)
for tool in python3 flock truncate cmp; do
    command -v "$tool" > /dev/null || { echo "cases/bulk: the command $tool is missing" >&2; exit 77; }
done
"${DDSERVE:-$top/ddserve}" serve --help > /dev/null
DDSERVE=$(readlink -f -- "${DDSERVE:-$top/crates/ddserve/out/ddserve}")
export DDSERVE
work=$(mktemp -d)
program=
trap '[ -z "$program" ] || kill -KILL "$program" 2> /dev/null; rm -rf "$work"' EXIT

fail() {
    echo "cases/bulk: $*" >&2
    exit 1
}

times() { # COUNT FILE
    for _ in $(seq "$1"); do cat "$2"; done
}

resident() { # PID
    sed -n 's/^VmRSS:\s*\([0-9]*\) kB/\1/p' "/proc/$1/status"
}

# The reader takes nothing for three seconds. The program writes what the pipe takes, waits, and holds no more for that.
slow_reader() { # WORKERS
    local before after
    mkfifo "$work/pipe"
    times 100 "$here/data/small.jsonl" > "$work/requests"
    "$DDSERVE" solve --workers "$1" < "$work/requests" > "$work/pipe" &
    program=$!
    exec 8< "$work/pipe"
    sleep 1.5
    before=$(resident "$program")
    sleep 1.5
    after=$(resident "$program")
    [ $((after - before)) -lt 1024 ] || fail "$1 workers: memory rises by $((after - before)) kB while nothing is read"
    times 100 "$here/data/small.expected" | cmp - /dev/fd/8 || fail "$1 workers: a slow reader gets other replies"
    wait "$program" || fail "$1 workers: the program ended with $? after a slow reader"
    program=
    exec 8<&-
    rm "$work/pipe"
    echo "$1 workers: a slow reader gets all 60,000 replies"
}

# Sets `most` to the most memory in kB that the program took for so many times 600 lines. It is looked at while the program waits for
# more of them.
memory_of() { # WORKERS TIMES
    local compared
    mkfifo "$work/in" "$work/out"
    "$DDSERVE" solve --workers "$1" < "$work/in" > "$work/out" &
    program=$!
    cmp "$work/out" <(times "$2" "$here/data/small.expected") &
    compared=$!
    exec 7> "$work/in"
    times "$2" "$here/data/small.jsonl" >&7
    most=$(sed -n 's/^VmHWM:\s*\([0-9]*\) kB/\1/p' "/proc/$program/status")
    exec 7>&-
    wait "$program" || fail "$1 workers: the program ended with $? after $((600 * $2)) lines"
    program=
    wait "$compared" || fail "$1 workers: of $((600 * $2)) lines some have other replies"
    rm "$work/in" "$work/out"
}

million() { # WORKERS
    local count=$((${LINES_IN_ALL:-1000000} / 600 + 1)) few most
    memory_of "$1" $((count / 10))
    few=$most
    memory_of "$1" "$count"
    [ $((most - few)) -le 2048 ] || fail "$1 workers: $((count * 600)) lines take $most kB, a tenth of them $few"
    echo "$1 workers: $((count * 600)) lines take $most kB, a tenth of them $few"
}

no_line_end() { # WORKERS
    head -c -1 "$here/data/written.jsonl" | "$DDSERVE" solve --workers "$1" | cmp - "$here/data/written.expected" || fail "$1 workers: a last line without a line end"
    echo "$1 workers: a last line without a line end has its reply"
}

is_beginning() { # FILE
    cmp "$1" <(head -c "$(wc -c < "$1")" "$work/wanted") || fail "what a break left is no beginning of the replies"
}

# Breaks a start off when it has written so many more replies, and checks that none of those is lost.
break_off() { # SIGNAL MORE WORKERS
    local before seen
    before=$(wc -l < "$work/replies")
    # This shell is the parent of `resume.sh`, which is the parent of the program.
    "$top/examples/resume.sh" "$work/deals" "$work/replies" --workers "$3" 2> /dev/null &
    local start=$!
    until [ "$(wc -l < "$work/replies")" -ge $((before + $2)) ]; do sleep 0.02; done
    program=$(children "$start" | tail -1)
    [ "$(readlink "/proc/$program/exe")" = "$(readlink -f "$DDSERVE")" ] || fail "process $program is not the program that was to be broken off"
    seen=$(wc -l < "$work/replies")
    kill "-$1" "$program"
    ! wait "$start" 2> /dev/null || fail 'a start that was broken off ended well'
    program=
    is_beginning "$work/replies"
    [ "$(wc -l < "$work/replies")" -ge "$seen" ] || fail 'a break took replies away'
    echo "$3 workers: SIG$1 after $(wc -l < "$work/replies") replies"
}

children() { # PID
    cat "/proc/$1/task/$1/children" | tr ' ' '\n' | sed '/^$/d'
}

breaks() {
    python3 "$top/bench/tools/deals.py" 13 300 --seed 38 --requests > "$work/deals"
    "$DDSERVE" solve --workers 4 < "$work/deals" > "$work/wanted"
    : > "$work/replies"
    break_off TERM 20 1
    break_off KILL 40 4
    break_off TERM 30 4
    # A file that takes no more: here a line is cut off.
    (ulimit -f $(($(wc -c < "$work/replies") / 1024 + 10)) && "$top/examples/resume.sh" "$work/deals" "$work/replies" 2> /dev/null) && fail 'a full file was no fault'
    [ "$(tail -c 1 "$work/replies" | wc -l)" = 0 ] || fail 'a full file ends with a whole line: this was to be tried with one that is cut'
    is_beginning "$work/replies"
    echo "a full file after $(wc -l < "$work/replies") replies and a part of one"
    "$top/examples/resume.sh" "$work/deals" "$work/replies" --workers 4
    cmp "$work/replies" "$work/wanted" || fail 'five starts give other replies than one'
    # All is there: nothing is added.
    "$top/examples/resume.sh" "$work/deals" "$work/replies"
    cmp "$work/replies" "$work/wanted" || fail 'a start with nothing left to solve changes the replies'
    echo "five starts give the bytes of one: $(wc -l < "$work/replies") replies"
}

for workers in 1 4; do
    slow_reader "$workers"
    million "$workers"
    no_line_end "$workers"
done
breaks
