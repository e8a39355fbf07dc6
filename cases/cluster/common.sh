# What the ways share. `work` is a folder that goes at the end (`held.py`), `deals` the request lines in it, `wanted` the replies of one process.

export PYTHONDONTWRITEBYTECODE=1
top=$(cd -- "$here/../.." && pwd)
work=$WORK
deals=$work/deals wanted=$work/wanted

fail() {
    echo "cases/cluster: $*" >&2
    exit 1
}

need() { # COMMAND PACKAGE
    command -v "$1" > /dev/null || PATH=$PATH:/usr/sbin command -v "$1" > /dev/null || { echo "cases/cluster: $1 is missing (package $2)" >&2; exit 77; }
}

need_root() {
    [ "$(id -u)" = 0 ] || { echo "cases/cluster: $1 is started as root alone here" >&2; exit 77; }
}

# `DDSERVE` names another built program. `ddserve` is the path of the program itself.
need_program() {
    "${DDSERVE:-$top/ddserve}" serve --help > /dev/null
    ddserve=$(readlink -f -- "${DDSERVE:-$top/crates/ddserve/out/ddserve}")
    export DDSERVE=$ddserve
}

# Full deals, each strain and leader in turn.
make_deals() { # SOLUTIONS
    python3 "$top/bench/tools/deals.py" 13 "${DEALS:-2000}" --seed 38 --requests | sed "s/:3}$/:$1}/" > "$deals"
    "$ddserve" solve --workers 4 < "$deals" > "$wanted"
    [ "$(wc -l < "$wanted")" = "$(wc -l < "$deals")" ] || fail "one process gave $(wc -l < "$wanted") replies"
}

same() { # REPLIES WHAT
    cmp "$1" "$wanted" || fail "$2: the replies are not those of one process"
    echo "$2: $(wc -l < "$1") replies, the same bytes as of one process"
}

wait_for() { # SECONDS WHAT COMMAND..
    local tries=$(($1 * 20)) what=$2
    shift 2
    until "$@"; do
        [ $((tries -= 1)) -gt 0 ] || fail "$what did not come"
        sleep 0.05
    done
}

below() { # PID [NAME]
    python3 "$here/held.py" below "$@"
}

# Processor seconds of all that is held here, and of what of it has ended.
spent() {
    python3 "$here/held.py" spent "$HELD"
}

has_below() { # PID NAME
    [ "$(below "$@")" ]
}

# Kills a process and all below it, as when the power goes, while one of this name is among them.
cut_off() { # PID NAME
    wait_for 20 "that a $2 runs below process $1" has_below "$1" "$2"
    kill -KILL "$1" $(below "$1") 2> /dev/null || true
    wait "$1" 2> /dev/null || true
}

# Runs a way and one process of four workers at the same time, so that both have the same other work beside them, and tells what each
# takes. The way's processor seconds are all that are spent here but for those of the one process: clients and daemons count.
beside_one_process() { # FUNCTION
    local before start end way one
    before=$(spent)
    one_process &
    one=$!
    start=$EPOCHREALTIME
    "$1" "$work/replies"
    end=$EPOCHREALTIME
    wait "$one"
    cmp "$work/replies" "$wanted" || fail "${1#by_}: the replies are not those of one process"
    cmp "$work/one" "$wanted" || fail 'one process gives other replies than before'
    echo "${1#by_} $start $end $before $(spent) $(cat "$work/one.times")" | awk '{
        way = $5 - $4 - $7 - $8
        printf "%s: %.1f s, %.1f processor seconds; solve --workers 4 beside it: %.1f s, %.1f; ratio %.2f, %.2f", $1, $3 - $2, way, $6, $7 + $8, ($3 - $2) / $6, way / ($7 + $8)
    }'
    echo "; load $(cut -d ' ' -f 1 /proc/loadavg)"
}

one_process() {
    local TIMEFORMAT='%R %U %S'
    { time "$ddserve" solve --workers 4 < "$deals" > "$work/one"; } 2> "$work/one.times"
}
