# HAProxy before four servers: one is taken out for a restart, one hangs until its check by a line finds that, one is killed.
. "$here/proxies.sh"

need_haproxy() {
    need haproxy haproxy
    need_python_of_proxies
}

start_haproxy() {
    start_servers
    RUN=$work /usr/sbin/haproxy -f "$top/examples/cluster/proxy/haproxy.cfg" > "$work/haproxy" 2>&1 &
    haproxy_id=$!
    wait_for 20 'what HAProxy has to find up' are_up 8
}

stop_haproxy() {
    kill "$haproxy_id"
    wait "$haproxy_id" 2> /dev/null || true
    stop_servers
}

by_haproxy_lines() { # REPLIES
    ask 127.0.0.1:4200 "$1"
}

by_haproxy_sockets() { # REPLIES
    ask ws://127.0.0.1:4201/ "$1"
}

# The state of each server, by HAProxy's statistics.
states() {
    "$python" - "$work/haproxy.sock" <<'SHOW'
import socket, sys
with socket.socket(socket.AF_UNIX) as stream:
    stream.connect(sys.argv[1])
    stream.sendall(b"show stat\n")
    for line in stream.makefile():
        fields = line.split(",")
        if len(fields) > 17 and fields[1] in "abcd":
            print(fields[0], fields[1], fields[17])
SHOW
}

are_up() { # COUNT
    [ "$(states 2> /dev/null | grep -c ' UP$')" = "$1" ]
}

is_in_state() { # KIND NAME STATE
    [[ $(states) =~ (^|$'\n')"$1 $2 $3" ]]
}

break_haproxy() {
    local run
    for kind in lines sockets; do
        : > "$work/replies"
        "by_haproxy_$kind" "$work/replies" &
        run=$!
        wait_for 120 'a sixth of the replies' sixths_there 1
        restart_by_haproxy "$kind"
        wait_for 120 'two sixths of the replies' sixths_there 2
        end_server STOP "$kind" b
        wait_for 30 'that HAProxy finds a server hanging' is_in_state "$kind" b DOWN
        end_server CONT "$kind" b
        wait_for 30 'that HAProxy finds it up again' is_in_state "$kind" b UP
        end_server KILL "$kind" c
        ! sixths_there 6 || fail 'all replies were there before a server was killed'
        wait "$run" || fail "a question failed: HAProxy, $kind"
        same "$work/replies" "HAProxy, $kind: a server out for a restart, one that hung, one killed"
        "$python" "$here/limits.py" "$([ "$kind" = lines ] && echo 4200 || echo 4201)" "$kind"
    done
}

# A command of its own, as `restart.py` wants one.
restart_by_haproxy() { # KIND
    local before
    before=$(cat "$servers/$1-a.id")
    export servers ddserve
    "$python" "$top/examples/cluster/proxy/restart.py" --grace 1 "$work/haproxy.sock" a -- \
        bash -c "$(declare -p ports); $(declare -f start_server end_server restart_server); restart_server $1 a" || fail 'a server was not restarted'
    [ "$(cat "$servers/$1-a.id")" != "$before" ] || fail 'the server is the one that it was'
}
