# Four servers of one worker, a to d, for lines and for WebSockets, and what is asked of them through a proxy.
declare -A ports=([lines]=410 [sockets]=411)

need_python_of_proxies() {
    for python in python3 /usr/bin/python3; do
        "$python" -c 'import websockets' 2> /dev/null && return
    done
    echo 'cases/cluster: websockets is missing (package python3-websockets)' >&2
    exit 77
}

# Starts the server of this name and returns when it listens.
start_server() { # KIND NAME
    local number options=()
    number=$(printf %d "'$2")
    [ "$1" = lines ] || options=(--websocket)
    : > "$servers/$1-$2"
    "$ddserve" serve --listen "127.0.0.1:${ports[$1]}$((number - 96))" --workers 1 "${options[@]}" > "$servers/$1-$2" 2>&1 &
    echo $! > "$servers/$1-$2.id"
    # It is ended by its id, and nothing is told of that.
    disown
    for _ in $(seq 100); do
        ! grep -q '^listening' "$servers/$1-$2" || return 0
        sleep 0.05
    done
    echo "cases/cluster: server $2 of $1 does not listen: $(cat "$servers/$1-$2")" >&2
    return 1
}

end_server() { # SIGNAL KIND NAME
    kill "-$1" "$(cat "$servers/$2-$3.id")"
}

# As `systemctl restart` does.
restart_server() { # KIND NAME
    local id
    id=$(cat "$servers/$1-$2.id")
    end_server TERM "$1" "$2"
    while kill -0 "$id" 2> /dev/null; do sleep 0.05; done
    start_server "$1" "$2"
}

start_servers() {
    servers=$work/servers
    mkdir -p "$servers"
    for kind in lines sockets; do
        for name in a b c d; do
            start_server "$kind" "$name"
        done
    done
}

stop_servers() {
    for kind in lines sockets; do
        for name in a b c d; do
            end_server KILL "$kind" "$name" 2> /dev/null || true
        done
    done
}

ask() { # ADDRESS REPLIES
    "$python" "$top/examples/cluster/proxy/ask.py" "$1" < "$deals" > "$2"
}

sixths_there() { # COUNT
    [ "$(wc -l < "$work/replies")" -ge $(($(wc -l < "$deals") * $1 / 6)) ]
}
