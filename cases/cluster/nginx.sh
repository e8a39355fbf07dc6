# nginx before four servers: one is restarted, one hangs until `watch.py` finds that, one is killed.
. "$here/proxies.sh"

need_nginx() {
    need nginx nginx
    [ -e /usr/lib/nginx/modules/ngx_stream_module.so ] || { echo 'cases/cluster: the module stream is missing (package libnginx-mod-stream)' >&2; exit 77; }
    need_python_of_proxies
}

listens() { # PORT
    "$python" -c "import socket; socket.create_connection(('127.0.0.1', $1), 1)" 2> /dev/null
}

start_nginx() {
    start_servers
    PATH=$PATH:/usr/sbin
    folder=$work/nginx
    mkdir -p "$folder"
    cp "$top/examples/cluster/proxy/"{nginx.conf,*.servers} "$folder"
    nginx -e "$folder/nginx.log" -p "$folder" -c "$folder/nginx.conf" > "$folder/out" 2>&1 &
    nginx_id=$!
    wait_for 10 nginx listens 4300
    "$python" "$top/examples/cluster/proxy/watch.py" "$folder" > "$folder/watch" 2>&1 &
    watch_id=$!
}

stop_nginx() {
    kill "$watch_id" "$nginx_id"
    wait "$watch_id" "$nginx_id" 2> /dev/null || true
    stop_servers
}

by_nginx_lines() { # REPLIES
    ask 127.0.0.1:4300 "$1"
}

by_nginx_sockets() { # REPLIES
    ask ws://127.0.0.1:4301/ "$1"
}

is_down() { # KIND NAME
    grep -q "${ports[$1]}$(($(printf %d "'$2") - 96)) .* down;" "$folder/$1.servers"
}

is_up() { # KIND NAME
    ! is_down "$1" "$2"
}

break_nginx() {
    local run
    for kind in lines sockets; do
        : > "$work/replies"
        "by_nginx_$kind" "$work/replies" &
        run=$!
        wait_for 120 'a sixth of the replies' sixths_there 1
        restart_server "$kind" a
        wait_for 120 'two sixths of the replies' sixths_there 2
        end_server STOP "$kind" b
        wait_for 30 'that a server is found hanging' is_down "$kind" b
        end_server CONT "$kind" b
        wait_for 30 'that it is found up again' is_up "$kind" b
        end_server KILL "$kind" c
        ! sixths_there 6 || fail 'all replies were there before a server was killed'
        wait "$run" || fail "a question failed: nginx, $kind"
        same "$work/replies" "nginx, $kind: a server restarted, one that hung, one killed"
        "$python" "$here/limits.py" "$([ "$kind" = lines ] && echo 4300 || echo 4301)" "$kind"
    done
}
