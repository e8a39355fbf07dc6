# GNU parallel over ssh: four hosts, each a server of ssh at a port of loopback. One is cut off while it works; then parallel itself
# is, and the same command goes on by its job log.
hosts=(1/w1 1/w2 1/w3 1/w4)
ssh=$work/ssh

need_parallel() {
    need parallel parallel
    need ssh openssh-client
    need sshd openssh-server
    need_root sshd
}

start_host() { # NUMBER
    local options=(-o "Port=$((42200 + $1))" -o ListenAddress=127.0.0.1 -o "HostKey=$ssh/host" -o "AuthorizedKeysFile=$ssh/key.pub"
        -o PidFile=none -o UsePAM=no -o StrictModes=no -o PasswordAuthentication=no -o MaxStartups=100
        # What root's shell does at its start is nothing of a host's.
        -o "SetEnv=HOME=$ssh/home")
    /usr/sbin/sshd -D -f /dev/null "${options[@]}" -E "$ssh/log$1" &
    host_ids[$1]=$!
}

start_parallel() {
    mkdir -p "$ssh/home"
    export PARALLEL_HOME=$ssh/home
    # The folder for servers without rights, which Debian makes at a boot.
    [ -d /run/sshd ] || { mkdir /run/sshd; made_run=1; }
    ssh-keygen -q -t ed25519 -N '' -f "$ssh/host"
    ssh-keygen -q -t ed25519 -N '' -f "$ssh/key"
    for number in 1 2 3 4; do
        printf '%s\n' "Host w$number" 'HostName 127.0.0.1' "Port $((42200 + number))" "IdentityFile $ssh/key" 'IdentitiesOnly yes' \
            "UserKnownHostsFile $ssh/known" 'StrictHostKeyChecking no' 'LogLevel ERROR' 'BatchMode yes' \
            'ControlMaster auto' "ControlPath $ssh/%C" 'ControlPersist 30'
        start_host "$number"
    done > "$ssh/config"
    for number in 1 2 3 4; do
        wait_for 10 "host $number" ssh -F "$ssh/config" "w$number" true 2> /dev/null
    done
}

stop_parallel() {
    kill "${host_ids[@]}" 2> /dev/null || true
    [ -z "${made_run:-}" ] || rmdir /run/sshd
}

by_parallel() { # REPLIES
    rm -rf "$work/parts"
    go_on "$1"
}

go_on() { # REPLIES
    SSH="ssh -F $ssh/config" "$top/examples/cluster/parallel/solve.sh" "$deals" "$work/parts" "${hosts[@]}" > "$1"
}

parts_done() { # COUNT
    [ "$(cat "$work/parts/log" 2> /dev/null | wc -l)" -gt "$1" ]
}

break_parallel() {
    # In one line, without a break.
    head -300 "$deals" | parallel --will-cite --pipe --keep-order --block 14k --ssh "ssh -F $ssh/config" \
        --sshlogin "$(IFS=,; echo "${hosts[*]}")" "$ddserve solve" | cmp - <(head -300 "$wanted") || fail 'parallel --pipe --keep-order'
    echo 'parallel --pipe --keep-order: 300 replies, the same bytes as of one process'

    by_parallel "$work/replies" 2> /dev/null &
    local run=$! count
    wait_for 120 'a third part' parts_done 3
    cut_off "${host_ids[2]}" "$(basename "$ddserve")"
    wait_for 120 'a tenth part' parts_done 10
    cut_off "$run" ssh
    count=$(($(wc -l < "$work/parts/log") - 1))
    [ $((100 * count)) -lt "$(wc -l < "$deals")" ] || fail "parallel was killed after all $count parts"
    go_on "$work/replies"
    same "$work/replies" "parallel, a host lost, broken off after $count parts and gone on with"
}
