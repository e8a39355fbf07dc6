#!/usr/bin/env bash
# Hostile clients of the built program, over lines and then over WebSockets: a thousand connections at once, of which some 900 are
# silent or slow; clients that never read, that break off inside a line or a frame, that send 4,097 bytes, what is no text,
# fragments, 10,000 pings; 100,000 lines by 50 clients. Meanwhile an honest client gets each answer right, and at the end the
# program tells as many events as the clients can account for. Then 150 clients under a limit of 64 descriptors; strangers: a page,
# a client that takes its replies slowly, handshakes without an end or with a wrong head, clients that send nothing; memory that
# is refused, is away for ten seconds or stays out (`memory`, which wants a C compiler); searches that are cancelled and must
# not run on; one that hangs up while its reply waits; what one run has: its connections and its events, to the last one; a
# stranger that uses up each event that is free while 64 clients have tables open (`kept`); 64 clients that connect anew at 15 where
# runs are short (`anew`); and newcomers who are more than the worker can begin, beside an honest client. Words: which of `lines`,
# `sockets`, `descriptors`, `strangers`, `memory`, `cancelled`, `hangs`, `passes`, `events`, `kept`, `anew`, `newcomers` to run
# (all), or `fair`: a client with one card beside one with 64 tables, and beside a thousand with 16 tables each, which wants an idle
# machine. It takes some twelve minutes, in most of which it waits: until those who never read are cut off, newcomers have come, or
# memory is there again.
set -eu
here=$(cd -- "$(dirname -- "$0")" && pwd)
. "$here/needs.sh"
[ $# -gt 0 ] || set -- lines sockets descriptors strangers memory cancelled hangs passes events kept anew newcomers
need_program
need_python
[ "$(ulimit -Hn)" = unlimited ] || [ "$(ulimit -Hn)" -ge 1300 ] || { echo "cases/server: 1,300 descriptors are needed, and the limit is $(ulimit -Hn)" >&2; exit 1; }
for kind in "$@"; do
    case $kind in
        strangers | memory | newcomers | fair | kept | anew) "$python" "$here/clients/$kind.py" ;;
        hangs) "$python" "$here/clients/waits.py" "$kind" ;;
        passes | events) "$python" "$here/clients/limits.py" "$kind" ;;
        *) "$python" "$here/clients/hostile.py" "$kind" ;;
    esac
done
echo "cases/server: $* withstood"
