#!/usr/bin/env bash
# Runs the built program as a server with real clients, one kind after the other: by lines over TCP; lines that wait; runs that
# follow one another, also where the jobs of one are to use it up; par by lines; plays and targets by lines and over WebSockets; clients that go and leave their jobs; stops and
# other ends; over WebSockets, by Python's `websockets` (package python3-websockets) and by frames written by hand; a page in
# headless Chromium (package chromium); 70,000 checks of a proxy, by plain connections and by lines of health; ids and texts of faults. Answers are compared with those of DDS 2.9 in this repository, and each program's last lines with the events that its clients can
# account for. Packages that are missing are installed where this may be done. Words: which of `lines`, `waits`, `runs`, `used`, `par`,
# `plays`, `gone`, `stops`, `sockets`, `page`, `health`, `explained` to run (all). It takes some minute.
set -eu
here=$(cd -- "$(dirname -- "$0")" && pwd)
. "$here/needs.sh"
[ $# -gt 0 ] || set -- lines waits runs used par plays gone stops sockets page health explained
need_program
for clients in "$@"; do
    case $clients in
        plays | sockets | explained) need_websockets ;;
        page) need_python && need_chromium ;;
        *) need_python ;;
    esac
    "$python" "$here/clients/$clients.py"
done
echo "cases/server: $* agree"
