#!/usr/bin/env bash
# Runs the built program on more than one worker, by what Debian has for that: GNU parallel over ssh, HAProxy and nginx before
# servers, Dask and Slurm. All of it stands on loopback, with daemons, keys and folders of its own. 2,000 full deals are solved by
# four workers. One of them is killed while it works, and the replies have to be those of one process, byte for byte. With
# `--timed` nothing is killed: each way is run at the same time as `ddserve solve --workers 4`, and what both take is told, RUNS
# times (1). Words: which of `parallel`, `haproxy`, `nginx`, `dask`, `slurm` to run (all). DEALS is the number of deals (2000). As
# root. Where a package is missing it says which, and ends with status 77.
set -eu
here=$(cd -- "$(dirname -- "$0")" && pwd)
if [ "${HELD:-}" != "$PPID" ]; then
    # What is started here is held by one process, which ends all of it, whatever happens.
    exec bash -c 'HELD=$$ exec python3 "$@"' - "$here/held.py" run "$0" "$@"
fi
. "$here/common.sh"
timed=
[ "${1:-}" != --timed ] || { timed=1; shift; }
ways=("$@")
[ $# -gt 0 ] || ways=(parallel haproxy nginx dask slurm)
for way in "${ways[@]}"; do
    [[ $way =~ ^(parallel|haproxy|nginx|dask|slurm)$ ]] || { echo "cases/cluster: $way is no way" >&2; exit 2; }
    . "$here/$way.sh"
    "need_$way"
done
need_program
# One best lead of each deal; what is measured are all leads.
make_deals "$([ "$timed" ] && echo 3 || echo 1)"
for way in "${ways[@]}"; do
    "start_$way"
    if [ "$timed" ]; then
        for by in $(compgen -A function "by_$way"); do
            for _ in $(seq "${RUNS:-1}"); do
                beside_one_process "$by"
            done
        done
    else
        "break_$way"
    fi
    "stop_$way"
done
