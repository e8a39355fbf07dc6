#!/usr/bin/env bash
# Solves a file of request lines, and goes on where an earlier start was broken off:
#
#     resume.sh REQUESTS REPLIES [OPTION OF SOLVE]..
#
# REPLIES has a line for each request that is solved, in the same order: so its number of lines says where to go on. In the
# environment DDSERVE is the program.
set -euo pipefail
[ $# -ge 2 ] || { sed -n '2,/^set/s/^# \?//p' "$0" >&2; exit 2; }
requests=$1 replies=$2
shift 2
exec 9>> "$replies"
flock --nonblock 9 || { echo "$0: $replies is still being written" >&2; exit 1; }
there=$(wc -l < "$replies")
# A line that was cut off, as by a full disk, is written anew.
truncate --size="$(head -n "$there" "$replies" | wc -c)" "$replies"
tail -n "+$((there + 1))" "$requests" | "${DDSERVE:-ddserve}" solve "$@" >&9
