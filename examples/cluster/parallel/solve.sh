#!/usr/bin/env bash
# Solves a file of request lines on several hosts, by GNU parallel over ssh:
#
#     solve.sh REQUESTS FOLDER HOST.. > replies
#
# HOST is a host of ssh, with the number of its processors before a slash where it isn't asked for them: 4/host1. FOLDER keeps the
# job log and the parts that are there. The same command goes on where an earlier one was broken off. In the environment: DDSERVE is
# the program on the hosts, LINES_EACH the lines of a part (100), TRIES how often a part is begun before it is given up (3), and SSH
# the command for ssh, with its options.
set -eu
[ $# -ge 3 ] || { sed -n '2,/^set/s/^# \?//p' "$0" >&2; exit 2; }
requests=$1 folder=$2
shift 2
each=${LINES_EACH:-100}
mkdir -p "$folder/parts"
# The job log has numbers alone: they are of this file, cut like this.
cut="$(cksum < "$requests") $each"
[ -e "$folder/cut" ] || echo "$cut" > "$folder/cut"
[ "$(cat "$folder/cut")" = "$cut" ] || { echo "$0: $folder is of other requests, or of parts of another size" >&2; exit 1; }

# Each part has a file of its own: so nothing is twice or in part among the replies, wherever a break comes.
status=0
parallel --will-cite --pipe -N "$each" --block 1M --ssh "${SSH:-ssh}" --sshlogin "$(IFS=,; echo "$*")" \
    --retries "${TRIES:-3}" --joblog "$folder/log" --resume-failed --results "$folder/parts/{#}" \
    "${DDSERVE:-ddserve} solve" < "$requests" > /dev/null || status=$?
[ $status = 0 ] || { echo "$0: parallel ended with $status; the same command goes on" >&2; exit 1; }

lines=$(awk 'END { print NR }' "$requests")
parts=$(((lines + each - 1) / each))
join() {
    for part in $(seq "$parts"); do
        cat "$folder/parts/$part"
    done
}
found=$(join | wc -l)
[ "$found" = "$lines" ] || { echo "$0: $found replies to $lines requests" >&2; exit 1; }
join
