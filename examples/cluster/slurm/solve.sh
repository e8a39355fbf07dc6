#!/usr/bin/env bash
# Solves a file of request lines by an array of Slurm, and writes the replies in their order:
#
#     solve.sh REQUESTS FOLDER [OPTION OF SBATCH].. > replies
#
# FOLDER is seen by all nodes, and keeps the parts. The same command goes on where an earlier one was broken off: what is there is not
# solved again. In the environment: DDSERVE is the program on the nodes, LINES_EACH the lines of a part (100), TASKS the tasks of the
# array (1000), which take the parts in turn, and TRIES how often a task that fails is queued anew (3).
set -eu
here=$(cd -- "$(dirname -- "$0")" && pwd)
[ $# -ge 2 ] || { sed -n '2,/^set/s/^# \?//p' "$0" >&2; exit 2; }
requests=$1
[ -s "$requests" ] || exit 0
mkdir -p "$2/requests" "$2/replies" "$2/unfinished"
folder=$(cd -- "$2" && pwd)
shift 2
# The parts are of this file, cut like this.
cut="$(cksum < "$requests") ${LINES_EACH:-100}"
if ! [ -e "$folder/cut" ]; then
    split -l "${LINES_EACH:-100}" -d -a 6 "$requests" "$folder/requests/"
    echo "$cut" > "$folder/cut"
fi
[ "$(cat "$folder/cut")" = "$cut" ] || { echo "$0: $folder is of other requests, or of parts of another size" >&2; exit 1; }
parts=("$folder/requests/"*)
tasks=$((${TASKS:-1000} < ${#parts[@]} ? ${TASKS:-1000} : ${#parts[@]}))

all_there() {
    local found=("$folder/replies/"*)
    [ ${#found[@]} = ${#parts[@]} ] && [ -e "${found[0]}" ]
}

if ! all_there; then
    # A requeued task begins its parts anew that are not there.
    job=$(sbatch --parsable --array="0-$((tasks - 1))" --requeue --open-mode=append --output="$folder/log" "$@" \
        "$here/task.sh" "$folder" "$tasks" "${TRIES:-3}")
    # `sbatch --wait` looks every 32 seconds. Slurm is asked as seldom here, and the folder twice a second.
    looks=0
    while ! all_there; do
        sleep 0.5
        [ $((looks = (looks + 1) % 60)) != 0 ] || squeue --noheader --jobs="$job" 2> /dev/null | grep -q . || break
    done
    all_there || { echo "$0: job $job ended without all its parts, see $folder/log; the same command goes on" >&2; exit 1; }
fi
cat "$folder/replies/"*
