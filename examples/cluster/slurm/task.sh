#!/usr/bin/env bash
# A task of the array: solves those of the parts in turn that are its own and not there. `solve.sh` submits it.
set -eu
folder=$1 tasks=$2 tries=$3

solve() { # PART
    local reply=$folder/unfinished/$1.$SLURM_JOB_ID.${SLURM_RESTART_COUNT:-0}
    "${DDSERVE:-ddserve}" solve --workers "${SLURM_CPUS_PER_TASK:-1}" < "$folder/requests/$1" > "$reply" || return
    [ "$(wc -l < "$reply")" = "$(awk 'END { print NR }' "$folder/requests/$1")" ] || return
    # Whole or not there, also where two tasks have solved it.
    mv "$reply" "$folder/replies/$1"
}

number=0
for request in "$folder/requests/"*; do
    part=${request##*/}
    if [ $((number++ % tasks)) != "$SLURM_ARRAY_TASK_ID" ] || [ -e "$folder/replies/$part" ] || solve "$part"; then
        continue
    fi
    echo "part $part failed on ${SLURMD_NODENAME:-}, after ${SLURM_RESTART_COUNT:-0} restarts"
    [ "${SLURM_RESTART_COUNT:-0}" -lt "$tries" ] || exit 1
    # This ends the task, which waits in the queue then.
    scontrol requeue "${SLURM_ARRAY_JOB_ID}_$SLURM_ARRAY_TASK_ID"
    sleep 60
done
