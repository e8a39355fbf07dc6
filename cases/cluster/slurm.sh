# Slurm: a controller and four nodes of one processor on this machine, with a munged of their own. The program of one task is killed
# while it works, and another task's node goes down.
export SLURM_CONF=$work/slurm/slurm.conf

need_slurm() {
    need munged munge
    need sbatch slurm-wlm
    need slurmctld slurm-wlm
    need slurmd slurm-wlm
    need_root slurmctld
    PATH=$PATH:/usr/sbin
    slurmd -h 2>&1 | grep -q -- '-N node' || { echo 'cases/cluster: this slurmd has no -N: one machine is one node alone' >&2; exit 77; }
}

nodes_are_idle() {
    [ "$(sinfo --noheader --Node --format '%T' 2> /dev/null | grep -c '^idle$')" = 4 ]
}

settings() { # FOLDER HOST
    cat <<SETTINGS
ClusterName=cases
SlurmctldHost=$2(127.0.0.1)
CommunicationParameters=NoCtldInAddrAny,NoInAddrAny
SlurmUser=root
SlurmdUser=root
AuthType=auth/munge
# A task that is queued anew waits for as long as a credential is good.
AuthInfo=socket=$1/munge,cred_expire=5
CredType=cred/munge
SlurmctldPort=42400
StateSaveLocation=$1/state
SlurmdSpoolDir=$1/spool-%n
SlurmctldPidFile=$1/slurmctld.pid
SlurmdPidFile=$1/slurmd-%n.pid
SlurmctldLogFile=$1/slurmctld.log
SlurmdLogFile=$1/slurmd-%n.log
ProctrackType=proctrack/pgid
TaskPlugin=task/none
JobAcctGatherType=jobacct_gather/none
SchedulerType=sched/builtin
SelectType=select/cons_tres
SelectTypeParameters=CR_CPU
SlurmdParameters=config_overrides
# A node that is silent for so many seconds is down, and its tasks are queued anew.
SlurmdTimeout=10
ReturnToService=2
MpiDefault=none
SchedulerParameters=batch_sched_delay=0,sched_interval=1
MinJobAge=300
SETTINGS
}

start_slurm() {
    local folder=$work/slurm host
    host=$(hostname -s)
    mkdir -p "$folder/state"
    settings "$folder" "$host" > "$SLURM_CONF"
    for number in 1 2 3 4; do
        echo "NodeName=n$number NodeHostname=$host NodeAddr=127.0.0.1 Port=$((42400 + number)) CPUs=1" >> "$SLURM_CONF"
    done
    echo 'PartitionName=main Nodes=n[1-4] Default=YES MaxTime=INFINITE State=UP' >> "$SLURM_CONF"
    (umask 077 && head -c 1024 /dev/urandom > "$folder/key")
    # --force: the folder of a temporary socket may be written by others than its owner.
    munged -F --force --key-file="$folder/key" --socket="$folder/munge" --pid-file="$folder/munge.pid" --log-file="$folder/munge.log" \
        --seed-file="$folder/munge.seed" > "$folder/munged" 2>&1 &
    slurm_ids=($!)
    wait_for 10 'the socket of munged' [ -S "$folder/munge" ]
    slurmctld -D -i > "$folder/controller" 2>&1 &
    slurm_ids+=($!)
    for number in 1 2 3 4; do
        slurmd -D -N "n$number" > "$folder/node$number" 2>&1 &
        slurm_ids+=($!)
    done
    wait_for 60 'the nodes of Slurm' nodes_are_idle
}

stop_slurm() {
    kill "${slurm_ids[@]}"
    wait "${slurm_ids[@]}" 2> /dev/null || true
}

by_slurm() { # REPLIES
    rm -rf "$work/parts"
    TASKS=8 "$top/examples/cluster/slurm/solve.sh" "$deals" "$work/parts" --cpus-per-task=1 > "$1"
}

parts_there() { # COUNT
    [ "$(ls "$work/parts/replies" 2> /dev/null | wc -l)" -ge "$1" ]
}

break_slurm() {
    by_slurm "$work/replies" &
    local run=$! programs
    wait_for 120 'a third part' parts_there 3
    programs=($(below "$HELD" "$(basename "$ddserve")"))
    [ ${#programs[@]} -gt 0 ] || fail 'no program ran in Slurm when one was to be killed'
    kill -KILL "${programs[0]}"
    wait_for 120 'an eighth part' parts_there 8
    # The node of a task that runs.
    local node
    node=$(squeue --noheader --states=running --format=%N | head -1)
    [ "$node" ] || fail 'no task ran in Slurm when its node was to go down'
    # It is there again when the controller asks it next.
    scontrol update "nodename=$node" state=down reason=tried
    wait "$run" || fail "Slurm ended badly when a task failed: $(cat "$work/parts/log")"
    same "$work/replies" 'Slurm, a task killed, and a node lost'
    grep -q '^part 0000.. failed on n[1-4], after 0 restarts$' "$work/parts/log" || fail 'no task of Slurm says that it failed'
    grep -qi 'due to node fail' "$work/parts/log" || fail "no task of Slurm says that its node was lost: $(cat "$work/parts/log")"
}
