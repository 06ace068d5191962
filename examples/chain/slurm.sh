#!/bin/bash
# Runs the desks of a chain as an array of Slurm jobs, one hotel a job (Debian: slurm-wlm).
#
#     slurm.sh FOLDER [PROCESSES]
#
# As many at once as there are processors, or PROCESSES. The controller and one node, this machine, are started on the
# loopback address for this call, and ended with it. On a cluster that is there, the line with sbatch is all that is
# wanted. Hotels that have their journal are left as they are.
set -u
here=$(dirname -- "$(readlink -f -- "$0")")
chain=$(readlink -f -- "$1")
for command in slurmctld slurmd sbatch squeue; do
    command -v $command >/dev/null || { echo "$command is not there: it is in Debian's package slurm-wlm"; exit 1; }
done
work=$(mktemp -d)
node=$(hostname -s)
cat >"$work/slurm.conf" <<CONF
ClusterName=chain
SlurmctldHost=$node(127.0.0.1)
SlurmctldPort=16817
SlurmdPort=16818
SlurmUser=$(id -un)
SlurmdUser=$(id -un)
AuthType=auth/none
CredType=cred/none
ProctrackType=proctrack/linuxproc
TaskPlugin=task/none
SwitchType=switch/none
MpiDefault=none
ReturnToService=2
SchedulerType=sched/backfill
SelectType=select/cons_tres
SelectTypeParameters=CR_CPU
MaxArraySize=10001
StateSaveLocation=$work/state
SlurmdSpoolDir=$work/spool
SlurmctldPidFile=$work/slurmctld.pid
SlurmdPidFile=$work/slurmd.pid
SlurmctldLogFile=$work/slurmctld.log
SlurmdLogFile=$work/slurmd.log
NodeName=$node NodeAddr=127.0.0.1 CPUs=${2:-$(nproc)} State=UNKNOWN
PartitionName=all Nodes=$node Default=YES MaxTime=INFINITE State=UP
CONF
mkdir "$work/state" "$work/spool"
export SLURM_CONF=$work/slurm.conf
slurmctld -D >"$work/controller.out" 2>&1 &
controller=$!
slurmd -D -N "$node" >"$work/node.out" 2>&1 &
daemon=$!
trap 'kill $controller $daemon 2>/dev/null; wait; rm -rf "$work"' EXIT
for _ in $(seq 60); do
    [ "$(sinfo -h -o %T 2>/dev/null)" = idle ] && break
    sleep 1
done
[ "$(sinfo -h -o %T 2>/dev/null)" = idle ] || { echo "Slurm did not start"; tail -n 5 "$work"/*.log "$work"/*.out; exit 1; }

mapfile -t hotels < <(find "$chain" -mindepth 1 -maxdepth 1 -type d | sort)
printf '%s\n' "${hotels[@]}" >"$work/hotels"
cat >"$work/job" <<JOB
#!/bin/sh
exec "$here/hotel.sh" "\$(sed -n "\$((SLURM_ARRAY_TASK_ID + 1))p" "$work/hotels")"
JOB
begin=$(date +%s%N)
sbatch --quiet --array=0-$((${#hotels[@]} - 1)) --output=/dev/null "$work/job" || exit 1
while [ -n "$(squeue -h 2>/dev/null)" ]; do sleep 1; done
echo "$((($(date +%s%N) - begin) / 1000000)) ms"
