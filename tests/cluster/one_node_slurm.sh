#!/bin/sh
# Starts a Slurm of one node on this machine, runs a command with it, and ends it; nothing of the system's own Slurm or
# munge is touched.
# usage: tests/cluster/one_node_slurm.sh COMMAND ..        (as root; Debian: apt-get install slurm-wlm)
set -eu
[ $# -gt 0 ] || { echo "usage: $0 COMMAND .." >&2; exit 2; }
room=$(mktemp -d)
chmod 711 "$room"
mkdir "$room/state" "$room/spool"
host=$(hostname -s)
cat > "$room/slurm.conf" <<END
ClusterName=one
SlurmctldHost=$host(127.0.0.1)
SlurmUser=root
AuthType=auth/munge
AuthInfo=socket=$room/munge.socket
ProctrackType=proctrack/linuxproc
TaskPlugin=task/none
SelectType=select/cons_tres
SelectTypeParameters=CR_CPU
StateSaveLocation=$room/state
SlurmdSpoolDir=$room/spool
SlurmctldPidFile=$room/slurmctld.pid
SlurmdPidFile=$room/slurmd.pid
MailProg=/bin/true
ReturnToService=2
NodeName=$host NodeAddr=127.0.0.1 CPUs=$(nproc) State=UNKNOWN
PartitionName=all Nodes=$host Default=YES MaxTime=INFINITE State=UP
END
export SLURM_CONF="$room/slurm.conf"
started=
end() {
    for daemon in $started; do
        kill "$daemon" 2> /dev/null || true
        wait "$daemon" || true
    done
    rm -rf "$room"
}
trap end EXIT
trap 'exit 1' HUP INT TERM
wait_for() {
    tries=0
    until eval "$1"; do
        tries=$((tries + 1))
        [ $tries -lt 150 ] || { echo "$0: not there after 30 seconds: $1" >&2; tail -n 20 "$room"/*.log >&2; exit 1; }
        sleep 0.2
    done
}

dd if=/dev/urandom of="$room/munge.key" bs=128 count=1 2> /dev/null
chmod 600 "$room/munge.key"
munged --foreground --key-file="$room/munge.key" --socket="$room/munge.socket" --pid-file="$room/munged.pid" --seed-file="$room/munge.seed" \
    > "$room/munged.log" 2>&1 &
started="$! $started"
wait_for '[ -S "$room/munge.socket" ]'
slurmctld -D > "$room/slurmctld.log" 2>&1 &
started="$! $started"
slurmd -D > "$room/slurmd.log" 2>&1 &
started="$! $started"
wait_for 'sinfo --noheader --format=%T 2> /dev/null | grep -q idle'
"$@"
