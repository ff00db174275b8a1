#!/bin/sh
# try_slurm.sh [PROGRAM]: slurm.sh on a cluster that is this machine alone: slurmctld and slurmd listen on loopback, without munge. 40 stores are
# asked in 8 shards, as two arrays, and the lines must be those of one process that is asked of all.
#
# Wants root, Debian's package slurm-wlm, which it installs where it is missing, and crates/bulwynef/out/bulwynef or PROGRAM.
set -eu
here=$(cd "$(dirname "$0")" && pwd)
BULWYNEF=$(realpath "${1:-$here/../crates/bulwynef/out/bulwynef}")
export BULWYNEF
STORES=${STORES:-40} SHARDS=${SHARDS:-8}

# RUNLEVEL=1: the packages' own services are not started.
command -v slurmctld > /dev/null && command -v slurmd > /dev/null || {
    RUNLEVEL=1 DEBIAN_FRONTEND=noninteractive apt-get -o DPkg::Lock::Timeout=300 install -y --no-install-recommends slurm-wlm > /dev/null
}

room=$(mktemp -d /tmp/bulwynef-slurm.XXXXXX)
servers=
clean() {
    for server in $servers; do kill "$server" 2> /dev/null || true; done
    wait
    rm -rf "$room"
}
trap clean EXIT
trap 'exit 130' INT TERM

name=$(hostname -s)
mkdir "$room/state" "$room/spool"
cat > "$room/slurm.conf" << END
ClusterName=loopback
SlurmctldHost=$name(127.0.0.1)
SlurmctldPort=22817
SlurmdPort=22818
CommunicationParameters=NoCtldInAddrAny,NoInAddrAny
AuthType=auth/none
CredType=cred/none
SlurmUser=root
StateSaveLocation=$room/state
SlurmdSpoolDir=$room/spool
SlurmctldPidFile=$room/slurmctld.pid
SlurmdPidFile=$room/slurmd.pid
ProctrackType=proctrack/linuxproc
TaskPlugin=task/none
SelectType=select/cons_tres
SelectTypeParameters=CR_CPU
JobAcctGatherType=jobacct_gather/none
AccountingStorageType=accounting_storage/none
ReturnToService=2
NodeName=$name NodeAddr=127.0.0.1 CPUs=4 State=UNKNOWN
PartitionName=all Nodes=ALL Default=YES State=UP
END
SLURM_CONF=$room/slurm.conf
export SLURM_CONF
slurmctld -D > "$room/slurmctld.log" 2>&1 &
servers="$servers $!"
slurmd -D > "$room/slurmd.log" 2>&1 &
servers="$servers $!"
tries=0
until sinfo -h -o %T 2> /dev/null | grep -q idle; do
    tries=$((tries + 1))
    [ "$tries" -lt 60 ] || { tail -20 "$room"/slurm*.log >&2; exit 1; }
    sleep 1
done

python3 "$here/evidence.py" "$room/evidence" "$STORES" "${NODES:-24}"
run="$room/somebody's run"
mkdir "$run"
cp "$room/evidence/nodes" "$run/nodes"
ls "$room"/evidence/*.store > "$run/stores"
"$BULWYNEF" status --program tally --directory "$run/nodes" "$room"/evidence/*.store > "$room/wanted" || [ $? = 3 ]
status=0
"$here/slurm.sh" "$SHARDS" "$run" --program tally > "$room/told" || status=$?
cmp "$room/wanted" "$room/told"
[ "$status" = 3 ]
echo "equal: $(wc -l < "$room/told") nodes"
