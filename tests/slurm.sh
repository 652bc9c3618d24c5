# A cluster of Slurm with one node, this machine, in the folder of a test, for a script that has read lib.sh: start_slurm, and
# stop_slurm before the script ends. Nothing of it is seen outside but three ports of the loopback, and it ends with the script.

# Whether all is there that such a cluster needs.
has_slurm() {
  local each
  for each in munged slurmctld slurmd sbatch sinfo; do
    command -v "$each" > found || return 1
  done
}

# The configuration of the cluster, whose folder is $1.
slurm_configuration() {
  local host user
  host=$(hostname -s)
  user=$(id -un)
  cat <<END
ClusterName=test
SlurmctldHost=$host(127.0.0.1)
SlurmUser=$user
SlurmdUser=$user
CommunicationParameters=NoInAddrAny,NoCtldInAddrAny
AuthType=auth/munge
AuthInfo=socket=$1/munge.socket
CredType=cred/munge
SlurmctldPort=$(free_port)
SlurmdPort=$(free_port)
StateSaveLocation=$1/controller
SlurmdSpoolDir=$1/node
SlurmctldPidFile=$1/slurmctld.pid
SlurmdPidFile=$1/slurmd.pid
SlurmctldLogFile=$1/slurmctld.log
SlurmdLogFile=$1/slurmd.log
ProctrackType=proctrack/linuxproc
TaskPlugin=task/none
SwitchType=switch/none
MpiDefault=none
ReturnToService=2
SelectType=select/cons_tres
SelectTypeParameters=CR_CPU
SchedulerParameters=sched_interval=1,defer_batch
AccountingStorageType=accounting_storage/none
JobAcctGatherType=jobacct_gather/none
NodeName=$host NodeAddr=127.0.0.1 CPUs=4 RealMemory=1000 State=UNKNOWN
PartitionName=test Nodes=$host Default=YES MaxTime=INFINITE State=UP OverSubscribe=NO
END
}

# Starts the cluster, and waits until its node takes jobs.
start_slurm() {
  local at=$room/cluster
  mkdir -m 700 "$at" "$at/controller" "$at/node"
  head -c 1024 /dev/urandom > "$at/key"
  chmod 600 "$at/key"
  export SLURM_CONF=$at/slurm.conf
  slurm_configuration "$at" > "$SLURM_CONF"
  munged --foreground --force --key-file="$at/key" --socket="$at/munge.socket" --pid-file="$at/munged.pid" --log-file="$at/munged.log" \
    --seed-file="$at/seed" > "$at/munged.told" 2>&1 &
  until [ -S "$at/munge.socket" ]; do sleep 0.05; done
  slurmctld -D > "$at/slurmctld.told" 2>&1 &
  slurmd -D > "$at/slurmd.told" 2>&1 &
  until sinfo -h -o %T 2>/dev/null | grep -q idle; do sleep 0.2; done
}
