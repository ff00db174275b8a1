#!/bin/sh
# slurm.sh K RUN --program NAME [WORDS..]: the same two steps as arrays of a Slurm cluster (Debian's package slurm-wlm). It waits for their end.
#
# RUN is as for run.sh. What a node of the cluster loses is queued again by Slurm (--requeue), and the lines are those of run.sh.
set -eu
count=$1 run=$2
shift 2
case " $* " in *" --program"[\ =]*) ;; *) echo "slurm.sh: no verdict without a program: --program NAME says which one the nodes were to follow: tally, relay, mailbox" >&2; exit 2 ;; esac
here=$(cd "$(dirname -- "$0")" && pwd)
case $run in -*) run=./$run ;; esac
# Writes the words for a shell, each between quotes.
quoted() { for word in "$@"; do printf "'%s' " "$(printf %s "$word" | sed "s/'/'\\\\''/g")"; done; }
mkdir -p "$run/parts" "$run/counts" "$run/told" "$run/slurm"
rm -f "$run"/told/*
stores=$(sed -n '$=' "$run/stores")
submit() { sbatch --parsable --requeue --output "$run/slurm/%x-%A-%a" "$@"; }
split=$(submit --job-name split --array "1-$stores" --wrap "exec $(quoted "$here/split.sh" "$run" "$count")\$SLURM_ARRAY_TASK_ID") || exit 1
status=$(submit --job-name status --array "0-$((count - 1))" --dependency "afterok:$split" --kill-on-invalid-dep yes --wait --wrap "exec $(quoted "$here/status.sh" "$run" "$count")\$SLURM_ARRAY_TASK_ID $(quoted "$@")") || exit 1
echo "slurm.sh: jobs $split and $status" >&2
exec "$here/report.sh" "$run" "$count"
