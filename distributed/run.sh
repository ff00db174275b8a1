#!/bin/sh
# run.sh HOSTS K RUN --program NAME [WORDS..]: asks the evidence of RUN/stores, K shards, on the machines of HOSTS, and writes the lines of all nodes.
#
# HOSTS is a --sshloginfile of GNU parallel (Debian's package parallel), one line a machine, as `8/user@machine`. Each machine has this folder and
# RUN under the same names, and the program bulwynef, which BULWYNEF names. RUN has `nodes`, the directory, `stores`, the names of the stores, one a line, and
# perhaps `how` (split.sh).
# NAME is the program that the nodes were to follow; WORDS go to `bulwynef status` too.
# A task whose machine fails is done by another, three times at most. Ends with 3 where somebody is exposed, 1 where a task failed for good, 2 where
# no program is named.
set -eu
hosts=$1 count=$2 run=$3
shift 3
case " $* " in *" --program"[\ =]*) ;; *) echo "run.sh: no verdict without a program: --program NAME says which one the nodes were to follow: tally, relay, mailbox" >&2; exit 2 ;; esac
here=$(cd "$(dirname -- "$0")" && pwd)
case $run in -*) run=./$run ;; esac
mkdir -p "$run/parts" "$run/counts" "$run/told"
rm -f "$run"/told/*
# parallel ends with the number of tasks that failed, which could be 3. By --quote, names may have blanks in them.
on_all() { parallel --will-cite --quote --sshloginfile "$hosts" --retries 3 --env BULWYNEF "$@"; }
seq "$(sed -n '$=' "$run/stores")" | on_all --joblog "$run/split.log" "$here/split.sh" "$run" "$count" {} || exit 1
seq 0 $((count - 1)) | on_all --joblog "$run/status.log" "$here/status.sh" "$run" "$count" {} "$@" || exit 1
exec "$here/report.sh" "$run" "$count"
