#!/bin/sh
# report.sh RUN K: makes one answer of what all K shards told, in RUN/report, and writes it: the lines of each shard's nodes, in the order of the nodes.
# Ends with 1 where a shard did not tell, and with 3 where somebody is exposed.
set -eu
run=$1 count=$2
case $run in -*) run=./$run ;; esac
told=$(find "$run/told" -type f ! -name 'new.*' | wc -l)
[ "$told" = "$count" ] || { echo "report.sh: $told of $count shards told" >&2; exit 1; }
sort -n "$run"/told/[0-9]* > "$run/report"
cat "$run/report"
! grep -q ' exposed$' "$run/report" || exit 3
