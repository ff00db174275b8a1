#!/usr/bin/env bash
# run.sh PROGRAM FOLDER [NODES]: how long bulwynef takes over statements of so many nodes (410: a GiB) in eight files of the folder, which it makes where
# they lack: `status` of four of them and of all, by four workers; `split` of all into 64 shards, and `status` of each, four at a time, which must say the same.
set -eu
program=$(realpath "$1")
folder=$(realpath "$2")
here=$(dirname "$(realpath "$0")")
work=$(mktemp -d)
trap 'rm -rf "$work"' EXIT
if [ ! -f "$folder/nodes" ]; then
    gcc -O3 -march=native -o "$work/make" "$here/make.c" -lcrypto
    "$work/make" "$folder" "${3:-410}" 8
fi
timed() { /usr/bin/time -f "$1: %e s, processor %U + %S s, %M KB" "${@:2}"; }
uptime
timed "status of four files" "$program" status --program tally --directory "$folder/nodes" --workers 4 "$folder"/0[0-3].store > "$work/half"
timed "status of eight files" "$program" status --program tally --directory "$folder/nodes" --workers 4 "$folder"/0[0-7].store > "$work/whole"
timed "split of eight files" "$program" split --parts 64 --output "$work/p" "$folder"/0[0-7].store > "$work/counts"
export program folder work
seq 0 63 > "$work/numbers"
timed "status of 64 shards" xargs -a "$work/numbers" -P 4 -I{} sh -c '"$program" status --program tally --directory "$folder/nodes" --workers 1 --part {}/64 "$work/p.{}-of-64" > "$work/told.{}"'
sort -n "$work"/told.* | cmp - <(sort -n "$work/whole")
uptime
