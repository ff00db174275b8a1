#!/bin/sh
# split.sh RUN K N: parts store N of RUN/stores into K shards. It may run twice, and anywhere: what it writes is a function of the store.
#
# RUN is a folder that all machines have under this name. Line N of RUN/stores, from 1 on, is the store's file. Its shard k goes to
# RUN/parts/k/N.k-of-K. RUN/counts/N comes last: for each shard it has a line `k/K ITEMS SUM`, where SUM is the part's SHA-256. So if it is there,
# all parts of the store are. RUN/how, if it is there, has `--extract`, so that quotes go in place of segments; RUN/nodes is the directory for it.
set -eu
run=$1 count=$2 number=$3
case $run in -*) run=./$run ;; esac
here=$(dirname -- "$0")
store=$(sed -n "${number}p" "$run/stores")
[ -n "$store" ] || { echo "split.sh: $run/stores has no line $number" >&2; exit 1; }
case $store in -*) store=./$store ;; esac
how=$(cat "$run/how" 2> /dev/null || true)
shift 3
case $how in *--extract*) set -- --directory "$run/nodes" ;; esac
own=$(mktemp -d "$run/parts/new.XXXXXX")
trap 'rm -rf "$own"' EXIT
"${BULWYNEF:-$here/../crates/bulwynef/out/bulwynef}" split --parts "$count" $how "$@" --output "$own/$number" "$store" > "$own/counts"
k=0
while [ "$k" -lt "$count" ]; do
    part=$own/$number.$k-of-$count
    echo "$(grep "^$k/$count " "$own/counts") $(sha256sum < "$part" | cut -c1-64)" >> "$own/sums"
    mkdir -p "$run/parts/$k"
    mv -f "$part" "$run/parts/$k/"
    k=$((k + 1))
done
mv -f "$own/sums" "$run/counts/$number"
