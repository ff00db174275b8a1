#!/bin/sh
# status.sh RUN K k --program NAME [WORDS..]: asks shard k of K, and writes the lines of its nodes to RUN/told/k. It may run twice, and anywhere.
#
# RUN/nodes is the directory; the words behind k go to `bulwynef status`. Before anything is asked, each store's shard k must be there, and its items
# and its SHA-256 must be those that split.sh noted: a part that is lost, changed or of another K ends the task with 1.
set -eu
run=$1 count=$2 k=$3
shift 3
case $run in -*) run=./$run ;; esac
here=$(dirname -- "$0")
lost() { echo "status.sh: $1" >&2; exit 1; }
stores=$(sed -n '$=' "$run/stores")
number=0
while [ "$number" -lt "$stores" ]; do
    number=$((number + 1))
    part=$run/parts/$k/$number.$k-of-$count
    [ -f "$run/counts/$number" ] || lost "store $number was not split"
    noted=$(sed -n "s,^$k/$count ,,p" "$run/counts/$number")
    wanted=${noted%% *} sum=${noted#* }
    [ -n "$noted" ] || lost "store $number was not split into $count"
    [ -f "$part" ] || lost "$part is lost"
    found=$(od -An -j8 -N8 -tu8 --endian=big "$part" | tr -d ' ')
    [ "$found" = "$wanted" ] || lost "$part has $found items and not $wanted"
    [ "$(sha256sum < "$part" | cut -c1-64)" = "$sum" ] || lost "$part is not what split.sh wrote: it has another SHA-256"
    set -- "$@" "$part"
done
own=$(mktemp "$run/told/new.XXXXXX")
trap 'rm -f "$own"' EXIT
"${BULWYNEF:-$here/../crates/bulwynef/out/bulwynef}" status --part "$k/$count" --directory "$run/nodes" "$@" > "$own" || [ $? = 3 ]
mv -f "$own" "$run/told/$k"
