#!/usr/bin/env bash
# Measures what a store takes of what a stranger, or a long life, feeds it: of each kind so much, and twice as much. The plain store
# stands beside where it ends in time.
set -eu
cd "$(dirname "$0")"
work=$(mktemp -d)
trap 'rm -rf "$work"' EXIT
TEXTS=takes/clocks.txt ../build.sh "$work" hostile_store outcome sha256_lanes lms_sign log_chain authenticators replay_verifier ref_programs commitment item_forms item_digests evidence_item proofs containers evidence_set evidence accuracy kept_evidence plain_store tiered_vec kept_entries kept_items node_tables indexed_store evidence_store transfer
grep -m1 'model name' /proc/cpuinfo
uptime

# The kind, and the greatest count, of which a quarter, a half and all are measured.
measure() {
  for count in $(($2 / 4)) $(($2 / 2)) "$2"; do
    echo "indexed: $("$work/hostile_store" "$1" "$count" indexed)"
  done
  echo "plain: $(timeout 300 "$work/hostile_store" "$1" $(($2 / 16)) plain || echo "$1 $(($2 / 16)): not in 300 s")"
}

for kind in ascending falling mixed; do measure "$kind" 1000000; done
measure tip 20000
measure before 20000
measure within 20000
measure audits 50000
measure pairs 50000
measure messages 20000
measure closing 40000
measure late 40000
measure sinking 40000
measure early 40000
measure alternating 20000
measure ending 20000
measure exposing 20000
measure turning 20000
measure growing 20000
measure checkpoints 800
measure timers 800
for count in 50000 100000 200000; do "$work/hostile_store" whole "$count"; done
uptime
