#!/usr/bin/env bash
# Measures stores of 12,000 and of 24,000 statements of one node (H5, W8) beside verifying them, and the memory of a store that
# imported them. Wants GNU time (Debian's package time).
set -eu
cd "$(dirname "$0")"
work=$(mktemp -d)
trap 'rm -rf "$work"' EXIT
../build.sh "$work" stores outcome sha256_lanes lms_sign log_chain authenticators replay_verifier ref_programs commitment item_forms item_digests evidence_item proofs containers evidence_set evidence accuracy kept_evidence plain_store tiered_vec kept_entries kept_items node_tables indexed_store evidence_store
"$work/stores" make half > "$work/12000"
"$work/stores" make > "$work/24000"
grep -m1 'model name' /proc/cpuinfo
for round in 1 2 3; do
  for size in 12000 24000; do
    "$work/stores" measure "$work/$size"
    /usr/bin/time -f "%M KB at most, for a text of $(($(stat -c %s "$work/$size") / 1024)) KB" "$work/stores" import "$work/$size"
  done
done
