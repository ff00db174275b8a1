#!/usr/bin/env bash
# Measures the two stores side by side, on up to 100,000 statements of one node (H5, W8): takes in a mixed order, indications, merges,
# open challenges, imports beside their verifications, and memory.
set -eu
cd "$(dirname "$0")"
work=$(mktemp -d)
trap 'rm -rf "$work"' EXIT
../build.sh "$work" takes outcome sha256_lanes lms_sign log_chain authenticators replay_verifier ref_programs commitment item_forms item_digests evidence_item proofs containers evidence_set evidence accuracy kept_evidence plain_store tiered_vec kept_entries kept_items node_tables indexed_store evidence_store
"$work/takes" make 24000 > "$work/24000"
"$work/takes" make 100000 > "$work/100000"
grep -m1 'model name' /proc/cpuinfo
for kind in plain indexed; do
  echo "$kind, taken one by one: $("$work/takes" memory "$kind")"
  echo "$kind, imported: $("$work/takes" import "$kind" "$work/24000")"
done
"$work/takes" measure "$work/100000"
