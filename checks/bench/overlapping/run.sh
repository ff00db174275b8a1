#!/usr/bin/env bash
# Measures the memory of the two stores on a hundred segments of one log that overlap by nine tenths.
set -eu
cd "$(dirname "$0")"
work=$(mktemp -d)
trap 'rm -rf "$work"' EXIT
../build.sh "$work" overlapping outcome sha256_lanes lms_sign log_chain authenticators replay_verifier ref_programs commitment item_forms item_digests evidence_item proofs containers evidence_set evidence accuracy kept_evidence plain_store tiered_vec kept_entries kept_items node_tables indexed_store evidence_store
for kind in plain indexed; do
  echo "$kind: $("$work/overlapping" "$kind")"
  echo "$kind, CHECKPOINT entries of eight bytes alone: $("$work/overlapping" "$kind" small)"
done
