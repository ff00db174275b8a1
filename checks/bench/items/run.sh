#!/usr/bin/env bash
# Measures the writing, the reading and the comparing of an item: a segment of 4,096 entries, for growing contents.
set -eu
cd "$(dirname "$0")"
work=$(mktemp -d)
trap 'rm -rf "$work"' EXIT
../build.sh "$work" items outcome sha256_lanes lms_sign log_chain authenticators replay_verifier ref_programs commitment item_forms evidence_item
for round in 1 2 3; do
  "$work/items"
done
