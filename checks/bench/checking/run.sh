#!/usr/bin/env bash
# Measures the checking of segments, half of whose entries are RECV, beside their signatures and their chain of hashes alone.
set -eu
cd "$(dirname "$0")"
work=$(mktemp -d)
trap 'rm -rf "$work"' EXIT
../build.sh "$work" checking outcome sha256_lanes lms_sign log_chain authenticators replay_verifier ref_programs commitment item_forms evidence_item
for round in 1 2 3; do
  "$work/checking"
done
