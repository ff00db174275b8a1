#!/usr/bin/env bash
# Measures the replay of logs: half of the entries RECV, beside the verification of their signatures alone; and of logs of TIMER
# and SEND entries, for growing counts.
set -eu
cd "$(dirname "$0")"
work=$(mktemp -d)
trap 'rm -rf "$work"' EXIT
../build.sh "$work" replay outcome sha256_lanes lms_sign log_chain authenticators replay_verifier ref_programs
for round in 1 2 3; do
  "$work/replay"
done
