#!/usr/bin/env bash
# Measures inserts in mixed order into a list in tiers beside a Vec.
set -eu
cd "$(dirname "$0")"
work=$(mktemp -d)
trap 'rm -rf "$work"' EXIT
../build.sh "$work" tiers outcome tiered_vec
grep -m1 'model name' /proc/cpuinfo
for round in 1 2 3; do
  "$work/tiers"
done
