#!/usr/bin/env bash
# Measures the checking of 512 statements (H10, W8) by one worker, by two, four and eight, fifteen times in turn, and prints for each
# the least and the middle time, and the ratios of these to one worker's. Wants no other work on the machine.
set -eu
cd "$(dirname "$0")"
work=$(mktemp -d)
trap 'rm -rf "$work"' EXIT
../build.sh "$work" workers outcome sha256_lanes lms_sign log_chain authenticators replay_verifier ref_programs commitment item_forms evidence_item parallel_map parallel_checking
grep -m1 'model name' /proc/cpuinfo
echo "$(nproc) processors"
uptime
"$work/workers" > "$work/times"
if grep -v ': 512 items valid in' "$work/times"; then exit 1; fi
sort -k1,1n -k7,7n "$work/times" | awk '
  { t[$1, ++count[$1]] = $7 / 1000 }
  END {
    for (n = 1; n <= 8; n *= 2) {
      least = t[n, 1]; middle = t[n, int((count[n] + 1) / 2)]
      if (n == 1) { one = least; mid = middle }
      printf "%d workers: least %.1f ms, middle %.1f ms, ratios %.2f and %.2f\n", n, least, middle, least / one, middle / mid
    }
  }'
uptime
