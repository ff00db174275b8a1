#!/usr/bin/env bash
# Measures the reading of 24,576 statements (H10, W4) by `read_all` and by one worker, two, four and eight, five times in turn, and prints
# for each the least and the middle time, and how many times as long `read_all` takes. Wants gcc, libssl-dev, and no other work on the machine.
set -eu
cd "$(dirname "$0")"
work=$(mktemp -d)
trap 'rm -rf "$work"' EXIT
mkdir "$work/made"
gcc -O3 -march=native -o "$work/make" ../files/make.c -lcrypto
"$work/make" "$work/made" 24 1
../build.sh "$work" reading outcome sha256_lanes lms_sign log_chain authenticators replay_verifier ref_programs commitment item_forms evidence_item proofs containers evidence_set item_digests evidence parallel_map parallel_checking parallel_reading
grep -m1 'model name' /proc/cpuinfo
echo "$(nproc) processors"
uptime
cd "$work/made"
"$work/reading" > "$work/times"
if grep -v ': 24576 items in' "$work/times"; then exit 1; fi
sort -k1,1n -k6,6n "$work/times" | awk '
  { t[$1, ++count[$1]] = $6 / 1000 }
  END {
    for (n = 0; n <= 8; n = n ? 2 * n : 1) {
      least = t[n, 1]; middle = t[n, int((count[n] + 1) / 2)]
      if (n == 0) { one = least; mid = middle }
      printf "%s: least %.0f ms, middle %.0f ms, read_all takes %.2f and %.2f times as long\n", n ? n " workers" : "read_all", least, middle, one / least, mid / middle
    }
  }'
uptime
