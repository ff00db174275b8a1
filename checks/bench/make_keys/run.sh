#!/usr/bin/env bash
# Measures the making of keys beside C, in one run, for the default processor. Wants gcc and libssl-dev. ../run.sh measures both
# builds.
set -eu
cd "$(dirname "$0")"
work=$(mktemp -d)
trap 'rm -rf "$work"' EXIT
../build.sh "$work" make_keys outcome sha256_lanes lms_sign
gcc -O3 -march=native -o "$work/lms_make" ../lms_make.c -lcrypto
grep -m1 'model name' /proc/cpuinfo
for round in 1 2 3; do
  "$work/lms_make" 21
  for words in "" "high" "high wide"; do
    case $words in "") name="H5 W8" ;; high) name="H10 W4" ;; *) name="H10 W8" ;; esac
    "$work/make_keys" $words | sort -n | awk -v name="$name" '{ t[NR] = $1 } END { printf "make %s: least %.0f us, middle %.0f us\n", name, t[1] / 1000, t[int((NR + 1) / 2)] / 1000 }'
  done
done
