#!/usr/bin/env bash
# Measures verifying signatures one by one and all at once, in turn, for both builds. Of each call and type it prints the least time of a
# signature, over so many runs of 20 rounds.
#
#   checks/bench/many_signatures/run.sh [RUNS]     three runs by itself
set -eu
cd "$(dirname "$0")"
runs=${1:-3}
work=$(mktemp -d)
trap 'rm -rf "$work"' EXIT
cpus="x86-64-v2"
if grep -qw avx2 /proc/cpuinfo; then cpus="x86-64-v3 x86-64-v2"; fi
CPUS=$cpus ../build.sh "$work" many_signatures outcome sha256_lanes lms_sign
grep -m1 'model name' /proc/cpuinfo
for cpu in $cpus; do
  for _ in $(seq "$runs"); do "$work/many_signatures-$cpu"; done | awk -v cpu="$cpu" '
    { name = $2 " " $1; if (!(name in least) || $3 < least[name]) least[name] = $3 }
    END { for (name in least) printf "%s %s: %.1f us\n", cpu, name, least[name] / 32000 }' | sort
done
