#!/usr/bin/env bash
# Measures the eight lanes beside their peers: a step of a chain of each, in one run, for both builds. It installs Debian's
# libssl-dev and libipsec-mb-dev, if they are missing. Where it may, it runs at real-time priority, on one processor.
set -eu
cd "$(dirname "$0")"
dpkg -s libssl-dev libipsec-mb-dev > /dev/null 2>&1 || apt-get install -y -qq libssl-dev libipsec-mb-dev > /dev/null
work=$(mktemp -d)
trap 'rm -rf "$work"' EXIT
alone=(taskset -c 0)
if chrt -r 5 true 2> /dev/null; then alone=(chrt -r 5 taskset -c 0); fi
cpus="x86-64-v2"
if grep -qw avx2 /proc/cpuinfo; then cpus="x86-64-v3 x86-64-v2"; fi
gcc -O2 -o "$work/peers" peers.c -l:libcrypto.a -lIPSec_MB -lpthread -ldl
CPUS=$cpus ../build.sh "$work" lane_steps outcome sha256_lanes lms_sign
grep -m1 'model name' /proc/cpuinfo
uptime
"${alone[@]}" "$work/peers"
for cpu in $cpus; do
  echo "eight_chains, $cpu: $("${alone[@]}" "$work/lane_steps-$cpu" | awk '{print $1 / 2040}' | sort -n | head -1) ns a step of a chain"
done
uptime
