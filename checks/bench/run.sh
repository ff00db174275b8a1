#!/usr/bin/env bash
# Measures verification, `status`, making keys and signing beside C, in one run on one machine, for both builds: x86-64-v2, which
# is the default, and x86-64-v3, where the processor has AVX2. C runs with the processor's SHA instructions, where it has them,
# and without them. Wants gcc, clang, libssl-dev and GNU time. What takes long is the first proof of node_sim, where it was not
# proved here.
#
#   checks/bench/run.sh [ROUNDS]     three rounds by itself
set -eu
cd "$(dirname "$0")"
rounds=${1:-3}
work=$(mktemp -d)
trap 'rm -rf "$work"' EXIT
without=OPENSSL_ia32cap='~0x0:~0x20000000'
with=()
cpus="x86-64-v2"
# What is built last stays in out/, so the default comes last.
if grep -qw avx2 /proc/cpuinfo; then cpus="x86-64-v3 x86-64-v2"; fi
if grep -qw sha_ni /proc/cpuinfo; then with=(env -u OPENSSL_ia32cap); fi

gcc -O3 -march=native -o "$work/lms_verify" lms_verify.c -lcrypto
gcc -O3 -march=native -o "$work/lms_make" lms_make.c -lcrypto
python3 lines.py < status_512.txt > "$work/lms_512.txt"
python3 lines.py bytes < status_512.txt > "$work/lms_512.bin"
for cpu in $cpus; do
  clang -O2 -march="$cpu" -DN=4 -o "$work/lanes_4-$cpu" lanes.c
  clang -O2 -march="$cpu" -DN=8 -o "$work/lanes_8-$cpu" lanes.c
  clang -O2 -march="$cpu" -DN=8 -DTURNS -o "$work/turns_8-$cpu" lanes.c
  (cd ../../crates/node_sim && rt run --cpu="$cpu" -- status < ../../examples/status_equivocation.txt > /dev/null)
  cp ../../crates/node_sim/out/node_sim "$work/node_sim-$cpu"
done
CPUS=$cpus ./build.sh "$work" lane_steps outcome sha256_lanes lms_sign
CPUS=$cpus ./build.sh "$work" make_keys outcome sha256_lanes lms_sign
CPUS=$cpus ./build.sh "$work" signatures outcome sha256_lanes lms_sign
CPUS=$cpus ./build.sh "$work" verifications outcome sha256_lanes lms_sign
"$work/lms_make" 1 "$work/signed.txt" > /dev/null

# Lines of nanoseconds: the least and the middle, divided by a number, in the unit that it gives.
least_and_middle() {
  sort -n | awk -v by="$1" -v unit="$2" '{ t[NR] = $1 } END { printf "least %.1f %s, middle %.1f %s\n", t[1] / by, unit, t[int((NR + 1) / 2)] / by, unit }'
}

in_c() {
  "$@" "$work/lms_verify" 3 < "$work/lms_512.txt"
  "$@" "$work/lms_make" 21
}

ours() {
  cpu=$1
  "$work/lanes_4-$cpu"
  "$work/lanes_8-$cpu"
  echo "the same, four rounds a turn: $("$work/turns_8-$cpu")"
  echo "eight_chains, a lane-step: $("$work/lane_steps-$cpu" | least_and_middle 2040 ns)"
  python3 time_status.py "$work/node_sim-$cpu" status_512.txt
  echo "the 512 verifications alone: $("$work/verifications-$cpu" < "$work/lms_512.bin" | least_and_middle 1000000 ms)"
  echo "make H5 W8: $("$work/make_keys-$cpu" | least_and_middle 1000 us)"
  echo "make H10 W4: $("$work/make_keys-$cpu" high | least_and_middle 1000 us)"
  echo "make H10 W8: $("$work/make_keys-$cpu" high wide | least_and_middle 1000 us)"
  "$work/signatures-$cpu" > "$work/times"
  echo "sign H5 W8: $(awk '$1 == "sign" { print $2 }' "$work/times" | least_and_middle 1000 us)"
  echo "verify H5 W8: $(awk '$1 == "verify" { print $2 }' "$work/times" | least_and_middle 1000 us)"
}

grep -m1 'model name' /proc/cpuinfo
uptime
echo "signatures made in C, verified in C:"
"$work/lms_verify" 1 < "$work/signed.txt"
for round in $(seq "$rounds"); do
  echo "== round $round"
  if [ ${#with[@]} != 0 ]; then
    echo "-- C with SHA instructions"
    in_c "${with[@]}"
  fi
  echo "-- C without SHA instructions"
  in_c env "$without"
  for cpu in $cpus; do
    echo "-- Bulwynef for $cpu"
    ours "$cpu"
  done
done
uptime
