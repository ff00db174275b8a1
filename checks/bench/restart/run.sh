#!/usr/bin/env bash
# run.sh [NODES]: measures the restart of a witness: a journal of 1,024 statements (H10, W4) a node (98: 100,352 statements) is opened by one
# worker, two, four and eight, five times in turn. All items are checked again. Prints for each the least and the middle time, and the memory
# at its greatest beside the journal's size. Wants gcc, libssl-dev, GNU time, and no other work on the machine.
set -eu
cd "$(dirname "$0")"
work=$(mktemp -d)
trap 'rm -rf "$work"' EXIT
mkdir "$work/made"
gcc -O3 -march=native -o "$work/make" ../files/make.c -lcrypto
"$work/make" "$work/made" "${1:-98}" 1
python3 journal_of.py "$work/made/nodes" "$work/made/00.store" "$work/made/journal"
../build.sh "$work" restart authenticators durable_store evidence indexed_store journal journal_file ref_programs
grep -m1 'model name' /proc/cpuinfo
echo "$(nproc) processors"
uptime
cd "$work/made"
for _ in 1 2 3 4 5; do
  for words in "1" "1 2" "1 2 3 4" "1 2 3 4 5 6 7 8"; do
    /usr/bin/time -f "%M KB" "$work/restart" $words 2>> "$work/memory" >> "$work/times"
  done
done
if grep -v ": $((1024 * ${1:-98})) items in" "$work/times"; then exit 1; fi
paste -d' ' "$work/times" "$work/memory" | sort -k1,1n -k6,6n | awk -v size="$(stat -c %s journal)" '
  { t[$1, ++count[$1]] = $6 / 1000; if ($8 > memory[$1]) memory[$1] = $8 }
  END {
    printf "the journal: %d bytes\n", size
    for (n = 1; n <= 8; n *= 2)
      printf "%d workers: least %.0f ms, middle %.0f ms, memory by the journal %.2f\n", n, t[n, 1], t[n, int((count[n] + 1) / 2)], memory[n] * 1024 / size
  }'
uptime
