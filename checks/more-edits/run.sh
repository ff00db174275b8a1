#!/usr/bin/env bash
# Tries the edits of crates/NAME/more-edits/, which the prover must refuse as it refuses those of must-fail/, of the crates that are
# named or of all. It works on a clone of the last commit, so a run does not meet other checks. To be run whenever the contracts of
# a crate change; the gate tries some at a time, by turn.py.
#
#   checks/more-edits/run.sh [NAME..]
set -eu
cd "$(dirname "$0")/../.."
work=$(mktemp -d)
trap 'rm -rf "$work"' EXIT
git clone -q . "$work/clone"
cd "$work/clone"
names=("$@")
if [ ${#names[@]} = 0 ]; then
  for folder in crates/*/more-edits; do
    names+=("$(basename "$(dirname "$folder")")")
  done
fi
faults=0
for name in "${names[@]}"; do
  rm -rf "crates/$name/must-fail"
  mv "crates/$name/more-edits" "crates/$name/must-fail"
  rt must-fail "$name" || faults=$((faults + 1))
done
[ "$faults" = 0 ]
