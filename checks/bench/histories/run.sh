#!/usr/bin/env bash
# Measures appends to a history and segments cut from it, for growing counts.
set -eu
cd "$(dirname "$0")"
work=$(mktemp -d)
trap 'rm -rf "$work"' EXIT
../build.sh "$work" histories outcome log_chain
for round in 1 2 3; do
  "$work/histories"
done
