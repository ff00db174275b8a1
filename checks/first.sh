#!/usr/bin/env bash
# first.sh: all of the gate that wants no build, which takes a minute or two. `.ci/run` begins with it, so that a false page, an edit that does not
# apply, or names that the prover would refuse are told at once, and not behind hours. It runs all, and ends with 1 where one failed.
set -u
cd "$(dirname "$0")/.."
export PYTHONDONTWRITEBYTECODE=1
failed=()
for script in checks/reference/*.py second_opinion/compare.py; do
    "$script" || failed+=("$script")
done
if [ ${#failed[@]} -gt 0 ]; then
    echo "first.sh: failed: ${failed[*]}"
    exit 1
fi
