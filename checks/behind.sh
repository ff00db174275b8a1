#!/usr/bin/env bash
# behind.sh: all of the gate that wants builds, over what `rt ci` left. What takes one processor runs in three rows, of which the first
# makes the static library if nobody has made it yet; what measures time or starts a network runs alone, behind them. All of it runs, whatever
# fails; then what failed is told, and it ends with 1.
set -u
cd "$(dirname "$0")/.."
room=$(mktemp -d)
trap 'rm -rf "$room"' EXIT

# Runs the commands in turn. Each counts as failed until it has ended well, so that what a killed row left out is told too.
in_turn() {
    for command in "$@"; do
        echo "$command" > "$room/failed.${command//[ \/]/_}"
    done
    for command in "$@"; do
        echo "== $command"
        $command && rm "$room/failed.${command//[ \/]/_}"
    done
}

# Whether the builds are those of docs/builds.txt. 4: that file is of another text or kit, so that nothing is compared.
sums() {
    second_opinion/sums.py compare || [ $? = 4 ]
}

builds="crates/bulwynef/out/bulwynef crates/bulwynef/out/bulwynef.by-rattle"
in_turn "c/library.py --left" > "$room/1" 2>&1 &
in_turn "checks/operating/run.py" "checks/growths/run.py" "checks/calls/run.py" > "$room/2" 2>&1 &
in_turn "checks/judge/run.py" "checks/whole_program/run.py" "checks/operating/shards.py" "checks/explained/run.py" "second_opinion/forms.py $builds" \
    "checks/reference/formats.py $builds" > "$room/3" 2>&1 &
wait
cat "$room"/[123]
in_turn "c/run.py --sanitize" "python/run.py" "checks/more-edits/turn.py" sums
if compgen -G "$room/failed.*" > "$room/left"; then
    echo "behind.sh: failed: $(xargs cat < "$room/left" | paste -sd,)"
    exit 1
fi
