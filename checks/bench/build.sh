#!/usr/bin/env bash
# build.sh FOLDER NAME CRATE..: builds the program of NAME/main.txt, and of the texts beside it, as FOLDER/NAME. It is no crate of
# the repository: it is proved and built in FOLDER, over copies of the crates that it stands on. Several programs can share a
# folder. TEXTS names texts of other programs that it has too, as takes/clocks.txt. With words in CPUS, as x86-64-v2 x86-64-v3, it
# builds one program for each of these processors, as FOLDER/NAME-CPU.
set -eu
work=$1
name=$2
shift 2
cd "$(dirname "$0")"
mkdir -p "$work/crates/$name/src" "$work/crates/$name/specs"
# The crates of the repository among some words, and what they stand on.
with_below() {
  for crate in "$@"; do
    [ -e "../../crates/$crate" ] || continue
    echo "$crate"
    sed -n "s/^$crate: *//p" ../../crates.txt | tr ' ' '\n'
  done | sort -u | tr '\n' ' '
}
all="$*"
while more=$(with_below $all) && [ "$more" != "$all" ]; do all=$more; done
for crate in $all; do
  [ -e "../../crates/$crate" ] || continue
  [ -e "$work/crates/$crate" ] && continue
  mkdir "$work/crates/$crate"
  find "../../crates/$crate" -mindepth 1 -maxdepth 1 ! -name out -exec cp -r -t "$work/crates/$crate" {} +
  grep "^$crate:" ../../crates.txt >> "$work/crates.txt"
done
echo "$name: $*" >> "$work/crates.txt"
for text in "$name"/*.txt ${TEXTS:-}; do
  cp "$text" "$work/crates/$name/src/$(basename "$text" .txt).rt"
done
touch "$work/crates/$name/specs/Lib.antt"
cd "$work"
git init -q .
cd "crates/$name"
if [ -z "${CPUS:-}" ]; then
  rt run > /dev/null
  cp "out/$name" "$work/$name"
fi
for cpu in ${CPUS:-}; do
  rt run --cpu="$cpu" > /dev/null
  cp "out/$name" "$work/$name-$cpu"
done
