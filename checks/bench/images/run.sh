#!/usr/bin/env bash
# run.sh [PROGRAM]: SHA-256 of 6,400,000 bytes by the proved machine for RV32IM, by qemu-riscv32 and natively, in turn, five times; user seconds.
# Without PROGRAM it builds checks/bench/images. It wants clang, lld and Debian's qemu-user.
set -eu
cd "$(dirname "$0")/../../riscv"
work=$(mktemp -d)
trap 'rm -rf "$work"' EXIT
program=${1:-}
if [ -z "$program" ]; then
  ../bench/build.sh "$work/build" images riscv anyhow hex sha2
  program=$work/build/images
fi
python3 - "$work" <<'PYTHON'
import subprocess, sys
sys.dont_write_bytecode = True
sys.path.insert(0, ".")
import run, words
work = sys.argv[1]
length = ["-DLENGTH=6400000"]
subprocess.run(["clang"] + run.FLAGS + length + ["-T", "c/image.ld", "-o", work + "/long.elf", "c/sha256.c"], check=True)
subprocess.run(["clang", "-O2"] + length + ["-o", work + "/long", "c/sha256.c"], check=True)
with open(work + "/long.elf", "rb") as elf, open(work + "/long.case", "wb") as case:
    case.write(run.Case(words.Program.of_elf(elf.read()).image(), words.SIZE).text())
PYTHON
export TIMEFORMAT=%U
for _ in 1 2 3 4 5; do
  echo "riscv $({ time "$program" "$work/long.case" > "$work/told"; } 2>&1)" \
    "qemu $({ time qemu-riscv32 "$work/long.elf" > /dev/null; } 2>&1)" \
    "native $({ time "$work/long" > /dev/null; } 2>&1)"
done
echo "$((2 ** 40 - $(cut -d' ' -f2 "$work/told"))) instructions"
