#!/usr/bin/env python3
"""run.py [--runner PROGRAM] [--words N] [--streams N] [--wild N] [--seed S]: runs code of RV32IM by the proved crate `riscv`, by second_opinion/riscv.py and,
if it ends by `ecall`, by qemu-riscv32, and reports where they differ. It tries

- each instruction on edge values;
- which words are instructions, beside LLVM's disassembler: N words (--words, 5000 if it is not said);
- the programs of c/, compiled by clang, also natively;
- N runs of random words, with few units of fuel and little memory: all that may trap (--wild, 1000 if it is not said), without qemu;
- N random streams of instructions, a hundred in each run (--streams, 1000 if it is not said).

Without --runner it builds checks/bench/images, which proves the crate. It installs Debian's packages if they are missing: qemu-user, clang, lld
and llvm.
"""
import argparse
import hashlib
import os
import random
import re
import shutil
import struct
import subprocess
import sys
import tempfile

HERE = os.path.dirname(os.path.abspath(__file__))
sys.path.insert(0, os.path.join(HERE, "..", "..", "second_opinion"))
import riscv  # noqa: E402
from words import SIZE, Program, edge_program, near_word, stream_program, wild_case  # noqa: E402

PACKAGES = {"qemu-riscv32": "qemu-user", "clang": "clang", "ld.lld": "lld", "llvm-mc": "llvm"}
FLAGS = ("--target=riscv32-unknown-elf -march=rv32im -mabi=ilp32 -O2 -ffreestanding -fno-builtin -nostdlib -fuse-ld=lld -mno-relax -fno-pic"
         " -Wall -Wextra -Werror").split()
MUCH = 1 << 40  # fuel for what ends by itself
STOPS = {riscv.AT: "At(%s)", riscv.ENDED: "Ended", riscv.TRAPPED: "Trapped { trap: %s, pc: %s }"}


def install():
    missing = sorted(package for command, package in PACKAGES.items() if not shutil.which(command))
    if missing:
        become = [] if os.geteuid() == 0 else ["sudo"]
        subprocess.run(become + ["apt-get", "update"], check=True, stdout=subprocess.DEVNULL)
        subprocess.run(become + ["apt-get", "install", "-y"] + missing, check=True, stdout=subprocess.DEVNULL)


def build(work):
    script = os.path.join(HERE, "..", "bench", "build.sh")
    subprocess.run([script, work, "images", "riscv", "anyhow", "hex", "sha2"], check=True)
    return os.path.join(work, "images")


def named_words(words):
    """Those of the words that LLVM's disassembler has a name for."""
    # a nop behind each word, so that the next one is read from its beginning
    text = "\n0x13 0x00 0x00 0x00\n".join(" ".join("0x%02x" % byte for byte in struct.pack("<I", word)) for word in words)
    done = subprocess.run(["llvm-mc", "--disassemble", "--show-encoding", "-triple=riscv32", "-mattr=+m"], input=text, capture_output=True, text=True)
    found = re.findall(r"encoding: \[([^\]]*)\]", done.stdout)
    return {int.from_bytes(bytes(int(byte, 16) for byte in bytes_.split(",")), "little") for bytes_ in found}


def is_instruction(word, named):
    """Whether the word is one of RV32IM, if LLVM has a name for it or not. LLVM names more: shifts by 32 and more, `fence.i`, and the
    instructions of control and status. It leaves out each `fence` whose ignored fields are not 0."""
    if word & 0x7f == 0x73:
        return word in (0x00000073, 0x00100073)
    if word & 0x7f == 0x0f:
        return word & 0x7000 == 0
    if word & 0x7f == 0x13 and word & 0x3000 == 0x1000 and word & 1 << 25:
        return False
    return named


class Case:
    """What is run: an image from place 0 on, in a memory of this size."""

    def __init__(self, image, size, pc=0, fuel=MUCH, registers=None):
        self.image, self.size, self.pc, self.fuel, self.registers = image, size, pc, fuel, registers or [0] * 32

    def text(self):
        return struct.pack("<IIIQ32I", len(self.image), self.size, self.pc, self.fuel, *self.registers) + self.image

    def modelled(self):
        """The line that the proved program is to write."""
        x, memory = list(self.registers), bytearray(self.image.ljust(self.size, b"\0")[:self.size])
        told, left = riscv.run(self.image, self.pc, self.fuel, x, memory)
        window = memory[x[11]:x[11] + x[12]] if told[0] == riscv.ENDED and x[11] + x[12] <= len(memory) else b""
        total = hashlib.sha256(struct.pack("<32I", *x) + memory).hexdigest()
        return "%s %d %s %s" % (STOPS[told[0]] % told[1:], left, total, window.hex())


class Trial:
    def __init__(self, runner, work):
        self.runner, self.work, self.wrong, self.instructions = runner, work, 0, 0

    def proved(self, cases):
        path = os.path.join(self.work, "cases")
        with open(path, "wb") as file:
            for case in cases:
                file.write(case.text())
        done = subprocess.run([self.runner, path], capture_output=True, text=True, check=True)
        return done.stdout.split("\n")[:-1]

    def differ(self, what, *answers):
        self.wrong += 1
        if self.wrong <= 10:
            print("DIFFERS:", what, *("\n    " + str(answer)[:400] for answer in answers))

    def compare(self, what, cases, told=None):
        """Compares the proved crate and the model on these cases, and the bytes that a run tells with those of `told`."""
        lines = self.proved(cases)
        if len(lines) != len(cases):
            self.differ(what, "%d lines for %d cases" % (len(lines), len(cases)))
        for n, (case, line) in enumerate(zip(cases, lines)):
            self.instructions += case.fuel - int(line.rsplit(" ", 3)[1])
            modelled = case.modelled()
            if modelled != line:
                self.differ("%s, case %d" % (what, n), line, modelled)
            if told and (line[:5] != "Ended" or bytes.fromhex(line.rsplit(" ", 1)[1]) != told[n] or not told[n]):
                self.differ("%s, case %d, qemu" % (what, n), line, told[n].hex())
        return lines

    def qemu(self, program):
        path = os.path.join(self.work, "program.elf")
        with open(path, "wb") as file:
            file.write(program.elf())
        os.chmod(path, 0o755)
        return subprocess.run(["qemu-riscv32", path], capture_output=True, timeout=60).stdout

    def programs(self, what, programs, count):
        before = self.instructions
        for program in programs:
            self.compare(what, [Case(program.image(), SIZE)], [self.qemu(program)])
        print("%s: %d, %d instructions, %d differ so far" % (what, count, self.instructions - before, self.wrong), flush=True)

    def wild(self, seed, count):
        before, kinds = self.instructions, {}
        for start in range(0, count, 500):
            drawn = [Case(*wild_case(random.Random("wild %d %d" % (seed, n)))) for n in range(start, min(start + 500, count))]
            for line in self.compare("wild", drawn):
                kind = line.replace("Trapped { trap: ", "").split("(")[0].split(",")[0].split(" ")[0]
                kinds[kind] = kinds.get(kind, 0) + 1
        print("wild runs: %d, %d instructions, %d differ so far; %s" % (
            count, self.instructions - before, self.wrong, ", ".join("%s %d" % pair for pair in sorted(kinds.items()))), flush=True)

    def words(self, seed, count):
        r = random.Random("words %d" % seed)
        words = sorted({near_word(r) for _ in range(count)})
        lines = self.proved([Case(struct.pack("<I", word), 0, fuel=1) for word in words])
        named, legal = named_words(words), 0
        for word, line in zip(words, lines):
            is_legal = "IllegalInstruction" not in line
            legal += is_legal
            if is_legal != is_instruction(word, word in named):
                self.differ("the word 0x%08x" % word, line, word in named)
        print("words: %d, %d of them instructions, %d differ so far" % (len(words), legal, self.wrong), flush=True)

    def compiled(self, name):
        elf, native = (os.path.join(self.work, name + end) for end in (".elf", ".native"))
        source = os.path.join(HERE, "c", name + ".c")
        subprocess.run(["clang"] + FLAGS + ["-T", os.path.join(HERE, "c", "image.ld"), "-o", elf, source], check=True)
        subprocess.run(["clang", "-O2", "-o", native, source], check=True)
        told = [subprocess.run(words, capture_output=True).stdout for words in (["qemu-riscv32", elf], [native])]
        if told[0] != told[1]:
            self.differ(name + ", native", told[0].hex(), told[1].hex())
        if name == "sha256":
            texts = b"", b"abc", bytes(7 * n % 256 for n in range(10000))
            if told[0] != b"".join(hashlib.sha256(text).digest() for text in texts):
                self.differ(name + ", hashlib", told[0].hex())
        before = self.instructions
        with open(elf, "rb") as file:
            program = Program.of_elf(file.read())
        self.compare(name, [Case(program.image(), SIZE)], told[:1])
        print("%s: %d instructions, %d differ so far" % (name, self.instructions - before, self.wrong), flush=True)


def main():
    parser = argparse.ArgumentParser()
    parser.add_argument("--runner")
    parser.add_argument("--words", type=int, default=5000)
    parser.add_argument("--streams", type=int, default=1000)
    parser.add_argument("--wild", type=int, default=1000)
    parser.add_argument("--seed", type=int, default=1)
    words = parser.parse_args()
    install()
    with tempfile.TemporaryDirectory() as work:
        trial = Trial(words.runner or build(work), work)
        trial.programs("edges", [edge_program()], 1)
        trial.words(words.seed, words.words)
        for name in "sha256", "sort", "map":
            trial.compiled(name)
        trial.wild(words.seed, words.wild)
        batches = (stream_program(random.Random("stream %d %d" % (words.seed, n)), 100) for n in range((words.streams + 99) // 100))
        trial.programs("streams", batches, (words.streams + 99) // 100 * 100)
        print("%d instructions, %d differ" % (trial.instructions, trial.wrong))
        return 1 if trial.wrong else 0


if __name__ == "__main__":
    sys.exit(main())
