#!/usr/bin/env python3
# Plays each script of crates/probe/data twice, by both builds of `probe`: as it is, and with each growth of memory of each call refused in turn
# (refuse.c). Then it plays the scripts of wrong.txt, of which each must end as that file says.
#
# A script has its answers, so nothing is stored that could be made anew. least.txt has for each script how many answers are compared, and how
# many growths are refused, at the least. Fewer is a fault, as it would be if a script were cut short, or if a compiler dropped the growths that
# arm refuse.c. Wants gcc.
import os
import re
import subprocess
import sys
import tempfile
from concurrent.futures import ThreadPoolExecutor

TOP = os.path.dirname(os.path.dirname(os.path.dirname(os.path.abspath(__file__))))
sys.path.append(os.path.join(TOP, "checks"))
sys.dont_write_bytecode = True

from builds import builds_of

DATA = os.path.join(TOP, "crates", "probe", "data")
HERE = os.path.join(TOP, "checks", "calls")
TOLD = re.compile(r"(\S+): (\d+) calls, (\d+) answers, (\d+) growths refused\n")
SECONDS = 600
JOBS = 4


def play(program, words, folder, preload=None):
    """The status of the program, and what it writes."""
    env = {"LD_PRELOAD": preload} if preload else {}
    done = subprocess.run([program, *words], cwd=folder, env=env, stdout=subprocess.PIPE, stderr=subprocess.STDOUT, timeout=SECONDS, text=True)
    return done.returncode, done.stdout


def counts_of(program, words, preload=None):
    """How many calls were made, how many answers compared, and how many growths refused. Where the script does not go to its end, what is told."""
    status, text = play(program, words, DATA, preload)
    told = TOLD.fullmatch(text)
    return [int(number) for number in told.groups()[1:]] if status == 0 and told else f"status {status}: {text}"


def faults_of_script(program, library, name, least):
    """What is wrong with the script, and what is told of it."""
    plain, refused = counts_of(program, [name]), counts_of(program, ["growths", name], library)
    if isinstance(plain, str) or isinstance(refused, str):
        return [f"{name}: {counts}" for counts in (plain, refused) if isinstance(counts, str)], ""
    told = f"{name}: {refused[0]} calls, {refused[1]} answers, {refused[2]} growths refused"
    if plain[:2] != refused[:2] or plain[2] != 0:
        return [f"{name}: {plain} calls, answers and growths, and {refused} with growths refused"], told
    if refused[1] < least[0] or refused[2] < least[1]:
        return [f"{name}: fewer than {least} answers and growths"], told
    return [], told


def wrong_scripts():
    """The scripts of wrong.txt: the comment of each, its text, and what the program must tell behind the file's name."""
    with open(os.path.join(HERE, "wrong.txt"), encoding="utf-8") as file:
        blocks = file.read().split("\n\n")
    for block in blocks[1:]:
        title, *lines = block.rstrip("\n").split("\n")
        script = "".join(line[2:] + "\n" for line in lines if line.startswith("> "))
        yield title, script, "".join(line + "\n" for line in lines if not line.startswith("> "))


def faults_of_wrong(program, library, folder):
    """Which wrong scripts end otherwise than wrong.txt says, with growths refused and without."""
    faults = []
    for title, script, told in wrong_scripts():
        with open(os.path.join(folder, "x"), "w", encoding="utf-8") as file:
            file.write(script)
        for words, preload in ((["x"], None), (["growths", "x"], library)):
            status, text = play(program, words, folder, preload)
            if (status, text) != (1, "x, " + told):
                faults.append(f"wrong.txt, {title}: status {status}\n{text}where this is wanted:\nx, {told}")
    return faults


def least_counts():
    with open(os.path.join(HERE, "least.txt"), encoding="utf-8") as file:
        return {name: (int(answers), int(growths)) for name, answers, growths in map(str.split, file)}


def faults_of(program, library, folder, least):
    """What is wrong with a build."""
    print(f"{os.path.relpath(program, TOP)}:")
    names = sorted(os.listdir(DATA))
    if names != sorted(least):
        return [f"least.txt has other scripts than {os.path.relpath(DATA, TOP)}"]
    with ThreadPoolExecutor(JOBS) as pool:
        played = list(pool.map(lambda name: faults_of_script(program, library, name, least[name]), names))
    print("\n".join(told for _, told in played if told))
    wrong = faults_of_wrong(program, library, folder)
    print(f"{sum(1 for _ in wrong_scripts())} wrong scripts, {len(wrong)} end otherwise")
    return [fault for faults, _ in played for fault in faults] + wrong


def main():
    with tempfile.TemporaryDirectory() as folder:
        library = os.path.join(folder, "refuse.so")
        subprocess.run(["gcc", "-O2", "-shared", "-fPIC", "-o", library, os.path.join(HERE, "refuse.c"), "-ldl"], check=True)
        faults = [fault for program in builds_of("probe") for fault in faults_of(program, library, folder, least_counts())]
    print("\n".join(faults) or "all scripts go as they say")
    sys.exit(1 if faults else 0)


if __name__ == "__main__":
    main()
