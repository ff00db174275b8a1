#!/usr/bin/env python3
"""Runs `bulwynef` in a real terminal, and holds the line that tells how far it is.

    checks/operating/terminal.py [PROGRAM]

The line comes once more than two seconds have passed, and changes at most twice a second; its items rise and its megabytes fall; it is gone
when the answer stands there. Where standard error is no terminal there is no line, nor where the program takes less than two seconds.
Ctrl-C ends the program, and leaves no file.

Wants crates/bulwynef/out/bulwynef, or another PROGRAM, gcc and libssl-dev. Debian's `tmux` is installed where it is not there.
"""

import os
import re
import shutil
import subprocess
import sys
import tempfile
import time

TOP = os.path.dirname(os.path.dirname(os.path.dirname(os.path.abspath(__file__))))
PROGRAM = f"{TOP}/crates/bulwynef/out/bulwynef"
LINE = re.compile(r"(\S+): (\d+) items read, (\d+\.\d) MB/s, (\d+\.\d) MB left")
# So long the reading is to take, at the least, so that there are lines enough.
SECONDS = 8

failed = []


def hold(what, is_so, found=""):
    if not is_so:
        failed.append(what)
        print(f"FAILED {what}: {found}")


def make_stores(program, folder):
    """Two stores, of as many nodes as take one worker some seconds."""
    make = f"{folder}/make"
    source = f"{TOP}/checks/bench/files/make.c"
    subprocess.run(["gcc", "-O3", "-march=native", "-o", make, source, "-lcrypto"], check=True)
    nodes = 4
    while True:
        subprocess.run([make, folder, str(nodes), "2"], check=True)
        begun = time.monotonic()
        subprocess.run([program, *words_of("status", folder)], stdout=subprocess.DEVNULL, check=True)
        if time.monotonic() - begun >= SECONDS:
            return
        nodes *= 2


def words_of(command, folder, *more):
    return [command, "--program", "tally", "--directory", f"{folder}/nodes", "--workers", "1", *more, f"{folder}/00.store", f"{folder}/01.store"]


class Terminal:
    """A terminal of 90 columns with a shell in it."""

    def __init__(self):
        self.name = f"bulwynef-{os.getpid()}-{time.monotonic_ns()}"

    def tmux(self, *words):
        return subprocess.run(["tmux", "-L", self.name, *words], check=True, capture_output=True, text=True).stdout

    def __enter__(self):
        self.tmux("new-session", "-d", "-x", "90", "-y", "30", "env PS1='$ ' sh")
        return self

    def __exit__(self, *_):
        self.tmux("kill-server")

    def say(self, line):
        self.tmux("send-keys", "-l", line)
        self.tmux("send-keys", "Enter")

    def screen(self):
        return self.tmux("capture-pane", "-p")

    def watch(self, seconds, until):
        """The lines that are seen, each with the time at which it came, until the screen has what is waited for."""
        begun, seen = time.monotonic(), []
        while time.monotonic() - begun < seconds:
            screen = self.screen()
            line = LINE.search(screen)
            if line and (not seen or seen[-1][1] != line.groups()):
                seen.append((time.monotonic() - begun, line.groups()))
            if until(screen, seen):
                return seen, screen
            time.sleep(0.05)
        return seen, self.screen()


def ended(screen, _seen):
    return re.search(r"^ended with \d+$", screen, re.M)


def prompted(screen, _seen):
    return screen.rstrip().endswith("\n$")


def shell_words(program, words):
    return " ".join([program, *words])


def hold_line(program, folder):
    wanted = subprocess.run([program, *words_of("status", folder)], stdout=subprocess.PIPE, check=True, text=True).stdout
    with Terminal() as terminal:
        terminal.say(f"clear; {shell_words(program, words_of('status', folder))} | tail -n 3; echo ended with $?")
        seen, screen = terminal.watch(600, ended)
    hold("there are lines of both stores", {told[0] for _, told in seen} == {"00.store", "01.store"}, seen)
    hold("nothing is shown for two seconds", seen and seen[0][0] > 1.8, seen[:1])
    hold("at most two lines a second", all(later[0] - sooner[0] > 0.4 for sooner, later in zip(seen, seen[1:])), seen)
    for store in ("00.store", "01.store"):
        own = [told for _, told in seen if told[0] == store]
        items, left = [int(told[1]) for told in own], [float(told[3]) for told in own]
        hold(f"the items of {store} rise", items == sorted(set(items)), items)
        hold(f"the megabytes of {store} fall", left == sorted(left, reverse=True), left)
        hold(f"{store} is read at some speed", all(float(told[2]) > 0 for told in own), own)
    lines = screen.split("ended with 0")[0].splitlines()
    hold("the line is gone at the end", LINE.search(screen) is None and lines[-3:] == wanted.splitlines()[-3:], screen)


def hold_no_line(program, folder):
    with Terminal() as terminal:
        terminal.say(f"clear; {shell_words(program, words_of('status', folder))} 2>{folder}/errors | tail -n 1; echo ended with $?")
        seen, _ = terminal.watch(600, ended)
        with open(f"{folder}/errors", "rb") as it:
            told = it.read()
        hold("no line where standard error is a file", seen == [] and re.fullmatch(rb"program tally\ndirectory [0-9a-f]{64}\n", told), (seen, told))
        examples = f"{TOP}/examples"
        terminal.say(f"clear; {program} status --program tally --directory {examples}/nodes.dir {examples}/two_witnesses.1.store; echo ended with $?")
        seen, screen = terminal.watch(60, ended)
        hold("no line where it takes no two seconds", seen == [] and "3 trusted" in screen, screen)
    os.remove(f"{folder}/errors")


def hold_interrupt(program, folder):
    before = sorted(os.listdir(folder))
    for command, more in (("merge", ["--output", f"{folder}/merged"]), ("explain", ["--html", f"{folder}/page"])):
        with Terminal() as terminal:
            terminal.say(f"clear; {shell_words(program, words_of(command, folder, *more))}")
            seen, _ = terminal.watch(120, lambda screen, seen: seen)
            hold(f"{command} is under way", seen != [], seen)
            terminal.tmux("send-keys", "C-c")
            terminal.watch(60, prompted)
            terminal.say("echo ended with $?")
            _, screen = terminal.watch(20, ended)
            hold(f"Ctrl-C ends {command}", "ended with 130" in screen.splitlines(), screen)
        hold(f"Ctrl-C leaves no file of {command}", sorted(os.listdir(folder)) == before, os.listdir(folder))


def main():
    program = os.path.abspath(sys.argv[1] if len(sys.argv) > 1 else PROGRAM)
    if shutil.which("tmux") is None:
        subprocess.run(["apt-get", "install", "-y", "tmux"], check=True, stdout=subprocess.DEVNULL)
    with tempfile.TemporaryDirectory() as folder:
        make_stores(program, folder)
        for rows in (hold_line, hold_no_line, hold_interrupt):
            rows(program, folder)
    print(f"terminal: {len(failed)} failed")
    sys.exit(1 if failed else 0)


if __name__ == "__main__":
    main()
