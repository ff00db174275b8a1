#!/usr/bin/env python3
"""Makes crates/bulwynef_c/out/libbulwynef_c.a, whose exports are proved as it is made.

    library.py            over the libraries that `rt ci` left, which takes minutes; where one is missing, older than its text, or of `rt lib`
                          or `rt check`, it runs `rt lib`, which proves what is missing or has changed
    library.py --beside   beside `rt ci`, begun before it: it waits for each library that `rt ci` makes below it, and makes the static library
                          while `rt ci` goes on. It ends with 1 where whoever began it ends first
    library.py --left     right behind `rt ci`, over what that left, however old: a library that was proved before is a link, and has its old time.
                          Where one is missing, or of `rt lib` or `rt check`, it ends with 1

A static library that is younger than all that it is made of stays as it is.
"""

import os
import shutil
import subprocess
import sys
import time

TOP = os.path.dirname(os.path.dirname(os.path.abspath(__file__)))
CRATES = f"{TOP}/crates"
NAME = "bulwynef_c"
MADE = f"{CRATES}/{NAME}/out/lib{NAME}.a"


def uses():
    """What each crate of crates.txt stands on."""
    found = {}
    with open(f"{TOP}/crates.txt", encoding="utf-8") as file:
        for line in file:
            if not line.startswith("#") and ":" in line:
                name, _, stands_on = line.partition(":")
                found[name.split()[0]] = stands_on.split()
    return found


def below(name, of):
    """The crates of the repository that it stands on, whether directly or not."""
    found, left = set(), list(of[name])
    while left:
        crate = left.pop()
        if crate in of and crate not in found:
            found.add(crate)
            left += of[crate]
    return sorted(found)


def rlib(crate):
    return f"{CRATES}/{crate}/out/rlib/{crate}.rlib"


def youngest_source(crate):
    folders = [f"{CRATES}/{crate}/{part}" for part in ("src", "specs", "proofs")]
    return max(os.path.getmtime(f"{at}/{file}") for folder in folders for at, _, files in os.walk(folder) for file in files)


def is_fresh(made, crate):
    return os.path.exists(made) and os.path.getmtime(made) > youngest_source(crate)


def is_made_since(crate, begun):
    """Whether `rt ci` made the library since then. rattle gives it its name once it is whole."""
    return os.path.lexists(rlib(crate)) and os.lstat(rlib(crate)).st_ctime >= begun


def are_awaited(crates):
    """Waits for the libraries, as long as whoever began this is there."""
    begun, parent = time.time(), os.getppid()
    while not all(is_made_since(crate, begun) for crate in crates):
        if os.getppid() != parent:
            return False
        time.sleep(2)
    return True


def is_made_over(crates):
    """Whether the static library is younger than its text, and than the libraries as they lie there."""
    return is_fresh(MADE, NAME) and all(os.path.getmtime(MADE) > os.lstat(rlib(crate)).st_ctime for crate in crates)


def is_left_by_ci(crate):
    """Whether the library is there, without the stamp by which `rt lib` knows those that it made itself."""
    return os.path.isdir(rlib(crate)) and not os.path.exists(f"{CRATES}/{crate}/out/rlib/stamp")


def build(of, crates):
    """The static library over the libraries as they lie there. rattle proves the crate before it compiles it."""
    kit = os.path.dirname(os.path.dirname(os.path.realpath(shutil.which("rt"))))
    words = ["--crate-name", NAME, "src/lib.rt", "--crate-type", "staticlib", "--backend", "llvm", "--jobs", "1"]
    for name in of[NAME]:
        words += ["--extern", f"{name}={rlib(name) if name in of else f'{kit}/rlibs/{name}.rlib'}"]
    if "std" not in of[NAME]:
        words += ["--extern", f"std={kit}/rlibs/std.rlib"]
    for folder in [f"{kit}/rlibs", *(os.path.dirname(rlib(crate)) for crate in crates)]:
        words += ["-L", f"dependency={folder}"]
    words += ["--antt-project", f"{kit}/rattle/logic/antt-project.json", "--logic-built", f"{kit}/logic_built"]
    words += ["--toolchain", f"{kit}/toolchain", "-o", MADE]
    os.makedirs(os.path.dirname(MADE), exist_ok=True)
    return subprocess.run([f"{kit}/bin/rattle", "build", *words], cwd=f"{CRATES}/{NAME}", stdin=subprocess.DEVNULL).returncode


def main():
    of = uses()
    crates = below(NAME, of)
    if sys.argv[1:] == ["--beside"]:
        return build(of, crates) if are_awaited(crates) else 1
    others = [crate for crate in crates if not is_left_by_ci(crate)]
    if sys.argv[1:] == ["--left"]:
        if others:
            print(f"library.py made nothing: rt ci left no library of {' '.join(others)}")
            return 1
    elif others or not all(is_fresh(rlib(crate), crate) for crate in crates):
        return subprocess.run(["rt", "lib"], cwd=f"{CRATES}/{NAME}").returncode
    if is_made_over(crates):
        print(f"library.py: {os.path.relpath(MADE, TOP)} is made over these libraries")
        return 0
    return build(of, crates)


if __name__ == "__main__":
    sys.exit(main())
