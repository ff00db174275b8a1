#!/usr/bin/env python3
"""Runs bindings/cases.txt and the first program of C, C++, Rust and Go over c/out/libbulwynef.a, which c/run.py makes, and their tests;
those of C and C++ with AddressSanitizer and UndefinedBehaviorSanitizer. Python's are python/run.py's. What is missing of Debian's gcc, g++,
cargo, golang-go and pkg-config it installs; it downloads nothing else.

    run.py [c] [cpp] [rust] [go]      all of them where none is named

Ends with 1 where an answer is another.
"""

import os
import shutil
import subprocess
import sys
import tempfile

TOP = os.path.dirname(os.path.dirname(os.path.abspath(__file__)))
ARCHIVE = f"{TOP}/c/out/libbulwynef.a"
CASES = f"{TOP}/bindings/cases.txt"
TOOLS = {"cc": "gcc", "c++": "g++", "cargo": "cargo", "go": "golang-go", "pkg-config": "pkg-config"}
WANTED = {"c": ["cc"], "cpp": ["c++"], "rust": ["cargo", "cc"], "go": ["go", "cc", "pkg-config"]}
FLAGS = ["-O1", "-g", "-Wall", "-Wextra", "-Werror", "-pedantic", "-fsanitize=address,undefined", "-fno-sanitize-recover=all"]
LAST = "the proof exposes 2"


def install(tools):
    missing = [TOOLS[tool] for tool in tools if not shutil.which(tool)]
    for words in (["update"], ["install", "-y", "--no-install-recommends", *missing]):
        if missing and subprocess.run(["apt-get", *words], stdout=subprocess.DEVNULL).returncode:
            sys.exit(f"bindings: nothing was run, since {' '.join(missing)} can't be installed")


def is_done(words, **how):
    """Whether a command ends with 0; what it says is shown where it does not."""
    ran = subprocess.run(words, stdout=subprocess.PIPE, stderr=subprocess.STDOUT, text=True, errors="replace", **how)
    if ran.returncode:
        print(f"bindings: {' '.join(words[:4])}: {ran.returncode}\n{ran.stdout[-4000:]}")
    return ran.returncode == 0


def says(words, line, **how):
    """Whether a program ends with 0 and writes the line."""
    ran = subprocess.run(words, capture_output=True, text=True, **how)
    if ran.returncode or line not in ran.stdout.splitlines():
        print(f"bindings: {' '.join(words)}: {ran.returncode} {ran.stdout[-400:]!r} {ran.stderr[-400:]!r}")
        return False
    return True


def answers(program, words):
    """Whether a program answers the cases, and then no other ones: with one answer changed it must tell that."""
    with open(CASES, encoding="ascii") as file:
        text = file.read()
    told = [subprocess.run([program], input=it, capture_output=True, text=True) for it in (text, text.replace(" = 0 2\n", " = 0 3\n", 1))]
    print(told[0].stdout, end="")
    if [it.returncode for it in told] != [0, 1]:
        print(f"bindings: {words}: {[it.returncode for it in told]}\n{told[0].stderr[-2000:]}")
    return [it.returncode for it in told] == [0, 1]


def run_c(room):
    flags = ["cc", "-std=c11", *FLAGS, f"-I{TOP}/c", "-o"]
    built = [is_done([*flags, f"{room}/c_{name}", f"{TOP}/c/{name}.c", ARCHIVE]) for name in ("cases", "example")]
    return all(built) and answers(f"{room}/c_cases", "C") and says([f"{room}/c_example"], LAST)


def run_cpp(room):
    flags = ["c++", "-std=c++17", *FLAGS, f"-I{TOP}/c", f"-I{TOP}/cpp", "-o"]
    built = [is_done([*flags, f"{room}/cpp_{name}", f"{TOP}/cpp/{name}.cpp", ARCHIVE]) for name in ("cases", "first", "kept")]
    return all(built) and answers(f"{room}/cpp_cases", "C++") and says([f"{room}/cpp_first"], LAST) and is_done([f"{room}/cpp_kept"])


def run_rust(room):
    where = {**os.environ, "BULWYNEF_LIB_DIR": os.path.dirname(ARCHIVE), "BULWYNEF_STATIC": "1", "CARGO_TARGET_DIR": f"{room}/target"}
    how = {"cwd": f"{room}/rust/bulwynef", "env": where}
    # In a copy, since cargo writes a Cargo.lock beside its text; the cases stand where the tests look for them.
    for folder in ("rust", "bindings", "c"):
        shutil.copytree(f"{TOP}/{folder}", f"{room}/{folder}", ignore=shutil.ignore_patterns("out", "target"))
    tested = is_done(["cargo", "test", "--offline", "--quiet", "--jobs", "1"], **how)
    return tested and says(["cargo", "run", "--offline", "--quiet", "--example", "first"], LAST, **how)


def run_go(room):
    os.makedirs(f"{room}/pkgconfig")
    with open(f"{room}/pkgconfig/bulwynef.pc", "w", encoding="utf-8") as file:
        file.write(f"Name: bulwynef\nDescription: as it lies here\nVersion: 0\nLibs: {ARCHIVE}\nCflags: -I{TOP}/c\n")
    where = {**os.environ, "PKG_CONFIG_PATH": f"{room}/pkgconfig", "GOPROXY": "off", "GOFLAGS": "-mod=mod", "GOCACHE": f"{room}/gocache"}
    how = {"cwd": f"{TOP}/go", "env": {**where, "CGO_LDFLAGS_ALLOW": ".*", "GOTOOLCHAIN": "local"}}
    return is_done(["go", "vet", "./..."], **how) and is_done(["go", "test", "-p", "1", "./..."], **how)


RUNS = {"c": run_c, "cpp": run_cpp, "rust": run_rust, "go": run_go}


def main():
    asked = sys.argv[1:] or list(RUNS)
    if any(name not in RUNS for name in asked):
        sys.exit(__doc__)
    if not os.path.isfile(ARCHIVE):
        sys.exit(f"{ARCHIVE} is not there: c/library.py and c/run.py make it")
    install(dict.fromkeys(tool for name in asked for tool in WANTED[name]))
    with tempfile.TemporaryDirectory(prefix="bulwynef-bindings-") as room:
        failed = [name for name in asked if not RUNS[name](room)]
    print(f"bindings: {', '.join(asked)} were run; failed: {', '.join(failed) or 'none'}")
    return 1 if failed else 0


if __name__ == "__main__":
    sys.exit(main())
