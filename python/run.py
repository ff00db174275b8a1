#!/usr/bin/env python3
"""Installs the package into a folder of its own, offline, and runs its tests, the examples of its page, and the network of
examples/network for a short time, twice. Wants c/out/libbulwynef.a, which c/run.py makes, or what BULWYNEF_ARCHIVE names. What is missing of
pip and pytest it installs from Debian's packages. Ends with 1 where something fails, and where they can't be installed."""

import os
import shutil
import subprocess
import sys
import tempfile

HERE = os.path.dirname(os.path.abspath(__file__))
TOP = os.path.dirname(HERE)
PYTHON = "/usr/bin/python3"
PACKAGES = {"pip": "python3-pip", "pytest": "python3-pytest"}
NETWORK = [f"{TOP}/examples/network/run.py", "--seconds", "12", "--mails", "48", "--w", "4"]
FAULTS = [[], ["--faults", "drops=2,mangles=3,silent=5", "--kill", "0.1"]]


def has(module):
    return subprocess.run([PYTHON, "-c", f"import {module}"], stderr=subprocess.DEVNULL).returncode == 0


def install_tools():
    """Whether pip and pytest are there, after what is missing was installed."""
    missing = [package for module, package in PACKAGES.items() if not has(module)]
    if missing and not shutil.which("apt-get"):
        return False
    for words in (["update"], ["install", "-y", "--no-install-recommends", *missing]):
        if missing and subprocess.run(["apt-get", *words], stdout=subprocess.DEVNULL).returncode:
            return False
    return all(has(module) for module in PACKAGES)


def main():
    if not install_tools():
        print(f"python: nothing was run, since {' and '.join(PACKAGES.values())} can't be installed")
        return 1
    with tempfile.TemporaryDirectory(prefix="bulwynef-python-") as folder:
        pip = ["-m", "pip", "install", "--quiet", "--no-build-isolation", "--no-index", "--root-user-action=ignore", "--target", folder, HERE]
        runs = [pip, ["-m", "pytest", "-q", "-p", "no:cacheprovider", f"{HERE}/tests"], ["-m", "doctest", f"{HERE}/README.md"]]
        runs += [[*NETWORK, *faults] for faults in FAULTS]
        where = {**os.environ, "PYTHONPATH": folder, "PYTHONDONTWRITEBYTECODE": "1"}
        for words in runs:
            if subprocess.run([PYTHON, *words], env=where, cwd=folder).returncode:
                print(f"python: {' '.join(words[:3])} failed")
                return 1
    print("python: installed, tested, and the network ran")
    return 0


if __name__ == "__main__":
    sys.exit(main())
