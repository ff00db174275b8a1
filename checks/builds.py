"""The builds of a program over which scripts run."""

import os
import sys

TOP = os.path.dirname(os.path.dirname(os.path.abspath(__file__)))
# As LLVM builds it, and as Rattle's own compiler does.
ENDINGS = ("", ".by-rattle")


def builds_of(name):
    """Both builds of a program, which `rt ci` leaves in crates/NAME/out. Where one is missing this ends the script with 1; `rt run` leaves that of
    LLVM alone, with which ONE_BUILD=1 is content, beside the gate."""
    builds = [f"{TOP}/crates/{name}/out/{name}{ending}" for ending in ENDINGS]
    missing = " ".join(os.path.relpath(build, TOP) for build in builds if not os.path.isfile(build))
    if os.environ.get("ONE_BUILD") == "1":
        builds = [build for build in builds if os.path.isfile(build)]
    if missing and (not builds or os.environ.get("ONE_BUILD") != "1"):
        sys.exit(f"wanted, and missing: {missing} (rt ci leaves both builds, and rt run the first, with which ONE_BUILD=1 is content)")
    return builds
