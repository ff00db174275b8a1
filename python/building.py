"""Builds the package's wheel with nothing but Python and a C compiler: c/out/libbulwynef.a, which c/run.py --archive makes, is linked
into bulwynef/libbulwynef.so, and all of it is zipped as wheels are (PEP 427, PEP 517). Two wheels of one source are the same bytes."""

import base64
import hashlib
import os
import re
import shutil
import subprocess
import sys
import sysconfig
import tempfile
import zipfile

HERE = os.path.dirname(os.path.abspath(__file__))
TOP = os.path.dirname(HERE)
ARCHIVE = os.environ.get("BULWYNEF_ARCHIVE", os.path.join(TOP, "c", "out", "libbulwynef.a"))
NAME, SOURCE = "bulwynef", os.path.join(HERE, "src", "bulwynef")
LICENCES = ["LICENSE-MIT", "LICENSE-APACHE"]


def read(path):
    with open(path, "rb") as file:
        return file.read()


VERSION = re.search(rb'^__version__ = "(.*)"$', read(os.path.join(SOURCE, "__init__.py")), re.M)[1].decode()
ABOUT = f"Metadata-Version: 2.1\nName: {NAME}\nVersion: {VERSION}\nLicense: MIT OR Apache-2.0\nRequires-Python: >=3.9\n"


def library(folder):
    """The shared library of the static one, or the sentence that says what is missing."""
    compiler = os.environ.get("CC", "cc")
    if not os.path.isfile(ARCHIVE):
        sys.exit(f"bulwynef: the static library {ARCHIVE} is not there; c/run.py --archive makes it, or BULWYNEF_ARCHIVE names it")
    if not shutil.which(compiler):
        sys.exit(f"bulwynef: no C compiler {compiler} to link the static library with; install one (Debian: gcc), or set CC")
    made = os.path.join(folder, "libbulwynef.so")
    words = [compiler, "-shared", "-o", made, "-Wl,--whole-archive", ARCHIVE, "-Wl,--no-whole-archive", "-Wl,--no-undefined"]
    words += [f"-Wl,--version-script={TOP}/c/bulwynef.map", "-Wl,--gc-sections", "-s"]
    subprocess.run(words, check=True)
    return made


def build_wheel(wheel_directory, config_settings=None, metadata_directory=None):
    """Writes the wheel, and answers its name."""
    tag = "py3-none-" + sysconfig.get_platform().replace("-", "_").replace(".", "_")
    info = f"{NAME}-{VERSION}.dist-info"
    with tempfile.TemporaryDirectory() as folder:
        files = {f"{NAME}/{file}": os.path.join(SOURCE, file) for file in sorted(os.listdir(SOURCE)) if file.endswith((".py", ".typed"))}
        files[f"{NAME}/libbulwynef.so"] = library(folder)
        files.update((f"{info}/licenses/{file}", os.path.join(TOP, file)) for file in LICENCES)
        parts = {name: read(path) for name, path in files.items()}
    parts[f"{info}/METADATA"] = ABOUT.encode()
    parts[f"{info}/WHEEL"] = f"Wheel-Version: 1.0\nGenerator: {NAME}\nRoot-Is-Purelib: false\nTag: {tag}\n".encode()
    lines = [f"{name},sha256={digest(data)},{len(data)}" for name, data in parts.items()]
    parts[f"{info}/RECORD"] = "\n".join([*lines, f"{info}/RECORD,,", ""]).encode()
    wheel = f"{NAME}-{VERSION}-{tag}.whl"
    with zipfile.ZipFile(os.path.join(wheel_directory, wheel), "w") as archive:
        for name, data in parts.items():
            archive.writestr(entry(name), data)
    return wheel


def entry(name):
    """A file's place in the wheel, with no time of its making and no rights of its maker."""
    it = zipfile.ZipInfo(name, (1980, 1, 1, 0, 0, 0))
    it.compress_type, it.external_attr, it.create_system = zipfile.ZIP_DEFLATED, 0o100644 << 16, 3
    return it


def digest(data):
    return base64.urlsafe_b64encode(hashlib.sha256(data).digest()).rstrip(b"=").decode()
