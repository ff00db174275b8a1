"""Two wheels of one source are the same bytes, whenever and wherever they are made, and name the version and the licence."""

import os
import sys
import time
import zipfile

from scene import TOP

import bulwynef

sys.path.insert(0, os.path.join(TOP, "python"))

import building


def made_in(folder, mask, monkeypatch):
    """The bytes of a wheel made in a folder, under a mask of rights and with temporary files there."""
    folder.mkdir()
    monkeypatch.setattr("tempfile.tempdir", str(folder))
    before = os.umask(mask)
    try:
        return building.build_wheel(str(folder)), folder
    finally:
        os.umask(before)


def test_two_wheels_are_the_same_bytes(tmp_path, monkeypatch):
    name, one = made_in(tmp_path / "one", 0o022, monkeypatch)
    time.sleep(2.1)  # a zip file has times of two seconds
    _, other = made_in(tmp_path / "another_folder", 0o077, monkeypatch)
    assert (one / name).read_bytes() == (other / name).read_bytes()


def test_a_wheel_has_the_version_the_licences_and_the_library(tmp_path, monkeypatch):
    name, folder = made_in(tmp_path / "wheel", 0o022, monkeypatch)
    assert name.startswith(f"bulwynef-{bulwynef.__version__}-py3-none-")
    with zipfile.ZipFile(folder / name) as wheel:
        files, about = wheel.namelist(), wheel.read(f"bulwynef-{bulwynef.__version__}.dist-info/METADATA").decode()
    assert f"Version: {bulwynef.__version__}\nLicense: MIT OR Apache-2.0\n" in about
    for file in ("bulwynef/__init__.py", "bulwynef/libbulwynef.so", "bulwynef/py.typed"):
        assert file in files
    assert [os.path.basename(file) for file in files if "/licenses/" in file] == ["LICENSE-MIT", "LICENSE-APACHE"]
