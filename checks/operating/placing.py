"""Holds where `bulwynef` writes: behind links, to pipes and devices, with which owner and mode, and beside what killed runs left."""

import os
import re
import stat
import subprocess
import threading

UMASK = 0o022
OLD = b"what was there before\n"


def read(path):
    """The bytes of a file, or None where there is none."""
    if not os.path.exists(path):
        return None
    with open(path, "rb") as it:
        return it.read()


def write(path, data, mode=0o600):
    with open(path, "wb") as it:
        it.write(data)
    os.chmod(path, mode)
    return path


def mode_of(path):
    return stat.S_IMODE(os.lstat(path).st_mode)


class Places:
    """A folder for each case, and what is written there: the union of stores, which is known."""

    def __init__(self, hold, build, folder, files):
        self.hold, self.build, self.top, self.count = hold, build, folder, 0
        self.nodes, self.items = (write(f"{folder}/{name}", files[name]) for name in ("nodes", "items"))
        self.scenario = write(f"{folder}/scenario", b"witnesses 1\nnode 1 honest\n")
        self.union = self.run("merge", "--directory", self.nodes, self.items)[1]

    def run(self, *words, before="", stdout=subprocess.PIPE, cwd=None):
        """Runs the program by a shell, which may do something before it becomes the program: the process keeps its number."""
        done = subprocess.run(
            ["sh", "-c", f'umask {UMASK:o}; {before} exec "$@"', "sh", self.build, *words],
            stdin=subprocess.DEVNULL, stdout=stdout, stderr=subprocess.PIPE, cwd=cwd, timeout=300,
        )
        return done.returncode, done.stdout, done.stderr

    def merge(self, name, **how):
        return self.run("merge", "--directory", self.nodes, "--output", name, self.items, **how)

    def folder(self):
        self.count += 1
        path = f"{self.top}/{self.count}"
        os.mkdir(path)
        return path


# ---- links


def hold_links(places):
    hold, at = places.hold, places.folder()
    target = write(f"{at}/target", OLD, 0o640)
    os.symlink("target", f"{at}/link")
    done = places.merge(f"{at}/link")
    hold("a link's target is replaced", done == (0, b"", b"") and read(target) == places.union, done)
    hold("a link stays", os.path.islink(f"{at}/link") and os.readlink(f"{at}/link") == "target" and mode_of(target) == 0o640)
    os.mkdir(f"{at}/sub")
    os.symlink("../behind", f"{at}/sub/second")
    os.symlink(f"{at}/sub/second", f"{at}/first")
    done = places.merge("first", cwd=at)
    is_so = done == (0, b"", b"") and read(f"{at}/behind") == places.union and os.path.islink(f"{at}/first") and os.path.islink(f"{at}/sub/second")
    hold("links to a file that is yet to be", is_so, (done, os.listdir(at)))
    os.symlink("there", f"{at}/here")
    os.symlink("here", f"{at}/there")
    status, out, error = places.merge(f"{at}/here")
    hold("links in a ring", (status, out) == (1, b"") and error.startswith(b"refused 102 ") and os.path.islink(f"{at}/here"), (status, error))
    hold("no other file is left by links", sorted(os.listdir(at)) == ["behind", "first", "here", "link", "sub", "target", "there"], os.listdir(at))
    os.mkdir(f"{at}/empty", 0o750)
    os.symlink("empty", f"{at}/folder")
    done = places.run("play", places.scenario, "--output", f"{at}/folder")
    is_so = done == (0, b"", b"") and os.path.islink(f"{at}/folder") and os.path.exists(f"{at}/empty/nodes.dir") and mode_of(f"{at}/empty") == 0o750
    hold("a link to an empty folder", is_so, done)


def hold_open(places):
    """What is no file of a folder is written to: a pipe, a device, and what a process has opened, of which /proc has links."""
    hold, at = places.hold, places.folder()
    os.mkfifo(f"{at}/pipe")
    got = []
    reader = threading.Thread(target=lambda: got.append(read(f"{at}/pipe")))
    reader.start()
    done = places.merge(f"{at}/pipe")
    reader.join(60)
    hold("a pipe is written to", done == (0, b"", b"") and got == [places.union] and stat.S_ISFIFO(os.lstat(f"{at}/pipe").st_mode), done)
    os.symlink("/dev/full", f"{at}/full")
    done = places.merge(f"{at}/full")
    hold("a link to a full device", done[:2] == (1, b"") and done[2].startswith(b"refused 102 ") and os.readlink(f"{at}/full") == "/dev/full", done)
    os.symlink("/dev/null", f"{at}/null")
    hold("a link to a device", places.merge(f"{at}/null") == (0, b"", b"") and os.readlink(f"{at}/null") == "/dev/null")
    # As /dev/stdout is.
    os.symlink("/proc/self/fd/1", f"{at}/stdout")
    for how, before in (("wb", b""), ("ab", OLD)):
        write(f"{at}/file", before)
        with open(f"{at}/file", how) as it:
            inode = os.fstat(it.fileno()).st_ino
            done = places.merge(f"{at}/stdout", stdout=it)
        is_so = done == (0, None, b"") and read(f"{at}/file") == before + places.union and os.stat(f"{at}/file").st_ino == inode
        hold(f"a link to standard output, which is a file ({how})", is_so and os.readlink(f"{at}/stdout") == "/proc/self/fd/1", done)
    hold("no other file is left by what is open", sorted(os.listdir(at)) == ["file", "full", "null", "pipe", "stdout"], os.listdir(at))


def hold_dev_stdout(places):
    """Root may replace /dev/stdout: if it was, it is put back."""
    hold, at, link = places.hold, places.folder(), os.readlink("/dev/stdout")
    try:
        with open(f"{at}/file", "wb") as it:
            done = places.merge("/dev/stdout", stdout=it)
        is_link = os.path.islink("/dev/stdout")
    finally:
        if not os.path.islink("/dev/stdout"):
            os.remove("/dev/stdout")
            os.symlink(link, "/dev/stdout")
    hold("/dev/stdout stays, and is written to", is_link and done == (0, None, b"") and read(f"{at}/file") == places.union, done)


# ---- owner and mode


def hold_modes(places):
    hold, at = places.hold, places.folder()
    on = ["--program", "tally", "--directory", places.nodes]
    places.merge(f"{at}/store")
    places.run("prove", *on, "--output", f"{at}/proof", "2", places.items)
    places.run("bundle", *on, "--output", f"{at}/bundle", f"{at}/proof")
    places.run("explain", *on, "--html", f"{at}/page", places.items)
    places.run("split", "--parts", "2", "--output", f"{at}/part", places.items)
    places.run("play", places.scenario, "--output", f"{at}/played")
    found = {name: mode_of(f"{at}/{name}") for name in os.listdir(at)}
    wanted = dict.fromkeys(["store", "proof", "bundle", "page", "part.0-of-2", "part.1-of-2"], 0o600) | {"played": 0o700}
    hold("what is new is its owner's alone", found == wanted, {name: oct(mode) for name, mode in found.items()})
    inside = {mode_of(f"{at}/played/{name}") for name in os.listdir(f"{at}/played")}
    hold("so are the files of a scenario", inside == {0o600}, inside)
    for mode in (0o600, 0o400, 0o644, 0o664, 0o640, 0o755):
        path = write(f"{at}/old", OLD, mode)
        done = places.merge(path)
        hold(f"a file of mode {mode:o} that is replaced", done == (0, b"", b"") and read(path) == places.union and mode_of(path) == mode, (done, oct(mode_of(path))))
        os.remove(path)
    if os.geteuid() == 0:
        path = write(f"{at}/old", OLD, 0o640)
        os.chown(path, 4321, 1234)
        done = places.merge(path)
        owner = os.stat(path).st_uid, os.stat(path).st_gid
        hold("the owner of a file that is replaced", done == (0, b"", b"") and owner == (4321, 1234) and mode_of(path) == 0o640, (done, owner))


# ---- what killed runs left


def hold_left(places):
    """A process that has the number of one that was killed: as in a container, where it comes again."""
    hold = places.hold
    for count in (1, 2):
        at = places.folder()
        left = ["$$", "$$.1"][:count]
        before = "".join(f'echo left > "{at}/store.new.{name}";' for name in left)
        status, out, error = places.merge(f"{at}/store", before=before)
        names = sorted(set(os.listdir(at)) - {"store"})
        hold(f"{count} left beside a store", (status, out) == (0, b"") and len(names) == count and read(f"{at}/store") == places.union, (status, error, names))
        told = [f"{at}/{name} is left of a run that was killed, or is being written by another one\n" for name in names]
        hold(f"{count} left beside a store are told", error.decode() == "".join(told), error)
        hold(f"{count} left beside a store stay as they are", all(read(f"{at}/{name}") == b"left\n" for name in names))
    at = places.folder()
    status, out, error = places.run("play", places.scenario, "--output", f"{at}/played", before=f'mkdir "{at}/played.new.$$";')
    names = sorted(os.listdir(at))
    is_told = re.fullmatch(rf"{at}/played\.new\.\d+ is left of a run that was killed, or is being written by another one\n".encode(), error)
    hold("a folder left beside a folder", (status, out) == (0, b"") and len(names) == 2 and os.path.exists(f"{at}/played/nodes.dir") and is_told, (status, error, names))


def hold_no_proof(places):
    """Where there is no proof, a file of the output's name stays, and it is said."""
    hold, at = places.hold, places.folder()
    words = ["prove", "--program", "tally", "--directory", places.nodes, "--output", f"{at}/proof", "1", places.items]
    none = b"no proof: the evidence does not expose the node"
    status, out, error = places.run(*words)
    hold("no proof, and no file before", (status, out) == (4, b"") and error.endswith(none + b"\n") and os.listdir(at) == [], (status, error))
    write(f"{at}/proof", OLD)
    status, out, error = places.run(*words)
    is_told = error.endswith(none + f"; {at}/proof stays as it was before\n".encode())
    hold("no proof, and a file from before", (status, out) == (4, b"") and is_told and read(f"{at}/proof") == OLD, (status, error))


def hold_places(hold, build, folder, files):
    places = Places(hold, build, folder, files)
    for rows in (hold_links, hold_open, hold_dev_stdout, hold_modes, hold_left, hold_no_proof):
        rows(places)
