"""Folders in which something is tried: a yard, with a store or with anything else in it, and what stands in a folder."""
import hashlib
import os
import shutil
from pathlib import Path

from program import Server, frame, matches, told
from trying import new_folder, same, trial

SMALL = "--min 64 --max 128 --bits 6 --target 1024".split()
FAILED = "1||shelf failed\n"
CREATED = r"0\|created ([0-9a-f]{32})\n\|"
STORED = r"0\|stored ([0-9a-f]{64}) (\d+) (\d+)\n\|"

# The bytes of a large object.
LARGE_OBJECT = bytes(4_000_000)


class Yard:
    """A folder that is tried, `root`; others may stand beside it."""

    def __init__(self, *words, is_store=False):
        self.top = new_folder()
        self.root = self.top / "root"
        if is_store:
            matches(told("init", self.root, *words), CREATED, "init")

    def __enter__(self):
        return self

    def __exit__(self, *_):
        shutil.rmtree(self.top, ignore_errors=True)

    def at(self, name):
        return self.root / name if name else self.root

    def makes(self, *names):
        for name in names:
            self.at(name).mkdir(parents=True, exist_ok=True)

    def writes(self, name, text):
        self.at(name).write_text(text)

    def removes(self, name):
        self.at(name).unlink()

    def has(self, name, text):
        same(self.at(name).read_text(), text, name)

    def lacks(self, name):
        same(os.path.lexists(self.at(name)), False, name)

    def holds(self, name, count):
        same(len(os.listdir(self.at(name))), count, f"entries of {name!r}")

    def serves(self, digits, wanted, reply, *words, is_last=True):
        """It is served to one client, which sends these bytes: what the server tells, and what it replies."""
        with Server(self.root, *words) as server:
            same(server.asked(digits, is_last), reply, "reply")
            same(server.end(), wanted, "serve")


def in_folder(function):
    """A trial in an empty folder."""
    def run():
        with Yard() as it:
            it.makes("")
            function(it)
    return named(run, function)


def in_store(function):
    """A trial in a new store."""
    def run():
        with Yard(is_store=True) as it:
            function(it)
    return named(run, function)


def named(run, function):
    run.__name__, run.__module__ = function.__name__, function.__module__
    return trial(run)


def entries(root):
    """What stands below a folder: its directories, and its files with their bytes; links as what they lead to."""
    found = {}
    for it in sorted(Path(root).rglob("*")):
        found[str(it.relative_to(root))] = ("link", os.readlink(it)) if it.is_symlink() else it.read_bytes() if it.is_file() else None
    return found


def filled(folder, files):
    """Makes a folder with these files, and the directories above them; a name that ends with a slash is a directory."""
    for name, data in files.items():
        path = Path(folder) / name
        (path if name.endswith("/") else path.parent).mkdir(parents=True, exist_ok=True)
        if not name.endswith("/"):
            path.write_bytes(data)
    return Path(folder)


def stored(address, folder, host="h", *words):
    """A folder is backed up whole: the snapshot's name."""
    return matches(told("backup", address, host, folder, *words), STORED, "backup")[0]


def restores(address, name, to, wanted):
    """A snapshot is restored into a new folder, and is what it has to be."""
    shutil.rmtree(to, ignore_errors=True)
    same(told("restore", address, name, to), f"0|complete {len(wanted)}\n|", "restore")
    same(entries(to), wanted, "what was restored")


def gives_back(address, folder, to):
    """A folder is backed up, and restored the same: the snapshot's name."""
    name = stored(address, folder)
    restores(address, name, to, entries(folder))
    return name


def is_clean(address):
    """A check finds no fault; what it counts."""
    return matches(told("check", address), r"0\|clean (\d+) (\d+) (\d+) (\d+)\n\|", "check")


def large_gets(yard):
    """A large pack is in the store: sixteen requests for it, whose replies are more than what the system keeps for who doesn't read."""
    name = hashlib.sha256(LARGE_OBJECT).digest()
    yard.at(f"data/{name.hex()[:2]}/{name.hex()}").write_bytes(LARGE_OBJECT)
    return b"".join(frame(7, b"\0", name, sequence=it) for it in range(16))
