"""Disks that are full, at both ends: a small file system in memory, where one can be mounted; else a limit on how long files may be."""
import os
import resource
import signal
import subprocess
from contextlib import contextmanager

from program import Server, has_status, told
from trying import OPTIONS, WAIT, Skipped, holds, same, trial
from yards import Yard, entries, filled, gives_back, is_clean, restores, stored

NUMBERS = ("--min", 65536, "--max", 1048576, "--bits", 17, "--target", 1048576)
SMALL_FILES, LARGE_FILES = {"one": bytes(range(256)) * 200}, {"one": bytes(range(256)) * 200, "d/two": b"".join(b"%08d" % at for at in range(400_000))}


@contextmanager
def small_disk(place, size):
    """A file system of this size."""
    place.mkdir()
    if subprocess.run(["mount", "-t", "tmpfs", "-o", size, "tmpfs", place], capture_output=True).returncode:
        raise Skipped("no file system can be mounted here")
    try:
        yield
    finally:
        subprocess.run(["umount", place], check=True)


@trial
def a_full_disk_of_the_store():
    """`refused 10`; what was stored stands, what was being written is removed, and with more room the backup is made."""
    with Yard() as yard, small_disk(yard.root, "size=2m"):
        has_status(told("init", yard.root, *NUMBERS), 0)
        small, large = filled(yard.top / "small", SMALL_FILES), filled(yard.top / "large", LARGE_FILES)
        with Server(yard.root, connections=99) as server:
            name = stored(server.address, small)
            for _ in range(2):
                same(told("backup", server.address, "h", large), "1||refused 10\n")
            yard.holds("tmp", 0)
            restores(server.address, name, yard.top / "to", entries(small))
        subprocess.run(["mount", "-o", "remount,size=64m", yard.root], check=True)
        with Server(yard.root, connections=99) as server:
            has_status(told("unlock", server.address, "--remove-all"), 0)
            gives_back(server.address, large, yard.top / "to")
            same(is_clean(server.address)[0], "2")


@trial
def a_full_disk_that_is_restored_to():
    """`stopped`; files under their own names are whole, and with more room all comes back."""
    with Yard(*NUMBERS, is_store=True) as yard, small_disk(yard.top / "to", "size=1m"):
        large = filled(yard.top / "large", LARGE_FILES)
        with Server(yard.root, connections=99) as server:
            name = stored(server.address, large)
            same(told("restore", server.address, name, yard.top / "to/here"), "1||stopped\n")
            for path, data in entries(yard.top / "to/here").items():
                if not os.path.basename(path).startswith("!restoring-"):
                    same(data, entries(large)[path], path)
            same(told("locks", server.address), "0||")
            restores(server.address, name, yard.top / "elsewhere", entries(large))


@trial
def a_disk_without_room_for_a_store():
    """No store is made, and none is served; with more room the making is made whole."""
    with Yard() as yard, small_disk(yard.root, "nr_inodes=99"):
        same(told("init", yard.root), "1||shelf failed\n")
        same(told("serve", yard.root, "127.0.0.1:0"), "1||shelf failed\n")
        subprocess.run(["mount", "-o", "remount,nr_inodes=9999", yard.root], check=True)
        has_status(told("init", yard.root), 0)
        yard.holds("data", 256)
        yard.holds("tmp", 0)


def limited():
    """No file may grow above this; the signal that tells of it is not to end the process."""
    signal.signal(signal.SIGXFSZ, signal.SIG_IGN)
    resource.setrlimit(resource.RLIMIT_FSIZE, (400_000, resource.RLIM_INFINITY))


@trial
def files_of_a_store_that_may_not_grow():
    """As on a full disk, whoever runs this."""
    with Yard(*NUMBERS, is_store=True) as yard:
        small, large = filled(yard.top / "small", SMALL_FILES), filled(yard.top / "large", LARGE_FILES)
        with Server(yard.root, connections=99, preexec_fn=limited) as server:
            name = stored(server.address, small)
            same(told("backup", server.address, "h", large), "1||refused 10\n")
            yard.holds("tmp", 0)
            restores(server.address, name, yard.top / "to", entries(small))
        with Server(yard.root, connections=99) as server:
            has_status(told("unlock", server.address, "--remove-all"), 0)
            gives_back(server.address, large, yard.top / "to")
            same(is_clean(server.address)[0], "2")


@trial
def files_of_a_restore_that_may_not_grow():
    with Yard(*NUMBERS, is_store=True) as yard, Server(yard.root, connections=9) as server:
        large = filled(yard.top / "large", LARGE_FILES)
        name = stored(server.address, large)
        words = [OPTIONS.program, "restore", server.address, name, yard.top / "to"]
        run = subprocess.run(words, capture_output=True, text=True, stdin=subprocess.DEVNULL, timeout=WAIT, preexec_fn=limited)
        same((run.returncode, run.stdout, run.stderr), (1, "", "stopped\n"))
        holds(entries(yard.top / "to").get("d/two") is None, "a file that isn't whole has its own name")
        restores(server.address, name, yard.top / "elsewhere", entries(large))
