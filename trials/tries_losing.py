"""Disks that are lost: the store's, which comes back from a copy of its folder, and a machine's, which comes back from the store."""
import shutil
import subprocess
import time
from contextlib import contextmanager

from program import Server, lock, matches, told
from trying import WAIT, holds, same, trial
from units import commands_of
from yards import STORED, Yard, entries, filled, is_clean, restores

# What each machine has; they share a file, and one of them has names of all sorts.
FILES = {
    "laptop": {"shared": bytes(range(256)) * 999, "notes/today": b"the sea", "notes/void/": b"", "photos/2026/öde insel": b"\0" * 70_000},
    "desktop": {"mail/in": b"a letter\n" * 3000, "mail/shared": bytes(range(256)) * 999, "empty": b""},
}


@contextmanager
def served(store):
    """The store, served as its unit serves it, at a port that is free."""
    words, = commands_of("jibrekt-serve.service", STORE=store, ADDRESS="any")
    same(words[:3], ["serve", str(store), "any"])
    options = words[words.index("--connections") + 2:]
    with Server(store, *options, connections=words[words.index("--connections") + 1]) as server:
        yield server


def backed_up(server, host, home):
    """A machine backs up as its unit does: the snapshot's name, and how many bytes weren't there."""
    words, = commands_of("jibrekt-backup.service", host, ADDRESS=server.address, FOLDER=home)
    name, _, count = matches(told(*words), STORED, words)
    return name, int(count)


def looked_after(unit, server):
    """What the commands of a unit tell that looks after the store, one after another."""
    return [told(*words) for words in commands_of(unit, ADDRESS=server.address)]


def newest(address, host):
    """The name of a machine's newest snapshot, by the line of the manual."""
    script = f"""grep -E '^[^ ]+ [^ ]+ {host}$' | sort -k 2,2n -k 1,1 | tail -n 1 | cut -d ' ' -f 1"""
    listed = told("snapshots", address)
    run = subprocess.run(["bash", "-c", script], input=listed[2:-1], capture_output=True, text=True, timeout=WAIT)
    same(run.returncode, 0, listed)
    return run.stdout.strip()


def next_second():
    """Waits for the clock's next second: of two snapshots of one host and one second the one with the greater name is the newer."""
    now = int(time.time())
    while int(time.time()) <= now:
        time.sleep(0.02)


def copied(store, to):
    """A copy of the folder of a store that nobody serves."""
    subprocess.run(["cp", "-a", store, to], check=True, timeout=WAIT)


def comes_back(server, host, home):
    """A machine's disk is lost, with all of its folder; its newest snapshot is restored in its place."""
    name, wanted = newest(server.address, host), entries(home)
    shutil.rmtree(home)
    restores(server.address, name, home, wanted)


@trial
def lost_disks_come_back():
    """Two machines back up, and the store is copied. They go on, and a client leaves its lock; then the store's disk is lost. From the
    copy, and with what the machines send again, all of it is there; and what a machine has lost comes back byte for byte."""
    with Yard(is_store=True) as yard:
        homes = {host: filled(yard.top / f"homes/{host}", files) for host, files in FILES.items()}
        first, before = {}, {host: entries(home) for host, home in homes.items()}
        with served(yard.root) as server:
            for host, home in homes.items():
                first[host], _ = backed_up(server, host, home)
        copied(yard.root, yard.top / "copy")
        with served(yard.root) as server:
            (homes["laptop"] / "notes/today").write_bytes(b"the mountains")
            late, _ = backed_up(server, "laptop", homes["laptop"])
            lock(server, moment=7, host=b"laptop")
        shutil.rmtree(yard.root)
        copied(yard.top / "copy", yard.root)
        with served(yard.root) as server:
            same(told("unlock", server.address, "--remove-all"), "0||")
            same(sorted(row.split()[0] for row in told("snapshots", server.address)[2:-1].splitlines()), sorted(first.values()))
            same(told("restore", server.address, late, yard.top / "to"), f"1||missing snapshot\nsnapshot {late}\n")
            next_second()
            again, count = backed_up(server, "laptop", homes["laptop"])
            holds(count > 0, "what was stored since the copy is sent again")
            same(backed_up(server, "desktop", homes["desktop"])[1], 0, "what the copy has isn't sent again")
            same(newest(server.address, "laptop"), again)
            for host, home in homes.items():
                comes_back(server, host, home)
            restores(server.address, first["laptop"], yard.top / "first", before["laptop"])
            same([got[:2] for got in looked_after("jibrekt-check.service", server)], ["0|", "0|"])
            same(is_clean(server.address)[0], "4")
            same([got[:2] for got in looked_after("jibrekt-prune.service", server)], ["0|", "0|", "0|", "0|"])
            for host, home in homes.items():
                comes_back(server, host, home)


@trial
def a_store_that_is_lost_without_a_copy_is_made_anew():
    """All snapshots are gone with it; what the machines still have is stored again, and comes back."""
    with Yard(is_store=True) as yard:
        homes = {host: filled(yard.top / f"homes/{host}", files) for host, files in FILES.items()}
        with served(yard.root) as server:
            lost = backed_up(server, "laptop", homes["laptop"])[0]
        shutil.rmtree(yard.root)
        same(told("serve", yard.root, "127.0.0.1:1"), "1||shelf failed\n")
        same(told("init", yard.root)[:10], "0|created ")
        with served(yard.root) as server:
            same(told("restore", server.address, lost, yard.top / "to"), f"1||missing snapshot\nsnapshot {lost}\n")
            for host, home in homes.items():
                holds(backed_up(server, host, home)[1] > 0, host)
                comes_back(server, host, home)
            same(is_clean(server.address)[0], "2")
