"""A machine whose disk is looked at: a store, its server under strace, clients, and the folders that they back up."""
import os
import random
import shutil
import signal
import subprocess
from pathlib import Path

from program import Server, told
from trying import OPTIONS, WAIT
from yards import entries

from cuts.calls import events, strace

NUMBERS = "--min 64 --max 512 --bits 7 --target 2048".split()


class Traced(Server):
    """A server under strace, which writes its calls to a log. It ends with its server."""

    def kill(self):
        if self.process.poll() is None:
            children = Path(f"/proc/{self.process.pid}/task/{self.process.pid}/children").read_text().split()
            for child in map(int, children):
                os.kill(child, signal.SIGKILL)
        self.process.communicate(timeout=WAIT)

    def is_dead(self):
        return self.process.poll() is not None

    def dies(self):
        """Whether it is dead, or is about to be."""
        try:
            self.process.wait(timeout=WAIT)
        except subprocess.TimeoutExpired:
            return False
        return True


class Machine:
    """What is done on it is logged; which bytes each snapshot has to have is remembered by its host."""

    def __init__(self, top, seed):
        self.top, self.disk, self.chance, self.seed = Path(top), Path(top) / "disk", random.Random(seed), seed
        self.store, self.sources, self.logs, self.server, self.names = self.disk / "store", {}, [], None, []
        self.count = 0
        self.disk.mkdir(parents=True)

    def log(self):
        self.count += 1
        self.logs.append(self.top / f"log{self.count}")
        return self.logs[-1]

    def init(self):
        words = [*strace(self.log()), OPTIONS.program, "init", self.store, *NUMBERS]
        subprocess.run(words, check=True, capture_output=True, stdin=subprocess.DEVNULL, timeout=WAIT)

    def serves(self, inject=None):
        """Starts a server; whether it came so far that it listens."""
        self.ends()
        try:
            self.server = Traced(self.store, connections=100_000, before=strace(self.log(), inject))
            return True
        except AssertionError:
            return False

    def ends(self):
        """Ends the server, as if it were killed."""
        if self.server:
            self.server.kill()
        self.server = None

    def run(self, job, *words):
        if self.server is None or self.server.is_dead():
            return "1||not reached\n"
        return told(job, self.server.address, *words)

    def backup(self, source):
        """Backs up a folder under a host of its own; what is told."""
        host = f"h{len(self.sources)}"
        self.sources[host] = (source, entries(source))
        got = self.run("backup", host, source)
        if got.startswith("0|stored "):
            self.names.append(got.split()[1])
        return got

    def forget(self, name=None):
        """Forgets a snapshot, the last one if none is named."""
        if name is None and self.names:
            name = self.names.pop()
        return self.run("forget", name) if name else ""

    def unlock(self):
        return self.run("unlock", "--remove-all")

    def source(self, base=None, files=4):
        """A new folder with so many files, or one more like another with so many that changed."""
        path = self.top / f"source{len(list(self.top.glob('source*')))}"
        if base:
            shutil.copytree(base, path)
        for _ in range(files):
            folder = path / self.chance.choice(["", "d", "d/e", "f"])
            folder.mkdir(parents=True, exist_ok=True)
            (folder / f"n{self.chance.randrange(8)}").write_bytes(self.chance.randbytes(self.chance.choice([0, 3, 200, 900, 2700])))
        return path

    def last(self):
        """The folder that was backed up last."""
        return list(self.sources.values())[-1][0]

    def syncs_of(self, job):
        """What the server syncs when nothing disturbs it, in order: paths below the store, of which so many come before a job. It is tried
        on a copy."""
        kept = self.store, self.logs, self.names[:], dict(self.sources)
        self.ends()
        copy = self.top / "rehearsed"
        shutil.copytree(self.disk, copy)
        self.store, self.logs = copy / "store", []
        try:
            self.serves()
            opening = len(self.synced(copy))
            job()
            self.ends()
            found = self.synced(copy)
        finally:
            self.ends()
            self.store, self.logs, self.names, self.sources = kept
            shutil.rmtree(copy)
        return opening, found

    def synced(self, top):
        """The paths below the store that were synced so far, in order, by the first log."""
        return [os.path.relpath(event[1], self.store) for event in events(self.logs[0], top) if event[0] == "sync"]
