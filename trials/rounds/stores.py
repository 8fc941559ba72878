"""A store and its server, whatever happens to them: it is killed and started again, its disk fills, its calls fail, its calls are recorded."""
import json
import os
import re
import shutil
import signal
import socket
import subprocess
import threading
import time
from collections import Counter
from pathlib import Path

from cuts.calls import may_trace, strace
from cuts.machine import Traced
from program import Server
from trying import OPTIONS, WAIT, holds

from rounds.plans import FAILING

# The size of the disk of a store, if the store has one of its own: for files of up to so many bytes, and for greater ones.
SMALL_FILES, SMALL_DISK, LARGE_DISK = 1_000_000, "200m", "800m"
# How many KiB of memory of its own a server may take while nobody works, more than when it began. Beside it there may be room for some objects
# as great as any was. A store with packs of the usual size has ones of up to so many bytes.
GROWTH, USUAL_PACK = 4 << 10, 26_000_000
# The folders of objects.
OBJECTS = ("data", "index", "snapshots")


def stops(process, seconds):
    """Stops a process for so long."""
    process.send_signal(signal.SIGSTOP)
    time.sleep(seconds)
    process.send_signal(signal.SIGCONT)


def own_memory(process):
    """The KiB of memory of its own that a process has."""
    return int(re.search(r"^RssAnon:\s+(\d+)", Path(f"/proc/{process}/status").read_text(), re.M)[1])


def opened(process):
    """What the descriptors of a process lead to."""
    found = []
    for descriptor in Path(f"/proc/{process}/fd").iterdir():
        try:
            found.append(os.readlink(descriptor))
        except FileNotFoundError:
            # It was closed meanwhile.
            continue
    return found


class Store:
    """The folder `store` on a disk of its own, if one can be had, and the server that serves it now."""

    def __init__(self, top, plan):
        self.top, self.disk, self.plan = Path(top), Path(top) / "disk", plan
        self.disk.mkdir()
        size, self.greatest = (SMALL_DISK, 0) if plan.greatest <= SMALL_FILES else (LARGE_DISK, USUAL_PACK)
        self.has_disk = os.geteuid() == 0 and subprocess.run(
            ["mount", "-t", "tmpfs", "-o", f"size={size}", "campaign", self.disk], capture_output=True).returncode == 0
        self.is_traceable = may_trace()
        self.store, self.server, self.append_only = self.disk / "store", None, False
        self.memory, self.faults = 0, []
        # One starts a server, connects to one, or fills the disk at a time.
        self.log, self.lock, self.connecting, self.filling = self.top / "log", threading.Lock(), threading.Lock(), threading.Lock()
        words = [OPTIONS.program, "init", self.store, *plan.numbers.split(), "--format", str(plan.format)]
        subprocess.run(words, check=True, capture_output=True, timeout=WAIT)
        self.opening = self.calls_of_opening() if self.is_traceable else Counter()

    def ends(self):
        """Nothing is served any more, and nothing is mounted."""
        self.kills()
        if self.has_disk:
            subprocess.run(["umount", "-l", self.disk], check=False)

    # ---- the server

    def kills(self):
        # From here on nobody connects. Another program may get the port of a server that was killed.
        with self.connecting:
            server, self.server = self.server, None
        if server and server.process.poll() is not None:
            self.faults.append(f"the server ended by itself, with status {server.process.returncode}")
        if server:
            server.kill()

    def connects(self):
        """A connection to the server. While there is none it is waited for."""
        end = time.monotonic() + WAIT
        while time.monotonic() < end:
            with self.connecting:
                if self.server:
                    return socket.create_connection(("127.0.0.1", self.server.port), timeout=WAIT)
            time.sleep(0.005)
        raise OSError("nobody serves")

    def serves(self, before=(), sort=Server):
        """Starts the server anew, as if the last one was killed."""
        with self.lock:
            self.kills()
            words = ["--at-once", self.plan.at_once] if self.plan.at_once > 1 else []
            words += ["--append-only"] if self.append_only else []
            server = self.started(lambda: sort(self.store, *words, connections=1_000_000, before=before))
            self.memory = own_memory(server.process.pid) if sort is Server else 0
            self.server = server

    def started(self, start):
        """Starts a server. If that fails, the disk may have been full: once it isn't any more, it tries again."""
        try:
            return start()
        except AssertionError:
            with self.filling:
                return start()

    def serves_recorded(self):
        """Starts the server anew, and records its calls."""
        self.serves(strace(self.log), Traced)

    def serves_failing(self, number):
        """Starts the server again. Some time behind its opening a call fails, and from then on every call of another number after it. The number
        says which calls these are."""
        call, error = FAILING[number % len(FAILING)]
        first, step = self.opening[call] + 1 + number % 20, 7 + number % 50
        injected = ["-e", f"trace={call}", "-e", f"inject={call}:error={error}:when={first}+{step}"]
        try:
            self.serves(["strace", "-f", "-qq", "-o", self.log, *injected], Traced)
        except AssertionError:
            # A call of its opening failed.
            self.log.unlink(missing_ok=True)
            self.serves()

    def calls_of_opening(self):
        """How many of the calls that may fail a server makes until it listens."""
        names = ",".join(call for call, _ in FAILING)
        self.serves(["strace", "-f", "-qq", "-o", self.log, "-e", f"trace={names}"], Traced)
        self.kills()
        made = Counter(re.findall(r"^\d+ +(\w+)\(", self.log.read_text(errors="replace"), re.M))
        self.log.unlink()
        return Counter({call: sum(made[name] for name in call.split(",")) for call, _ in FAILING})

    def has_failed(self):
        """Whether a call failed of the last server, which was started to have some fail. It has ended, so that its log is whole."""
        if not self.log.exists():
            return False
        found = "(INJECTED)" in self.log.read_text(errors="replace")
        self.log.unlink()
        return found

    def stops(self, seconds):
        """Stops the server for so long; whether there was one. It may be killed meanwhile."""
        server = self.server
        if server:
            stops(server.process, seconds)
        return server is not None

    # ---- the disk

    def fills(self, seconds):
        """The disk is full for so long. If it is to be full twice, that happens one after the other."""
        balloon = self.disk / "balloon"
        with self.filling:
            try:
                with open(balloon, "wb") as file:
                    while True:
                        file.write(bytes(1 << 20))
                        file.flush()
            except OSError:
                time.sleep(seconds)
            balloon.unlink()

    def is_half_full(self):
        usage = shutil.disk_usage(self.disk)
        return 2 * usage.used > usage.total

    def size(self):
        """How many bytes the store's files have."""
        return sum(path.stat().st_size for path in self.files())

    def files(self):
        return [path for path in self.store.rglob("*") if path.is_file()]

    def objects(self):
        """The paths of all packs, indexes and snapshots, below the store's folder."""
        return {str(path.relative_to(self.store)) for folder in OBJECTS for path in (self.store / folder).rglob("*") if path.is_file()}

    def config(self):
        return json.loads((self.store / "config").read_text())

    def fresh_tokens(self):
        """The tokens in the ledger that were given and have no lock yet."""
        ledger = (self.store / "ledger").read_bytes()
        count = int.from_bytes(ledger[8:10], "big")
        return {int.from_bytes(ledger[at:at + 8], "big") for at in range(10, 10 + 8 * count, 8)}

    # ---- what the server has while nobody works

    def surplus(self):
        """What the server has open and doesn't need while nobody works: all connections, and files of the store other than its lock."""
        found = opened(self.server.process.pid)
        sockets = [path for path in found if path.startswith("socket:")]
        return sockets[1:] + [path for path in found if path.startswith(f"{self.store}/") and path != f"{self.store}/lock"]

    def rests(self):
        """Waits until the server has done all that it was asked for."""
        end = time.monotonic() + WAIT
        while surplus := self.surplus():
            holds(time.monotonic() < end, f"the server has {surplus} open while nobody works")
            time.sleep(0.005)

    def most_memory(self):
        """How many KiB of its own the server may have while nobody works: it may keep room for an object of each connection, and for two more."""
        self.greatest = max([self.greatest, *(path.stat().st_size for path in self.files())])
        return self.memory + GROWTH + (2 + self.plan.at_once) * self.greatest // 1024

    def faults_at_rest(self):
        """What is wrong with the server and its folder while nobody works."""
        yield from self.faults
        if drafts := os.listdir(self.store / "tmp"):
            yield f"tmp has {drafts} while nobody works"
        memory = own_memory(self.server.process.pid)
        if memory > self.most_memory():
            yield f"the server has {memory} KiB of memory, and began with {self.memory}"
