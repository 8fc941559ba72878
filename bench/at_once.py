#!/usr/bin/env python3
"""Times first backups of several machines into one new store over the loopback, one after another and at once; and those of restic
into its rest-server, on the same files in the same minutes, where both are given.

Usage: bench/at_once.py VAULT [RESTIC REST_SERVER]. MIB=N has N MiB for each machine in place of 256.

Each machine has a folder of its own, a mixed tree (bench/files.py) of other bytes than the others'. A line has the program, how
many machines, and how they went; then the seconds of the clock until the last one was done; the least and the most MiB a second that
one of them got; seconds of processors of all clients together, and of the server; and the greatest resident set of one client, and of
the server, in MiB. Afterwards each snapshot is
restored and compared. restic encrypts what it stores; its compression is off. Nothing is kept.
"""
import os
import signal
import subprocess
import sys
import tempfile
import time
from concurrent.futures import ThreadPoolExecutor
from pathlib import Path

HERE = Path(__file__).parent
MIB = int(os.environ.get("MIB", 256))
PORT = int(os.environ.get("PORT", 7083))
ADDRESS = f"127.0.0.1:{PORT}"
MACHINES = (1, 2, 4, 8)


def quiet(*words):
    subprocess.run([str(word) for word in words], check=True, stdout=subprocess.DEVNULL)


def started(words, **how):
    return subprocess.Popen([str(word) for word in words], stdout=subprocess.PIPE, text=True, **how)


def ended(child):
    """What a process printed, its processor time, and its greatest memory in KiB."""
    printed = child.stdout.read()
    _, status, used = os.wait4(child.pid, 0)
    child.returncode = os.waitstatus_to_exitcode(status)
    return printed, used.ru_utime + used.ru_stime, used.ru_maxrss


class Vault:
    """A store that is served by `vault serve --at-once 16`."""
    name = "vault"

    def __init__(self, top, vault, clients):
        self.vault, self.top = vault, top
        quiet(vault, "init", top / "store")
        self.serving = ("serve", top / "store", ADDRESS, "--at-once", 16, "--connections")
        self.begins(clients)

    def begins(self, clients):
        self.server = started((self.vault, *self.serving, clients))
        self.server.stdout.readline()

    def backup(self, machine, folder):
        return started((self.vault, "backup", ADDRESS, f"machine-{machine}", folder))

    def stops(self):
        """It ends by itself once it served all."""
        return ended(self.server)

    def compares(self, folders, told):
        self.begins(len(folders))
        for machine, (folder, printed) in enumerate(zip(folders, told)):
            quiet(self.vault, "restore", ADDRESS, printed.split()[1], self.top / f"to-{machine}")
            quiet("diff", "-r", folder, self.top / f"to-{machine}")
        ended(self.server)


class Restic:
    """A repository of restic that rest-server serves."""
    name = "restic"

    def __init__(self, top, restic, server):
        self.restic, self.top = restic, top
        self.environment = os.environ | {"RESTIC_PASSWORD": "none", "RESTIC_CACHE_DIR": str(top / "cache"), "RESTIC_REPOSITORY": f"rest:http://{ADDRESS}/"}
        self.server = started((server, "--no-auth", "--path", top / "repository", "--listen", ADDRESS), stderr=subprocess.DEVNULL)
        time.sleep(1)
        self.runs("init")

    def runs(self, *words):
        subprocess.run([self.restic, "--quiet", *map(str, words)], env=self.environment, check=True, stdout=subprocess.DEVNULL)

    def backup(self, machine, folder):
        return started((self.restic, "--quiet", "backup", "--compression", "off", "--host", f"machine-{machine}", folder), env=self.environment)

    def stops(self):
        self.server.send_signal(signal.SIGTERM)
        return ended(self.server)

    def compares(self, folders, told):
        """That restic gives back what it stored isn't tried here."""


def timed(child):
    """As `ended`, and the seconds that it took."""
    begun = time.monotonic()
    return *ended(child), time.monotonic() - begun


def line(name, machines, how, clock, clients, server):
    shares = [MIB / it[3] for it in clients]
    processors = f"{sum(it[1] for it in clients):.2f} + {server[1]:.2f}"
    memory = f"{max(it[2] for it in clients) // 1024} + {server[2] // 1024}"
    print(f"| {name} | {machines} | {how} | {clock:.2f} | {min(shares):.1f} to {max(shares):.1f} | {processors} | {memory} |", flush=True)


def tried(made, top, folders, how):
    """Backs each folder up, one after another or at once."""
    store = made(top)
    begun = time.monotonic()
    if how == "at once":
        with ThreadPoolExecutor(len(folders)) as waiting:
            clients = list(waiting.map(lambda it: timed(store.backup(*it)), enumerate(folders)))
    else:
        clients = [timed(store.backup(machine, folder)) for machine, folder in enumerate(folders)]
    clock = time.monotonic() - begun
    line(store.name, len(folders), how, clock, clients, store.stops())
    store.compares(folders, [it[0] for it in clients])


def main(vault, peers):
    makers = [lambda top, count: Vault(top, vault, count)]
    if peers:
        makers.append(lambda top, count: Restic(top, *peers))
    print("| Program | Machines | How | Clock | MiB a second of one | Processors: clients + server | MiB |\n|---|---|---|---|---|---|---|")
    for machines in MACHINES:
        with tempfile.TemporaryDirectory() as top:
            folders = [Path(top) / f"from-{machine}" for machine in range(machines)]
            for machine, folder in enumerate(folders):
                quiet(HERE / "files.py", "make", "mixed", folder, MIB, machine)
            for how in ("one after another", "at once") if machines > 1 else ("alone",):
                for number, maker in enumerate(makers):
                    room = Path(top) / f"{how}-{number}"
                    room.mkdir()
                    tried(lambda top: maker(top, machines), room, folders, how)


if __name__ == "__main__":
    if len(sys.argv) not in (2, 4):
        sys.exit(__doc__)
    main(sys.argv[1], sys.argv[2:])
