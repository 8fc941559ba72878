"""Each step of each client disturbed in turn, judged by what is restored: in scripts that `vault play` plays, and with real processes.

A real client is killed before a request of its arrives, or behind its answer; its lock is removed, or its server killed, and it goes on over the
next connection. The clients after it run on, and at last its last request comes once more. Then all locks are removed: a check is clean, and
each snapshot that is listed is restored byte for byte, among them each one that was told as stored and that no forget was asked to delete.
"""
import shutil
import threading
from dataclasses import dataclass, field

import sweep
from connections import Watched
from program import Server, has_status, told
from tries_stopping import begun, kill
from trying import OPTIONS, WAIT, chosen, holds, same, trial
from yards import SMALL, Yard, entries, filled, is_clean, restores

# How many disturbances of a world are tried in the gate.
FEW = 9


def swept(name, world):
    """A trial of a world of scripts."""
    def run():
        every = 1 if OPTIONS.is_long else max(1, sum(1 for _ in sweep.disturbed(OPTIONS.program, world)) // FEW)
        tried, wrong = sweep.sweep(OPTIONS.program, name, world, every)
        same(wrong, [])
        holds(tried >= FEW, f"{tried} were tried")
    run.__name__, run.__module__ = "a_sweep_over_" + name.replace(" ", "_"), __name__
    trial(run, is_early=True)


for each, clients in sweep.WORLDS.items():
    swept(each, clients)


@trial
def worlds_by_hand_are_the_worked_scripts():
    for name in sweep.BY_HAND:
        same(list(sweep.by_hand(OPTIONS.program, name)), [], name)


@dataclass
class Run:
    """A store with its server, and clients that run one after another; one of them is disturbed at one of its requests."""

    yard: Yard
    sources: dict
    at: int = -1
    stop: int = 0
    way: str = ""
    names: dict = field(default_factory=dict)
    forgotten: set = field(default_factory=set)
    server: Server = None
    last: bytes = b""
    counts: list = field(default_factory=list)

    def serves(self):
        self.server = Server(self.yard.root, connections=999)

    def words(self, client):
        """The words of a client; a host is the number of its backup."""
        job, what = client
        if job == "backup":
            return [job, f"h{len(self.counts)}", self.sources[what]]
        if job == "forget":
            name = self.names.get(what)
            self.forgotten |= {name}
            return [job, name] if name else ["snapshots"]
        return [job]

    def runs(self, client):
        """Runs a client, and disturbs it where it is the one."""
        words, number = self.words(client), len(self.counts)
        disturb = Disturbing(self) if number == self.at else None
        with Watched(self.server.port, **(disturb.hooks() if disturb else {})) as line:
            got = disturb.runs(line, words) if disturb else told(words[0], line.address, *words[1:])
            self.counts.append(line.count)
            if disturb and line.requests:
                self.last = line.requests[-1]
        if got.startswith("0|stored "):
            self.names[number] = got.split()[1]
        if disturb:
            has_status(told("unlock", self.server.address, "--remove-all"), 0)
        return got

    def ends(self):
        """The last request comes once more; then all has to be as it has to be."""
        if self.last:
            self.server.asked(self.last.hex())
        has_status(told("unlock", self.server.address, "--remove-all"), 0)
        is_clean(self.server.address)
        listed = {line.split()[0]: line.split()[2] for line in told("snapshots", self.server.address).split("|")[1].splitlines()}
        same(set(self.names.values()) - self.forgotten - set(listed), set(), "snapshots that are lost")
        for name, host in listed.items():
            source = self.sources[CLIENTS[int(host[1:])][1]]
            restores(self.server.address, name, self.yard.top / "again", entries(source))


class Disturbing:
    """Disturbs a client at one of its requests."""

    def __init__(self, run):
        self.run, self.client, self.reached, self.met = run, None, threading.Event(), False

    def hooks(self):
        return {"after" if self.run.way == "unheard" else "before": self.disturbs}

    def disturbs(self, at, *_):
        if at != self.run.stop or self.met:
            return True
        self.met = True
        if self.run.way in ("killed", "unheard"):
            self.reached.wait(WAIT)
            kill(self.client)
        elif self.run.way == "server killed":
            self.run.server.kill()
            self.run.serves()
            self.line.port = self.run.server.port
        return False

    def runs(self, line, words):
        self.line = line
        if self.run.way in ("killed", "unheard"):
            self.client = begun(words[0], line.address, *words[1:])
            self.reached.set()
            self.client.wait(WAIT)
            return ""
        takes = line.takes

        def behind_removal(client):
            """Its second connection is let through once its lock is removed."""
            if self.met and self.run.way == "loses its lock":
                self.run.way = ""
                told("unlock", self.run.server.address, "--remove-all")
            takes(client)
        line.takes = behind_removal
        return told(words[0], line.address, *words[1:], "--retry", 1)


# Each client: its job, and the folder that it backs up, or the client whose snapshot it forgets.
CLIENTS = [("backup", "one"), ("backup", "two"), ("forget", 0), ("prune", None), ("backup", "one"), ("check", None)]
WAYS = ("killed", "unheard", "loses its lock", "server killed")


def played(yard, sources, at=-1, stop=0, way=""):
    """All clients run, one after another: how many requests each made."""
    shutil.rmtree(yard.root, ignore_errors=True)
    shutil.copytree(yard.top / "new", yard.root)
    run = Run(yard, sources, at, stop, way)
    run.serves()
    try:
        for client in CLIENTS:
            run.runs(client)
        run.ends()
        return run.counts
    finally:
        run.server.kill()


@trial(is_early=True)
def a_sweep_over_real_processes():
    with Yard(*SMALL, is_store=True) as yard:
        sources = {"one": filled(yard.top / "one", {"same": bytes(range(256)), "a/x": b"abc" * 40, "y": b"only here" * 30}),
                   "two": filled(yard.top / "two", {"same": bytes(range(256)), "z": b"new" * 50})}
        shutil.copytree(yard.root, yard.top / "new")
        counts = played(yard, sources)
        holds(all(count >= 5 for count in counts), counts)
        places = [(at, stop, way) for at, count in enumerate(counts) for stop in range(count) for way in WAYS]
        for at, stop, way in chosen(places, 17):
            try:
                played(yard, sources, at, stop, way)
            except AssertionError as error:
                raise AssertionError(f"client {at}, {CLIENTS[at][0]}, {way} at request {stop}: {error}") from error
