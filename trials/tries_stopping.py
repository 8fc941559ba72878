"""Servers and clients that are killed: what was acknowledged stays, and the jobs are run again."""
import shutil
import subprocess
import threading

from connections import Watched
from program import Server, has_status, matches, told
from trying import OPTIONS, WAIT, chosen, holds, same, trial
from yards import SMALL, Yard, entries, filled, is_clean, restores, stored

PUT = 9


class Site:
    """A store with the snapshot of one folder, and a second folder to back up, which has some of the same files."""

    def __init__(self, yard):
        self.yard = yard
        self.first = filled(yard.top / "first", {"same": bytes(range(256)) * 12, "a/x": b"abc" * 70})
        self.second = filled(yard.top / "second", {"same": bytes(range(256)) * 12, "b/y": bytes(range(255, 0, -1)) * 20, "z": b"new" * 99})
        self.to = yard.top / "to"
        with self.served() as server:
            self.name = stored(server.address, self.first)

    def served(self):
        return Server(self.yard.root, connections=99)

    def ends_well(self, address):
        """All locks are removed: the store is well, and both folders are backed up, pruned about, and restored."""
        has_status(told("unlock", address, "--remove-all"), 0)
        is_clean(address)
        restores(address, self.name, self.to, entries(self.first))
        name = stored(address, self.second)
        restores(address, name, self.to, entries(self.second))
        has_status(told("prune", address), 0)
        is_clean(address)
        for each, root in ((self.name, self.first), (name, self.second)):
            restores(address, each, self.to, entries(root))


def begun(*words):
    """A client that runs."""
    return subprocess.Popen([OPTIONS.program, *map(str, words)], stdin=subprocess.DEVNULL, stdout=subprocess.PIPE, stderr=subprocess.PIPE)


def kill(client):
    client.kill()
    client.communicate(timeout=WAIT)


def requests_of(site, job, *words):
    """How many requests a job makes that nothing disturbs, in a copy of the store."""
    copy = site.yard.top / "copy"
    shutil.copytree(site.yard.root, copy)
    with Server(copy, connections=9) as server, Watched(server.port) as line:
        has_status(told(job, line.address, *words), 0)
        count = line.count
    shutil.rmtree(copy)
    return count


def killed_at(site, server, stop, is_answered, job, *words):
    """A client is killed before a request of it arrives, or behind its answer, which it doesn't hear."""
    client, reached = [], threading.Event()

    def ends(at, *_):
        if at == stop:
            reached.wait(WAIT)
            kill(client[0])
            return False
        return True
    hooks = {"after" if is_answered else "before": ends}
    with Watched(server.port, **hooks) as line:
        client.append(begun(job, line.address, *words))
        reached.set()
        client[0].wait(WAIT)
        client[0].communicate(timeout=WAIT)
    same(client[0].returncode, -9, f"{job}, killed at request {stop}")


def clients_killed(job, words_of, few):
    """A client of this job is killed at each of its requests, before and behind it, in a store of its own each time."""
    with Yard(*SMALL, is_store=True) as yard:
        site = Site(yard)
        words = words_of(site)
        count = requests_of(site, job, *words)
        holds(count > 4, f"{job} makes {count} requests")
        shutil.copytree(yard.root, yard.top / "kept")
        for stop, is_answered in chosen([(stop, is_answered) for stop in range(count) for is_answered in (False, True)], few):
            shutil.rmtree(yard.root)
            shutil.copytree(yard.top / "kept", yard.root)
            with site.served() as server:
                killed_at(site, server, stop, is_answered, job, *words)
                site.ends_well(server.address)


@trial(is_early=True)
def a_backup_that_is_killed_at_a_request():
    clients_killed("backup", lambda site: ["h", site.second], 8)


@trial(is_early=True)
def a_prune_that_is_killed_at_a_request():
    def with_rest(site):
        """What a prune has to do: a snapshot is forgotten that has some of what the other has."""
        with site.served() as server:
            gone = stored(server.address, site.second)
            has_status(told("forget", server.address, gone), 0)
        return []
    clients_killed("prune", with_rest, 8)


@trial
def a_forget_that_is_killed_at_a_request():
    def another(site):
        with site.served() as server:
            return [stored(server.address, site.second)]
    clients_killed("forget", another, 5)


@trial
def a_restore_that_is_killed_at_a_request():
    def into(site):
        return [site.name, site.yard.top / "half"]

    def words(site):
        shutil.rmtree(site.yard.top / "half", ignore_errors=True)
        return into(site)
    with Yard(*SMALL, is_store=True) as yard:
        site = Site(yard)
        count = requests_of(site, "restore", *words(site))
        for stop in chosen(range(count), 5):
            with site.served() as server:
                killed_at(site, server, stop, True, "restore", *words(site))
                for path, data in (entries(yard.top / "half") if (yard.top / "half").exists() else {}).items():
                    if not path.split("/")[-1].startswith("!restoring-"):
                        same(data, entries(site.first)[path], path)
                has_status(told("unlock", server.address, "--remove-all"), 0)
                restores(server.address, site.name, site.to, entries(site.first))


@trial
def a_lock_that_was_left_behind_stands_in_the_way():
    """Of a prune and a check, and not of backups, lists and restores; it can be removed."""
    with Yard(*SMALL, is_store=True) as yard:
        site = Site(yard)
        with site.served() as server:
            killed_at(site, server, 4, True, "backup", "left", site.second)
            matches(told("locks", server.address), r"0\|(\d+) shared \d+ left\n\|")
            for job in ("prune", "check"):
                same(told(job, server.address), "1||busy\n", job)
            restores(server.address, site.name, site.to, entries(site.first))
            matches(told("snapshots", server.address), rf"0\|{site.name} \d+ h\n\|")
            same(told("unlock", server.address), "0||")
            site.ends_well(server.address)


def server_killed_at(site, stop, is_answered):
    """A server is killed at a request of a backup, which ends, or goes on over the next server: what it told."""
    first = site.served()

    def ends(at, *_):
        if at == stop and first.process.poll() is None:
            first.kill()
            second.append(site.served())
            line.port = second[0].port
            return False
        return True
    second = []
    with Watched(first.port, **{"after" if is_answered else "before": ends}) as line:
        got = told("backup", line.address, "h", site.second, "--retry", 1)
        same(first.process.poll() is not None, True, f"the server is killed at request {stop}")
    return got, second[0]


@trial(is_early=True)
def a_server_that_is_killed_and_started_again():
    """At each request of a backup, which goes on over the next server; what a killed server left in tmp the next one removes."""
    with Yard(*SMALL, is_store=True) as yard:
        site = Site(yard)
        count = requests_of(site, "backup", "h", site.second)
        shutil.copytree(yard.root, yard.top / "kept")
        for stop, is_answered in chosen([(stop, is_answered) for stop in range(count) for is_answered in (False, True)], 8):
            shutil.rmtree(yard.root)
            shutil.copytree(yard.top / "kept", yard.root)
            got, server = server_killed_at(site, stop, is_answered)
            with server:
                matches(got, r"0\|stored ([0-9a-f]{64}) \d+ \d+\n\||1\|\|fenced\n", f"killed at request {stop}")
                yard.holds("tmp", 0)
                for name in (line.split()[0] for line in told("snapshots", server.address).split("|")[1].splitlines()):
                    restores(server.address, name, site.to, entries(site.first if name == site.name else site.second))
                if got.startswith("0|"):
                    restores(server.address, got.split()[1], site.to, entries(site.second))
                site.ends_well(server.address)


@trial
def a_job_without_a_server_ends_and_is_run_again():
    """Killed without another one behind it: `read failed`, and then `not reached` where it connects again."""
    with Yard(*SMALL, is_store=True) as yard:
        site = Site(yard)
        for retry, wanted in ((0, "1||read failed\n"), (2, "1||read failed\n")):
            server = site.served()

            def ends(at, request, server=server):
                if request[4] == PUT:
                    server.kill()
                return True
            with Watched(server.port, before=ends) as line:
                same(told("backup", line.address, "h", site.second, "--retry", retry), wanted)
        with site.served() as server:
            site.ends_well(server.address)
