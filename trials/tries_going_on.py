"""Jobs over connections that end, and that go on over the next ones (`--retry`)."""
import re
import socket
import subprocess

from connections import ALL, Cutter, Said
from program import Closed, Server, told
from trying import OPTIONS, Skipped, awaits, chosen, holds, same, trial
from yards import SMALL, Yard, entries, filled

# What a job that is told as done says first.
BEGINS = {"backup": "0|stored ", "snapshots": "0|", "restore": "0|complete 3\n|", "forget": "0|forgotten ", "prune": "0|pruned 1 0\n|",
          "check": "0|clean 1 1 1 "}
# Where the first connection is cut off: after so many bytes of what is answered. All answers together are longer than none of these jobs'.
PLACES = range(0, 70 * 23, 23)


class Site:
    """A store with a folder to back up, in which a job is tried."""

    def __init__(self, top):
        self.store, self.source, self.target, self.name = top / "store", filled(top / "from", {"deep/y": b"abcdef", "x": b"abc"}), top / "to", "0" * 64
        told("init", self.store, *SMALL)

    def run(self, job, brings=(ALL,), retry=0):
        """A job over connections that bring so much."""
        words = {"backup": ["a", self.source], "restore": [self.name, self.target], "forget": [self.name]}.get(job, [])
        with Server(self.store, connections=len(brings)) as server, Cutter(server.port, brings) as line:
            return told(job, line.address, *words, *(["--retry", retry] if retry else []))

    def begins(self, job):
        """What has to stand there for it."""
        if job != "backup":
            self.name = self.run("backup").split()[1]
        if job == "prune":
            self.run("forget")


def tried(job, brings, retry):
    """What a job tells over these connections in a store of its own, what a check tells after it, and what was restored."""
    with Yard() as yard:
        site = Site(yard.top)
        site.begins(job)
        got = site.run(job, brings, retry)
        checked = site.run("check")
        return nameless(got), nameless(checked), entries(site.target) if site.target.is_dir() else None


def nameless(text):
    """Without the names and the times of snapshots, which differ from store to store."""
    return re.sub(r"\b[0-9a-f]{64}( \d{10} a)?", "NAME", text)


def goes_on(job):
    """Wherever the first connection ends, the job ends as over one, and so does a check behind it."""
    def run():
        wanted = tried(job, [ALL], 0)
        holds(wanted[0].startswith(BEGINS[job]) and wanted[1].startswith("0|clean "), wanted)
        if job == "restore":
            same(wanted[2], {"deep": None, "deep/y": b"abcdef", "x": b"abc"})
        for place in chosen(PLACES, 20):
            same(tried(job, [place, ALL], 1), wanted, f"cut off after {place} bytes")
    run.__name__, run.__module__ = f"a_{job}_goes_on", __name__
    trial(run, is_early=True)


for name in BEGINS:
    goes_on(name)


@trial
def a_job_that_may_not_go_on_does_not():
    """Without the option the first end of a connection is told, and nothing that was acknowledged is lost."""
    for job in BEGINS:
        got, checked, _ = tried(job, [40], 0)
        same(got, "1||read failed\n", job)
        holds(re.fullmatch(r"1\|\|busy\n|0\|clean \d 1 1 \d\n\||0\|clean 0 0 0 0\n\|", checked), f"{job}: {checked}")


@trial
def a_job_goes_on_over_many_connections():
    """Six connections that end after a reply or two, and one that doesn't."""
    same(tried("restore", [40, 0, 70, 70, 300, 90, ALL], 6), tried("restore", [ALL], 0))


@trial
def the_error_of_the_last_try_is_told():
    for brings, retry in (([40, ALL, ALL], 0), ([40, 0, ALL], 1), ([40, 0, 100], 2), ([40, 0, 100], 3)):
        same(tried("check", brings, retry)[0], "1||read failed\n" if retry < len(brings) else "1||not reached\n", (brings, retry))


@trial
def each_sort_of_end_is_tried_again():
    """Connections that bring bytes which are no reply: how a list ends, and how many of them it asked for."""
    says = [b"", b"\xff" * 4, b""]
    for retry, wanted, count in ((0, "1||read failed\n", 1), (1, "1||malformed\n", 2), (2, "1||read failed\n", 3), (3, "1||not reached\n", 3)):
        with Said(*says) as server:
            same(told("snapshots", server.address, "--retry", retry), wanted, f"--retry {retry}")
        same(server.taken, count, f"connections with --retry {retry}")


class Full:
    """An address whose listener takes no more connections: who connects there waits."""

    def __enter__(self):
        self.sockets = [socket.socket()]
        self.sockets[0].bind(("127.0.0.1", 0))
        self.sockets[0].listen(0)
        address = self.sockets[0].getsockname()
        for _ in range(20):
            self.sockets.append(socket.socket())
            self.sockets[-1].settimeout(1)
            try:
                self.sockets[-1].connect(address)
            except TimeoutError:
                return f"127.0.0.1:{address[1]}"
        self.__exit__()
        raise Skipped("a listener of this system takes any number of connections")

    def __exit__(self, *_):
        for it in self.sockets:
            it.close()


@trial
def connecting_takes_no_longer_than_idle():
    """The system itself gives up after two minutes, for which nobody waits here."""
    with Full() as address:
        for words in (["locks", address, "--idle", 1], ["snapshots", address, "--idle", 1, "--retry", 1]):
            run = subprocess.run([OPTIONS.program, *map(str, words)], capture_output=True, stdin=subprocess.DEVNULL, timeout=20)
            same((run.returncode, run.stdout, run.stderr), (1, b"", b"not reached\n"), words)


@trial
def an_address_is_reached_while_somebody_listens():
    with Yard() as yard, Closed() as address:
        for words in (["snapshots", address], ["snapshots", address, "--retry", 2], ["locks", address], ["backup", address, "h", "/", "--retry", 9],
                      ["restore", address, "0" * 64, yard.root], ["forget", address, "--keep-last", 1], ["prune", address], ["check", address],
                      ["refresh", address, 1], ["unlock", address], ["forget", address]):
            same(told(*words), "1||not reached\n", words)
        yard.lacks("")


@trial
def a_job_with_its_own_end_is_not_tried_again():
    """Nothing is asked again where the job itself came to an end, or where its words are wrong."""
    with Yard(is_store=True) as yard, Server(yard.root, connections=9) as server, Cutter(server.port, [ALL] * 9) as line:
        same(told("restore", line.address, "0" * 64, yard.top / "to", "--retry", 5), f"1||missing snapshot\nsnapshot {'0' * 64}\n")
        same(told("backup", line.address, "h", yard.top / "away", "--retry", 5), f"1||unreadable {yard.top}/away\n")
        same(told("forget", line.address, "--retry", 5), "1||no policy\n")
        awaits(lambda: line.taken >= 3, "three connections")
    same(line.taken, 3, "connections")
    for value in ("-1", "soon", "18446744073709551616"):
        same(told("check", "127.0.0.1:1", "--retry", value)[:3], "2||", value)


@trial
def a_server_that_says_nothing_is_given_up():
    """It takes connections, and never a word over them; with `--retry` the next one comes to the same."""
    with socket.create_server(("127.0.0.1", 0)) as silent:
        address = f"127.0.0.1:{silent.getsockname()[1]}"
        for words in (["snapshots", address], ["locks", address], ["check", address, "--retry", 1]):
            same(told(*words, "--idle", 1), "1||read failed\n", words)
