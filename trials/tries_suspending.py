"""Programs that are stopped while they wait, and go on, as those of a machine that sleeps do: no connection is lost by it."""
import signal
import threading
from pathlib import Path

from connections import Watched
from program import TICKET, Server, read_frame, told
from tries_stopping import begun
from trying import WAIT, awaits, holds, same, trial
from yards import SMALL, Yard, entries, filled, in_store, large_gets, restores, stored

# A time-out on the socket, as the units have it: without one the system itself goes on with a call that was stopped.
IDLE = ("--idle", 3600)
DONE = {"backup": "0|stored ", "snapshots": "0|", "restore": "0|complete 3\n|", "forget": "0|forgotten ", "prune": "0|pruned 1 0\n|",
        "check": "0|clean 1 1 1 "}


def state(process):
    """`S` if it waits, `T` if it is stopped, `Z` if it has ended."""
    try:
        return Path(f"/proc/{process.pid}/stat").read_text().rpartition(")")[2].split()[0]
    except FileNotFoundError:
        return "Z"


def naps(process, times=3):
    """A process that waits is stopped, and goes on until it waits again, or ends."""
    for _ in range(times):
        awaits(lambda: state(process) in "SZ", "it waits")
        process.send_signal(signal.SIGSTOP)
        awaits(lambda: state(process) in "TZ", "it is stopped")
        process.send_signal(signal.SIGCONT)
    awaits(lambda: state(process) in "SZ", "it waits again")


@in_store
def a_server_that_waits_for_a_request(yard):
    """It waits inside a frame."""
    for words in ([], ["--at-once", 2]):
        with Server(yard.root, *words) as server, server.connected(bytes.fromhex(TICKET) * 2 + bytes.fromhex(TICKET)[:9]) as client:
            same([len(read_frame(client)) for _ in range(2)], [37, 37])
            naps(server.process)
            client.sendall(bytes.fromhex(TICKET)[9:])
            same(len(read_frame(client)), 37)
            client.close()
            same(server.end(), "0||", words)


@in_store
def a_server_that_waits_until_its_replies_are_taken(yard):
    gets = large_gets(yard)
    with Server(yard.root) as server, server.connected(gets) as client:
        naps(server.process)
        for _ in range(16):
            same(len(read_frame(client)), 4 + 25 + 4_000_000)
        client.close()
        same(server.end(), "0||")


def meets(job, address, line, client, ready, words):
    """Runs the job over the line, and stops it while it waits for each of its replies. Returns what the job printed."""
    client.append(begun(job, line.address, *words, *IDLE))
    ready.set()
    out, faults = client[0].communicate(timeout=WAIT)
    same(told("locks", address), "0||", f"{job}: {faults.decode()}")
    return f"{client[0].returncode}|{out.decode()}|{faults.decode()}"


def stopped(job, server, *words):
    client, ready = [], threading.Event()

    def waits(*_):
        ready.wait(WAIT)
        naps(client[0], 1)
    with Watched(server.port, after=waits) as line:
        return meets(job, server.address, line, client, ready, words)


@trial
def a_job_that_waits_for_a_reply():
    """Each job is stopped at each of its replies, and its lock is given back at the end."""
    with Yard(*SMALL, is_store=True) as yard, Server(yard.root, connections=99) as server:
        source = filled(yard.top / "from", {"deep/y": b"abcdef", "x": b"abc"})
        name = ""
        for job, wanted in DONE.items():
            words = {"backup": ["h", source], "restore": [name, yard.top / "to"], "forget": [name]}.get(job, [])
            if job == "check":
                name = stored(server.address, source)
            got = stopped(job, server, *words)
            holds(got.startswith(wanted) and got.endswith("|"), f"{job}: {got}")
            name = got.split()[1] if job == "backup" else name
        restores(server.address, name, yard.top / "to", entries(source))


@trial
def a_question_that_waits_for_its_reply():
    with Yard(is_store=True) as yard, Server(yard.root, connections=9) as server:
        for words, wanted in ((["locks"], "0||"), (["refresh", 9], "1||refused 2\n"), (["unlock"], "0||")):
            same(stopped(words[0], server, *words[1:]), wanted, words)
