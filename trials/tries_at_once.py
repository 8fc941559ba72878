"""`vault serve --at-once`: several machines at one server, of which none holds another up."""
import hashlib
import os
import re
import resource
import select
import socket
import threading
from contextlib import suppress

from connections import Watched
from program import TICKET, Server, frame, has_status, matches, number, read_frame, refused, rest_of, token, told
from tries_hostile import files, memory
from trying import WAIT, awaits, holds, same, trial
from yards import LARGE_OBJECT, Yard, entries, filled, gives_back, in_store, is_clean, large_gets, restores, stored

LOCK, PUT = 2, 9
# A put under a token that was never issued, in a frame of two million bytes.
LARGE = frame(PUT, number(9), b"\0", hashlib.sha256(bytes(2_000_000)).digest(), bytes(2_000_000))


def folders(yard):
    """Two folders that have some of the same files; one has more than fits a small frame."""
    first = filled(yard.top / "first", {"same": bytes(range(256)) * 12, "a/large": os.urandom(3_000_000)})
    second = filled(yard.top / "second", {"same": bytes(range(256)) * 12, "b/y": os.urandom(50_000), "z": b"new" * 99})
    return first, second


def meanwhile(acts):
    """Something is done in a thread of its own; what it gives is waited for by the call of what this gives."""
    found = []
    thread = threading.Thread(target=lambda: found.append(acts()), daemon=True)
    thread.start()

    def waits():
        thread.join(WAIT)
        holds(found, "it didn't come to its end")
        return found[0]
    return waits


def is_refused(server):
    """Whether nobody may connect to it any more."""
    try:
        server.connected().close()
    except ConnectionRefusedError:
        return True
    return False


def at_first(tag, acts):
    """Before the first request of this tag something is done."""
    done = []

    def before(_, request):
        if request[4] == tag and not done:
            done.append(acts())
    return before


def are_kept(yard, server, kept):
    """Each of these snapshots is restored, and the store is well."""
    for name, root in kept:
        restores(server.address, name, yard.top / "to", entries(root))
    is_clean(server.address)


@in_store
def words_of_serving_at_once(yard):
    for words in (["0"], ["257"], ["-1"], ["some"], [""], ["18446744073709551616"]):
        same(told("serve", yard.root, "127.0.0.1:0", "--at-once", *words)[:3], "2||", words)
    for words in (["-1"], ["some"], [""], ["18446744073709551616"]):
        same(told("serve", yard.root, "127.0.0.1:0", "--memory", *words)[:3], "2||", words)
    for at, words in enumerate((["--at-once", "1"], ["--at-once", "2", "--memory", "1"], ["--at-once", "256", "--idle", "9", "--memory", "18446744073709551615"])):
        yard.serves(TICKET, "0||", token(at + 1), *words)
    yard.serves(frame(10, number(9), b"\0", bytes(32)).hex(), "0||", refused(14), "--at-once", "2", "--append-only")


@in_store
def connections_are_answered_in_turn(yard):
    """Each of two that stay is answered, and so is the other half of a request that came in two pieces."""
    whole = bytes.fromhex(TICKET)
    with Server(yard.root, "--at-once", 3, connections=3) as server:
        half, one, other = server.connected(whole[:20]), server.connected(whole), server.connected()
        same(read_frame(one).hex(), token(1))
        other.sendall(whole)
        same(read_frame(other).hex(), token(2))
        half.sendall(whole[20:])
        same(read_frame(half).hex(), token(3))
        one.sendall(whole)
        same(read_frame(one).hex(), token(4))
        for client in (half, one, other):
            client.close()
        same(server.end(), "0||")


@in_store
def requests_of_one_connection_are_answered_in_their_order(yard):
    """So are those that come all at once, the last of them before the end of what is sent."""
    with Server(yard.root, "--at-once", 2) as server:
        whole = b"".join(frame(1, sequence=it) for it in range(1, 101))
        with server.connected(whole) as client:
            client.shutdown(socket.SHUT_WR)
            same(rest_of(client), b"".join(frame(129, number(it), sequence=it) for it in range(1, 101)))
        same(server.end(), "0||")


@in_store
def who_makes_no_sense_ends_alone(yard):
    with Server(yard.root, "--at-once", 4, connections=4) as server:
        with server.connected() as stays:
            same(server.asked("0000001901"), "")
            same(server.asked("ffffffff", is_last=False), "")
            same(server.asked(TICKET + "0000"), token(1))
            stays.sendall(bytes.fromhex(TICKET))
            same(read_frame(stays).hex(), token(2))
        same(server.end(), "1||malformed\nmalformed\nmalformed\n")


@in_store
def the_server_ends_with_its_last_connection(yard):
    """Two are taken, and a third is refused; the first stays for as long as it likes."""
    with Server(yard.root, "--at-once", 8, connections=2) as server:
        with server.connected() as stays:
            same(server.asked(TICKET), token(1))
            awaits(lambda: is_refused(server), "a third is refused")
            stays.sendall(bytes.fromhex(TICKET))
            same(read_frame(stays).hex(), token(2))
            stays.close()
        same(server.end(), "0||")


@in_store
def no_more_are_served_than_were_to_be_at_once(yard):
    """A third waits until one of two leaves, and the server says so, once."""
    with Server(yard.root, "--at-once", 2, connections=4) as server:
        one, other, third = server.connected(), server.connected(), server.connected(bytes.fromhex(TICKET))
        for value, client in ((1, one), (2, other)):
            client.sendall(bytes.fromhex(TICKET))
            same(read_frame(client).hex(), token(value))
        awaits(lambda: select.select([server.process.stderr], [], [], 0)[0], "it says so")
        same(server.process.stderr.readline(), b"all places are taken\n")
        one.close()
        same(read_frame(third).hex(), token(3))
        fourth = server.connected(bytes.fromhex(TICKET))
        other.close()
        same(read_frame(fourth).hex(), token(4))
        third.close()
        fourth.close()
        same(server.end(), "1||")


@in_store
def all_places_may_be_taken_by_all_who_come(yard):
    """Nobody waits, so nothing is said; nor is it where one is served after another."""
    with Server(yard.root, "--at-once", 2, connections=3) as server:
        one, other = server.connected(bytes.fromhex(TICKET)), server.connected(bytes.fromhex(TICKET))
        for client in (one, other):
            same(len(read_frame(client)), 37)
            client.close()
        same(server.asked(TICKET), token(3))
        same(server.end(), "0||")
    with Server(yard.root, connections=2) as server:
        with server.paused():
            clients = [server.connected(bytes.fromhex(TICKET)) for _ in range(2)]
        for client in clients:
            same(len(read_frame(client)), 37)
            client.close()
        same(server.end(), "0||")


@in_store
def silent_ones_are_ended_and_the_others_are_not(yard):
    """One says nothing, one stops inside a frame, one reads nothing; who asks is answered all the while."""
    gets = large_gets(yard)
    with Server(yard.root, "--at-once", 4, "--idle", 1, connections=4) as server:
        unread = server.connected(gets)
        silent = [server.connected(sent) for sent in (b"", bytes([0, 0, 0, 25, 1]))]
        ended = threading.Event()

        def ends():
            came = [rest_of(client) for client in silent]
            ended.set()
            return came
        waits, at = meanwhile(ends), 0
        with server.connected() as asks:
            while not ended.is_set():
                at += 1
                asks.sendall(bytes.fromhex(TICKET))
                same(read_frame(asks).hex(), token(at))
        same(waits(), [b"", b""])
        unread.close()
        status, _, faults = server.end().split("|")
        same((status, sorted(faults.splitlines())), ("1", ["read failed", "read failed", "write failed"]))


@in_store
def a_backup_goes_on_while_clients_sleep(yard):
    """One stopped in the middle of a large frame, one in a small one, one takes nothing; each wakes, and is answered."""
    first, _ = folders(yard)
    gets = large_gets(yard)
    with Server(yard.root, "--at-once", 8, connections=99) as server:
        sleeps, small, unread = server.connected(LARGE[:1_900_000]), server.connected(bytes.fromhex(TICKET)[:9]), server.connected(gets)
        name = stored(server.address, first)
        restores(server.address, name, yard.top / "to", entries(first))
        sleeps.sendall(LARGE[1_900_000:])
        same(read_frame(sleeps).hex(), refused(2))
        small.sendall(bytes.fromhex(TICKET)[9:])
        same(read_frame(small).hex()[:10], "0000002181")
        for at in range(16):
            holds(read_frame(unread) == frame(132, LARGE_OBJECT, sequence=at), f"reply {at}")
        for client in (sleeps, small, unread):
            client.close()


MOST = frame(PUT, number(9), b"\0", bytes(32), bytes(25_000_000))


class Trickles:
    """Connections that send a byte of a frame of 25 MB at a time."""

    def __init__(self, server, count):
        self.clients = [server.connected(MOST[:1_900_000]) for _ in range(count)]
        self.ends = threading.Event()
        self.thread = threading.Thread(target=self.sends, daemon=True)
        self.thread.start()

    def sends(self):
        while not self.ends.wait(0.2):
            for client in self.clients:
                with suppress(OSError):
                    client.sendall(b"\0")

    def stops(self):
        self.ends.set()
        self.thread.join(WAIT)
        for client in self.clients:
            client.close()


@in_store
def two_that_trickle_hold_nobody_up(yard):
    """By default there is room for a large frame of each connection: a backup of such ends while two send a byte at a time."""
    first, _ = folders(yard)
    with Server(yard.root, "--at-once", 8, connections=99) as server:
        trickles = Trickles(server, 2)
        gives_back(server.address, first, yard.top / "to")
        trickles.stops()


@trial(is_long=True)
def two_that_trickle_lose_their_room():
    """There is room for two large frames: a backup waits for a minute, and then each that was too slow is ended."""
    with Yard(is_store=True) as yard, Server(yard.root, "--at-once", 8, "--memory", 50, connections=4) as server:
        first, _ = folders(yard)
        trickles = Trickles(server, 2)
        awaits(lambda: memory(server, "VmRSS:") > 3_000, "both are read")
        name = stored(server.address, first)
        trickles.stops()
        restores(server.address, name, yard.top / "to", entries(first))
        status, _, faults = server.end().split("|")
        holds(status == "1" and set(faults.splitlines()) <= {"too slow", "malformed"} and "too slow" in faults, faults)


@in_store
def a_large_frame_alone_may_be_slow(yard):
    """One alone is read, however little memory there is for it, and however it comes."""
    with Server(yard.root, "--at-once", 4, "--memory", 1, connections=2) as server:
        with server.connected(LARGE[:1_900_000]) as client:
            same(server.asked(TICKET), token(1))
            client.sendall(LARGE[1_900_000:-1])
            client.sendall(LARGE[-1:])
            same(read_frame(client).hex(), refused(2))
        same(server.end(), "0||")


def packs_put(server, done, counts, at):
    """A machine that is busy: over each connection it takes a lock and puts two packs, until it is told to end."""
    while not done.is_set():
        with server.connected(frame(1)) as client:
            value = read_frame(client)[-8:]
            client.sendall(frame(LOCK, value, b"\0", number(5), b"\1a", sequence=2))
            read_frame(client)
            for sequence in (3, 4):
                pack = os.urandom(2_000_000)
                client.sendall(frame(PUT, value, b"\0", hashlib.sha256(pack).digest(), pack, sequence=sequence))
                same(read_frame(client)[4], 130)
                counts[at] += 1
            client.sendall(frame(4, value, sequence=5))
            read_frame(client)


@in_store
def busy_machines_have_equal_shares(yard):
    """Six, at four places and at eight, with room for one large frame: the slowest has put at least half of the fastest's packs."""
    for places in (4, 8):
        with Server(yard.root, "--at-once", places, "--memory", 3, connections=10**6) as server:
            done, counts = threading.Event(), [0] * 6
            waits = [meanwhile(lambda at=at: packs_put(server, done, counts, at) or True) for at in range(6)]
            awaits(lambda: sum(counts) >= 72, "72 packs")
            done.set()
            shares = list(counts)
            for ends in waits:
                ends()
            holds(min(shares) * 2 >= max(shares), f"they had put {shares}, with {places} places")


@in_store
def vanished_clients_hold_nobody_up(yard):
    """Two hundred say nothing any more, half of them in the middle of a frame; backups beside them end, and so do their restores."""
    first, second = folders(yard)
    with Server(yard.root, "--at-once", 256, connections=9999) as server:
        vanished = [server.connected(LARGE[:100] if at % 2 else b"") for at in range(200)]
        names = [waits() for waits in [meanwhile(lambda root=root: stored(server.address, root)) for root in (first, second)]]
        are_kept(yard, server, zip(names, (first, second)))
        for client in vanished:
            client.close()


@in_store
def two_backups_run_at_once(yard):
    """All of the second is done between two requests of the first."""
    first, second = folders(yard)
    with Server(yard.root, "--at-once", 4, connections=99) as server:
        names = []
        with Watched(server.port, at_first(PUT, lambda: names.append(stored(server.address, second)))) as line:
            names.append(stored(line.address, first))
        same(len(names), 2)
        are_kept(yard, server, zip(names, (second, first)))


@in_store
def many_backups_at_once(yard):
    """Eight clients store folders of their own, each over its own connection."""
    roots = [filled(yard.top / f"from{it}", {"same": bytes(range(256)) * 99, f"own{it}": os.urandom(200_000)}) for it in range(8)]
    with Server(yard.root, "--at-once", 5, connections=99) as server:
        names = [waits() for waits in [meanwhile(lambda root=root: stored(server.address, root)) for root in roots]]
        are_kept(yard, server, zip(names, roots))


@in_store
def who_is_connected_and_idle_costs_little(yard):
    """Two hundred and fifty connections, each of which asked once; beside them a backup, and its restore."""
    first, _ = folders(yard)
    with Server(yard.root, "--at-once", 256, connections=9999) as server:
        before = memory(server, "VmRSS:")
        clients = [server.connected(bytes.fromhex(TICKET)) for _ in range(250)]
        for client in clients:
            same(len(read_frame(client)), 37)
        after = memory(server, "VmRSS:")
        holds(after - before < 250 * 200, f"it has {after} KiB, and had {before}")
        gives_back(server.address, first, yard.top / "to")
        for client in clients:
            client.sendall(bytes.fromhex(TICKET))
            same(len(read_frame(client)), 37)
            client.close()


@in_store
def many_large_frames_take_what_two_take(yard):
    """There is room for two. Twelve send a frame of twenty-five million bytes each, and each is answered."""
    with Server(yard.root, "--at-once", 16, "--memory", 50, connections=13) as server:
        before = memory(server, "VmHWM:")

        def puts():
            with server.connected(MOST) as client:
                return read_frame(client)[4]
        same([waits() for waits in [meanwhile(puts) for _ in range(12)]], [134] * 12)
        most = memory(server, "VmHWM:")
        holds(most < before + 200 * 1024, f"it had {most} KiB at most, and {before} before")
        same(server.asked(TICKET), token(1))
        has_status(server.end(), 0)


@in_store
def a_prune_that_runs_is_told_as_busy(yard):
    """A restore, a backup and a list while a prune has the store for itself; after it they are done."""
    first, _ = folders(yard)
    with Server(yard.root, "--at-once", 4, connections=99) as server:
        name, told_then = stored(server.address, first), []

        def asks():
            told_then.append(told("restore", server.address, name, yard.top / "to"))
            told_then.append(told("backup", server.address, "h", first))
            told_then.append(told("snapshots", server.address))
        with Watched(server.port, lambda at, _: asks() if at == 3 else None) as line:
            has_status(told("prune", line.address), 0)
        same(told_then, ["1||busy\n"] * 3)
        are_kept(yard, server, [(name, first)])


@in_store
def a_prune_waits_for_nobody(yard):
    """A prune that comes while a backup runs is told that it is busy, and the backup goes on."""
    first, _ = folders(yard)
    with Server(yard.root, "--at-once", 4, connections=99) as server:
        pruned = []
        with Watched(server.port, at_first(PUT, lambda: pruned.append(told("prune", server.address)))) as line:
            name = stored(line.address, first)
        same(pruned, ["1||busy\n"])
        has_status(told("prune", server.address), 0)
        are_kept(yard, server, [(name, first)])


@in_store
def locks_that_are_lost_in_the_middle_of_two_backups(yard):
    """Both locks are removed while both are at work: each backup is fenced, and a later one is stored."""
    first, second = folders(yard)
    with Server(yard.root, "--at-once", 4, connections=99) as server:
        removed, ends = [], []

        def removes():
            removed.append(told("unlock", server.address, "--remove-all"))

        def runs_other():
            with Watched(server.port, at_first(PUT, removes)) as line:
                ends.append(told("backup", line.address, "h", second))
        with Watched(server.port, at_first(PUT, runs_other)) as line:
            ends.append(told("backup", line.address, "h", first))
        matches(removed[0], r"0\|removed \d+\nremoved \d+\n\|", "unlock")
        same(ends, ["1||fenced\n"] * 2)
        are_kept(yard, server, [(stored(server.address, root), root) for root in (first, second)])


@in_store
def a_server_that_has_no_descriptors_goes_on(yard):
    """It has as many files open as it may: it takes the next once one is closed, and tells of it."""
    def few():
        resource.setrlimit(resource.RLIMIT_NOFILE, (40, 40))
    with Server(yard.root, "--at-once", 200, connections=60, preexec_fn=few) as server:
        silent = [server.connected() for _ in range(50)]
        awaits(lambda: files(server) == 40, "40 open files")
        asks = [server.connected(bytes.fromhex(TICKET)) for _ in range(10)]
        for client in silent:
            client.close()
        for client in asks:
            same(len(read_frame(client)), 37)
            client.close()
        holds(re.fullmatch(r"1\|\|(read failed\n)+", server.end()), "another end")
