"""A backup that goes on while the server stores what it put."""
import os
import random
import re
from pathlib import Path

from connections import Watched
from program import Server, has_status, matches, told
from tries_stopping import PUT, begun
from trying import WAIT, awaits, holds, same, trial
from yards import STORED, Yard, entries, filled, is_clean, restores

MIB = 1 << 20
# Packs of 4 MiB, of chunks of 1 MiB at most: before the first one is put no more than 5 MiB are read, and the piece behind them.
NUMBERS = "--min 65536 --max 1048576 --bits 17 --target 4194304".split()
READ_AHEAD = 6 * MIB


def position(process, path):
    """How far a process has read a file; nothing where it isn't open."""
    for link in Path(f"/proc/{process.pid}/fd").iterdir():
        try:
            if os.readlink(link) == str(path):
                return int(re.search(r"pos:\s+(\d+)", Path(f"/proc/{process.pid}/fdinfo/{link.name}").read_text())[1])
        except OSError:
            pass
    return 0


def is_pack(request):
    return request[4] == PUT and len(request) > MIB


class Site:
    """A store, and a folder with one large file, and a small one behind it."""

    def __init__(self, yard, size=20 * MIB):
        self.yard = yard
        self.home = filled(yard.top / "home", {"large": random.Random(1).randbytes(size), "next": b"abc"})

    def backed_up(self, server, **hooks):
        """A backup over a line with these hooks, which are handed how far it has read: its status and what it printed."""
        client = []

        def has_read():
            return position(client[0], self.home / "large") if client else 0
        with Watched(server.port, **{name: hook(has_read) for name, hook in hooks.items()}) as line:
            client.append(begun("backup", line.address, "h", self.home))
            out, faults = client[0].communicate(timeout=WAIT)
        return f"{client[0].returncode}|{out.decode()}|{faults.decode()}"


def holding_back(held):
    """A hook that holds back the reply to the first pack until more was read than is before that is put, and notes how far that is."""
    def with_reader(has_read):
        def after(_, request, __):
            if is_pack(request) and not held:
                awaits(lambda: has_read() >= READ_AHEAD, "more was read")
                held.append(has_read())
            return True
        return after
    return with_reader


@trial
def a_backup_reads_on_while_a_pack_is_stored():
    """All is stored as it is."""
    held = []
    with Yard(*NUMBERS, is_store=True) as yard, Server(yard.root, connections=9) as server:
        site = Site(yard)
        name = matches(site.backed_up(server, after=holding_back(held)), STORED, "backup")[0]
        holds(held and held[0] < 20 * MIB, f"{held} bytes were read")
        restores(server.address, name, yard.top / "to", entries(site.home))
        is_clean(server.address)


@trial
def a_backup_that_was_ahead_ends_by_what_it_is_told():
    """Its lock is removed before its first pack arrives: nothing of what it made ahead of the reply to that is put."""
    held, removed = [], []
    with Yard(*NUMBERS, is_store=True) as yard, Server(yard.root, "--at-once", 4, connections=9) as server:
        site = Site(yard)

        def removes(_):
            def before(_, request):
                if is_pack(request) and not removed:
                    has_status(told("unlock", server.address, "--remove-all"), 0)
                    removed.append(True)
                return True
            return before
        same(site.backed_up(server, before=removes, after=holding_back(held)), "1||fenced\n")
        holds(held, "nothing was held back")
        same(list(yard.root.glob("data/*/*")), [], "packs")
        is_clean(server.address)


@trial
def a_file_that_is_gone_ahead_of_a_reply_is_told_where_the_connection_ends():
    """The file behind the first pack is removed before that arrives, and the connection ends once the backup came to it."""
    with Yard(*NUMBERS, is_store=True) as yard, Server(yard.root, connections=9) as server:
        site = Site(yard, READ_AHEAD)

        def removes(_):
            def before(_, request):
                if is_pack(request):
                    (site.home / "next").unlink()
                return True
            return before

        def cuts(has_read):
            def after(_, request, __):
                if is_pack(request):
                    awaits(lambda: has_read() == 0, "the large file was read")
                    return False
                return True
            return after
        same(site.backed_up(server, before=removes, after=cuts), f"1||unreadable {site.home}/next\nread failed\n")
        has_status(told("unlock", server.address, "--remove-all"), 0)
        is_clean(server.address)
