#!/usr/bin/env python3
"""Times how a server lists the names of a store for the first time, and again, in processor time.

Usage: bench/lists.py VAULT [COUNT..]. A COUNT of names, else 10,000, 20,000, 40,000 and 100,000 of them.

Of each kind of object a store is made that has so many, each of 8 bytes; a server of its folder is started anew, and all names are asked
for page by page, twice. The store's folder is in memory where /dev/shm is there, so a disk's time isn't in it. Nothing is kept.
"""
import os
import sys
import tempfile
from hashlib import sha256
from pathlib import Path

import growth
import requests

FOLDERS = {"pack": lambda name: f"data/{name[:2]}", "index": lambda name: "index", "snapshot": lambda name: "snapshots"}


def fill(store, kind, count):
    for number in range(count):
        data = number.to_bytes(8, "big")
        name = sha256(data).hexdigest()
        Path(store, FOLDERS[kind](name), name).write_bytes(data)


def listed(talk, kind):
    """Asks for all names of a kind, and gives how many there are."""
    names, more, after = 0, True, None
    while more:
        page = talk.ask(131, "list", kind, after)
        names += len(page) // 32
        more, after = page[0] == 1, page[-32:]
    return names


def time_lists(program, kind, count, top):
    served = growth.Served(program, top)
    fill(served.store, kind, count)
    with served:
        talk, spent = requests.Talk(growth.PORT), []
        for _ in range(2):
            before = served.used()
            if listed(talk, kind) != count:
                sys.exit(f"not all of {count} names were listed")
            spent.append(served.used() - before)
        print(f"{kind}: {count:,} names: first {spent[0]:.2f} s, again {spent[1]:.2f} s, {served.memory():.0f} MiB", flush=True)


if __name__ == "__main__":
    if len(sys.argv) < 2:
        sys.exit(__doc__)
    room = "/dev/shm" if os.access("/dev/shm", os.W_OK) else None
    for kind in FOLDERS:
        for count in map(int, sys.argv[2:] or (10_000, 20_000, 40_000, 100_000)):
            with tempfile.TemporaryDirectory(dir=room) as top:
                time_lists(os.path.abspath(sys.argv[1]), kind, count, Path(top))
