#!/usr/bin/env python3
"""Times the jobs of the real program over n, 2n and 4n of one thing, over the loopback, and tells the exponents by which they grow.

Usage: bench/growth.py VAULT [THING..]. SCALE=N has an N-th of the counts.

THING is files (small ones, in folders of 100), snapshots (each of one folder), packs (of 1,024 bytes), blobs (chunks of some 128
bytes in files of 4 MiB) or tokens (locks that were taken and given back, then a hundred that live); all of them without a word. A line has
the job, and of each count the seconds of processors of client and server together, and the greatest memory of each in MiB; then the
exponents from n to 2n, from 2n to 4n, and over both: 1.0 where twice as much takes twice as long. A client's memory below some 20 MiB isn't seen,
which is what this script has as it starts it. The store's folder is in memory where /dev/shm is there, so a disk's time isn't in it.
Nothing is kept.
"""
import math
import os
import subprocess
import sys
import tempfile
from hashlib import sha256
from pathlib import Path

HERE = Path(__file__).resolve().parent
sys.path[:0] = [str(HERE), str(HERE.parent / "scripts/cases")]

import requests  # noqa: E402
import texts  # noqa: E402

SCALE = int(os.environ.get("SCALE", 1))
PORT = int(os.environ.get("PORT", 7093))
ADDRESS = f"127.0.0.1:{PORT}"
TICKS = os.sysconf("SC_CLK_TCK")
SMALL_PACKS = ("--min", "64", "--max", "1024", "--bits", "9", "--target", "1024")
SMALL_CHUNKS = ("--min", "64", "--max", "512", "--bits", "6")
LARGEST = 4 << 20


class Served:
    """A store that is served, and what each job over it took: seconds of processors, and memory at client and server."""

    def __init__(self, program, top, *numbers):
        self.program, self.store = program, top / "store"
        subprocess.run([program, "init", self.store, *numbers], check=True, stdout=subprocess.DEVNULL)
        self.told = {}

    def __enter__(self):
        words = [self.program, "serve", self.store, ADDRESS, "--connections", "1000000"]
        self.server = subprocess.Popen(words, stdout=subprocess.PIPE, text=True)
        self.server.stdout.readline()
        return self

    def __exit__(self, *_):
        self.server.kill()
        self.server.wait()

    def used(self):
        fields = Path(f"/proc/{self.server.pid}/stat").read_text().rsplit(")", 1)[1].split()
        return (int(fields[11]) + int(fields[12])) / TICKS

    def memory(self):
        line = next(it for it in Path(f"/proc/{self.server.pid}/status").read_text().splitlines() if it.startswith("VmHWM"))
        return int(line.split()[1]) / 1024

    def job(self, label, *words):
        """Runs a command, notes what it took under its label, and gives what it printed."""
        before = self.used()
        child = subprocess.Popen([self.program, *map(str, words)], stdout=subprocess.PIPE, text=True)
        printed = child.stdout.read()
        _, status, used = os.wait4(child.pid, 0)
        child.returncode = os.waitstatus_to_exitcode(status)
        if child.returncode != 0:
            sys.exit(f"{label} failed")
        self.note(label, used.ru_utime + used.ru_stime + self.used() - before, used.ru_maxrss / 1024)
        return printed

    def note(self, label, seconds, memory):
        self.told[label] = (seconds, memory, self.memory())


def of_folder(served, folder, target):
    """A folder's backups, check, restore, and a prune once its first snapshot is forgotten."""
    name = served.job("backup", "backup", ADDRESS, "h", folder).split()[1]
    served.job("backup again", "backup", ADDRESS, "h", folder)
    served.job("check", "check", ADDRESS)
    served.job("restore", "restore", ADDRESS, name, target)
    served.job("forget", "forget", ADDRESS, name)
    served.job("prune", "prune", ADDRESS)


def files(program, count, top):
    for number in range(count):
        folder = top / "from" / f"{number // 100:05}"
        folder.mkdir(parents=True, exist_ok=True)
        (folder / f"{number % 100:02}").write_text(f"file {number}")
    with Served(program, top) as served:
        of_folder(served, top / "from", top / "to")
        return served.told


def random_files(program, top, size, numbers):
    """Files of random bytes, of 4 MiB at most, as one of many small chunks can't be larger."""
    (top / "from").mkdir()
    for place in range(0, size, LARGEST):
        (top / f"from/{place:012}").write_bytes(os.urandom(min(LARGEST, size - place)))
    with Served(program, top, *numbers) as served:
        of_folder(served, top / "from", top / "to")
        return served.told


def packs(program, count, top):
    return random_files(program, top, count * 1024, ("--format", "2", *SMALL_PACKS))


def blobs(program, count, top):
    return random_files(program, top, count * 128, ("--format", "2", *SMALL_CHUNKS))


def snapshots(program, count, top):
    (top / "from").mkdir()
    (top / "from/file").write_text("one file")
    served = Served(program, top)
    with served:
        name = served.job("backup", "backup", ADDRESS, "h", top / "from").split()[1]
    folder = served.store / "snapshots"
    tree = bytes.fromhex(texts.json.loads((folder / name).read_bytes())["tree"])
    for number in range(count - 1):
        text = texts.snapshot_text("h", number, 1, tree)
        (folder / sha256(text).hexdigest()).write_bytes(text)
    with served:
        served.job("list", "snapshots", ADDRESS)
        served.job("list again", "snapshots", ADDRESS)
        served.job("backup", "backup", ADDRESS, "h", top / "from")
        served.job("check", "check", ADDRESS)
        served.job("forget, of which nothing is kept but one", "forget", ADDRESS, "--keep-last", "1")
        served.job("prune", "prune", ADDRESS)
        return served.told


def tokens(program, count, top):
    (top / "from").mkdir()
    with Served(program, top) as served:
        used = served.used()
        requests.locks(requests.Talk(PORT), count)
        served.note("locks, each given back", served.used() - used, 0)
        talk = requests.Talk(PORT)
        for _ in range(100):
            talk.locked()
        talk.stream.close()
        served.job("backup beside a hundred locks", "backup", ADDRESS, "h", top / "from")
        served.job("locks", "locks", ADDRESS)
        return served.told


THINGS = {"files": (files, 10_000), "snapshots": (snapshots, 10_000), "packs": (packs, 10_000), "blobs": (blobs, 100_000),
          "tokens": (tokens, 10_000)}


def exponent(less, more):
    return f"{math.log2(more / less):.2f}" if less >= 0.05 else "-"


def tell(thing, counts, told):
    for label in told[0]:
        each = [it[label] for it in told]
        took = ", ".join(f"{seconds:.2f} s ({client:.0f} + {server:.0f} MiB)" for seconds, client, server in each)
        grows = ", ".join(exponent(less[0], more[0]) for less, more in zip(each, each[1:]))
        grows += f", over both {exponent(each[0][0] ** 0.5, each[-1][0] ** 0.5)}" if each[0][0] >= 0.05 else ""
        print(f"{thing} {' / '.join(f'{it:,}' for it in counts)}: {label}: {took}; exponents {grows}", flush=True)


def main(program, things):
    room = "/dev/shm" if os.access("/dev/shm", os.W_OK) else None
    for thing in things or THINGS:
        call, least = THINGS[thing]
        counts, told = [least // SCALE * times for times in (1, 2, 4)], []
        for count in counts:
            with tempfile.TemporaryDirectory(dir=room) as top:
                told.append(call(program, count, Path(top)))
        tell(thing, counts, told)


if __name__ == "__main__":
    if len(sys.argv) < 2 or any(it not in THINGS for it in sys.argv[2:]):
        sys.exit(__doc__)
    main(os.path.abspath(sys.argv[1]), sys.argv[2:])
