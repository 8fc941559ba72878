#!/usr/bin/env python3
"""Times the backup and the restore of many files of 1 KiB, with several programs in turn: the same store, the same files, the same minutes.

Usage: small_files.py [--files N] [--rounds N] FOLDER PROGRAM.. : all that it makes lies below FOLDER, so that decides whether it is timed in memory
(/dev/shm) or on a disk; it is removed at the end. Without --files there are 10,000, in folders of 100, and without --rounds nine rounds. In each
round each program backs the files up once more, and restores them into a new folder. A line has a job, a program, the seconds by the clock (the
least, and the median), and the client's seconds of processors in the system's calls (the least).
"""
import argparse
import random
import resource
import shutil
import statistics
import subprocess
import sys
import tempfile
import time
from pathlib import Path

parser = argparse.ArgumentParser(description=__doc__.split("\n")[0])
parser.add_argument("--files", type=int, default=10_000)
parser.add_argument("--rounds", type=int, default=9)
parser.add_argument("folder", type=Path)
parser.add_argument("programs", nargs="+")


def made(folder, count):
    """A folder with so many files."""
    chance = random.Random(1)
    for number in range(count):
        place = folder / f"{number // 100:04}" / f"{number % 100:02}"
        place.parent.mkdir(parents=True, exist_ok=True)
        place.write_bytes(chance.randbytes(1024))
    return folder


def seconds(*words):
    """How long a command takes, by the clock and in the system's calls, and what it prints."""
    begun, before = time.monotonic(), resource.getrusage(resource.RUSAGE_CHILDREN).ru_stime
    run = subprocess.run([str(word) for word in words], stdout=subprocess.PIPE, text=True, check=True)
    return (time.monotonic() - begun, resource.getrusage(resource.RUSAGE_CHILDREN).ru_stime - before), run.stdout


def round_of(program, address, top, times):
    """Each job of a program once."""
    took, told = seconds(program, "backup", address, "host", top / "from")
    times["backup", program].append(took)
    took, _ = seconds(program, "restore", address, told.split()[1], top / "to")
    times["restore", program].append(took)
    shutil.rmtree(top / "to")


def main():
    given = parser.parse_args()
    top = Path(tempfile.mkdtemp(dir=given.folder))
    times = {(job, program): [] for job in ("backup", "restore") for program in given.programs}
    try:
        made(top / "from", given.files)
        subprocess.run([given.programs[0], "init", top / "store"], check=True, stdout=subprocess.DEVNULL)
        words = [given.programs[0], "serve", top / "store", "127.0.0.1:0", "--connections", "1000000000"]
        with subprocess.Popen([str(word) for word in words], stdout=subprocess.PIPE, text=True) as server:
            try:
                assert server.stdout.readline() == "listening\n"
                address = server.stdout.readline().split()[1]
                for _ in range(given.rounds):
                    for program in given.programs:
                        round_of(program, address, top, times)
            finally:
                server.kill()
    finally:
        shutil.rmtree(top)
    for (job, program), took in times.items():
        clock, system = zip(*took)
        print(f"{job} {program} {min(clock):.2f} {statistics.median(clock):.2f} {min(system):.2f}")


if __name__ == "__main__":
    sys.exit(main())
