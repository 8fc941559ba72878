#!/usr/bin/env python3
"""Times the jobs of the real program over one directory of many files, in a store of version 2, over the loopback.

Usage: bench/directory.py VAULT [COUNT..]

For each count (50,000, 100,000 and 200,000 without words) as many files of some bytes are made in one directory, backed up, backed up
again, checked, restored, compared, and pruned once the first snapshot is forgotten. A line of a job has the seconds, the client's
processor time, and its greatest memory in MB. Nothing is kept.
"""
import os
import subprocess
import sys
import tempfile
import time
from pathlib import Path

COUNTS = (50_000, 100_000, 200_000)
ADDRESS = "127.0.0.1:7999"


def made(folder, count):
    folder.mkdir(parents=True)
    for number in range(count):
        (folder / f"{number:06}").write_text(str(number))


def timed(program, *words):
    """Runs a command: what it prints, its seconds, its processor time, its greatest memory."""
    begun = time.monotonic()
    child = subprocess.Popen([program, *map(str, words)], stdout=subprocess.PIPE, text=True)
    printed = child.stdout.read()
    _, status, used = os.wait4(child.pid, 0)
    if os.waitstatus_to_exitcode(status) != 0:
        sys.exit(f"{words[0]} failed")
    return printed, time.monotonic() - begun, used.ru_utime + used.ru_stime, used.ru_maxrss / 1_000


def tried(program, count, top):
    folder, target = top / "from", top / "to"
    made(folder / "many", count)
    subprocess.run([program, "init", str(top / "store"), "--format", "2"], check=True, stdout=subprocess.DEVNULL)
    server = subprocess.Popen([program, "serve", str(top / "store"), ADDRESS, "--connections", "9"], stdout=subprocess.PIPE, text=True)
    try:
        server.stdout.readline()
        first, *told = timed(program, "backup", ADDRESS, "h", folder)
        name, jobs = first.split()[1], {"backup": told}
        for job, words in (("backup again", ("backup", ADDRESS, "h", folder)), ("check", ("check", ADDRESS)), ("restore", ("restore", ADDRESS, name, target)),
                           ("forget", ("forget", ADDRESS, name)), ("prune", ("prune", ADDRESS))):
            _, *jobs[job] = timed(program, *words)
        subprocess.run(["diff", "-rq", folder, target], check=True)
    finally:
        server.kill()
        server.wait()
    for job, (seconds, processor, memory) in jobs.items():
        print(f"{count:>9,} files  {job:<12}  {seconds:6.2f} s  {processor:6.2f} s  {memory:6.0f} MB", flush=True)


def main(program, counts):
    for count in counts or COUNTS:
        with tempfile.TemporaryDirectory() as top:
            tried(program, int(count), Path(top))


if __name__ == "__main__":
    if len(sys.argv) < 2:
        sys.exit(__doc__)
    main(sys.argv[1], sys.argv[2:])
