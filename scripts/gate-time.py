#!/usr/bin/env python3
"""Runs the gate's proofs, tests, programs and edits, and prints the processor seconds of each crate's proof and tests, and of all edits.

Usage: scripts/gate-time.py [--anew] [CRATE..]

It runs `rt ci` with these words, and adds up what the processes of each of its parts took, by the crate and the part for which they
were begun; what an earlier run on this machine passed takes no time with a kit that keeps it, unless with --anew. Each part tells at
its end what it took. Then it runs scripts/must-fail.py. The table is for docs/TESTING.md; the exit status is that of both.
"""
import os
import subprocess
import sys
import threading
import time
from collections import Counter
from concurrent.futures import ThreadPoolExecutor

import kit

PARTS = ("proof", "tests")
EDITS = ("all edits", "")
# What runs outside the parts: building and running the programs and the tests.
REST = ("", "")

seconds = Counter()
begun_for = threading.local()


def part_of(key):
    """The crate and the part that a task of `rt ci` is for."""
    return key[:2] if key[1] in PARTS else REST


def counted(process, flags):
    """Waits for a process, and adds its time and its children's to what it was begun for."""
    try:
        found, status, used = os.wait4(process.pid, flags)
    except ChildProcessError:
        return process.pid, 0
    if found == process.pid:
        seconds[getattr(begun_for, "part", REST)] += used.ru_utime + used.ru_stime
    return found, status


def noting(part, call):
    """The call, which tells at its end what it took."""
    def run(given, jobs):
        begun_for.part, begun = part, time.monotonic()
        try:
            return call(given, jobs)
        finally:
            if part != REST and seconds[part]:
                print(f"{' '.join(part)}: {seconds[part]:.0f} s of processors, {time.monotonic() - begun:.0f} by the clock, {jobs} jobs", flush=True)

    return run


def inheriting(submit):
    """The parts' proofs run in threads of their own, which count for the part that began them."""
    def run(pool, call, *given, **named):
        part = getattr(begun_for, "part", REST)

        def inside(*given, **named):
            begun_for.part = part
            return call(*given, **named)

        return submit(pool, inside, *given, **named)

    return run


def shown():
    print("| Crate | Proof | Tests |\n|---|---|---|")
    for crate in dict.fromkeys(crate for crate, part in seconds if part):
        print(f"| `{crate}` | {' | '.join(f'{seconds[crate, part]:.0f}' if seconds[crate, part] else '' for part in PARTS)} |")
    sums = [sum(it for (_, part), it in seconds.items() if part == wanted) for wanted in PARTS]
    print(f"| All, minutes | {' | '.join(f'{it / 60:.0f}' for it in sums)} |")
    print(f"edits: {seconds[EDITS] / 60:.0f} minutes; all together: {sum(seconds.values()) / 60:.0f} minutes of processors")


def edits(crates):
    """Tries the gate's edits, of all crates without a name, and counts what that took."""
    begun_for.part = EDITS
    return subprocess.call(["scripts/must-fail.py", *(it for it in crates if os.path.isdir(f"must-fail/{it}"))])


def main():
    os.chdir(os.path.dirname(os.path.dirname(os.path.abspath(__file__))))
    rt = kit.load()
    lanes = rt.in_lanes
    rt.in_lanes = lambda tasks: lanes({key: (*task[:3], noting(part_of(key), task[3])) for key, task in tasks.items()})
    subprocess.Popen._try_wait = counted
    ThreadPoolExecutor.submit = inheriting(ThreadPoolExecutor.submit)
    status = rt.main(["ci", *sys.argv[1:]])
    status |= edits([word for word in sys.argv[1:] if not word.startswith("-")])
    shown()
    return status


if __name__ == "__main__":
    sys.exit(main())
