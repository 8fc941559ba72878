#!/usr/bin/env python3
"""Proves the crates that vault is built of, and tells how far it is: a line for each crate, with how many are left.

Usage: scripts/libraries.py [--jobs N] [CRATE]

It goes along the crates from below (crates.txt), and works on as many at once as processors and memory allow: one for each
processor, with 4 GB free for each; --jobs says another number. Where fewer crates are ready, each gets the processors that are
left. As rt locks all crates below the one that it works on, each of those that are proved at once stands in a copy of the sources
of its own, with the libraries below it; what is proved comes back into this repository. What was proved before, as it stands now,
is passed over. CRATE is the one for which it is done, vault without the word; that one itself isn't built. Exit status 1 where a
crate isn't proved: what rt said of it is printed.
"""
import argparse
import os
import shutil
import signal
import subprocess
import sys
import tempfile
import time
from pathlib import Path

sys.dont_write_bytecode = True

import kit  # noqa: E402
from graph import below  # noqa: E402

ROOT = Path(__file__).resolve().parents[1]


def crates_of_file():
    """Of each crate of the repository those of the repository that it stands on."""
    lines = [line.split(":") for line in (ROOT / "crates.txt").read_text().splitlines() if line and not line.startswith("#")]
    named = {name.strip() for name, _ in lines}
    return {name.strip(): [word for word in on.split() if word in named] for name, on in lines}


def heights(names, crates):
    """Of each crate how long the longest chain of crates above it is."""
    height = {}

    def of(name):
        if name not in height:
            height[name] = max((of(above) + 1 for above in names if name in crates[above]), default=0)
        return height[name]
    return {name: of(name) for name in names}


def built():
    """The crates that are proved as they stand."""
    return {crate.name for crate in kit.load().rtlib.crates_below(str(ROOT)) if crate.is_built()}


class Yard:
    """A copy of the sources in which one crate at a time is proved."""

    def __init__(self, top):
        self.top = Path(top)
        shutil.copytree(ROOT / "crates", self.top / "crates", ignore=shutil.ignore_patterns("out"))
        for name in ("crates.txt", "HANDLES"):
            shutil.copy2(ROOT / name, self.top / name)

    def takes(self, name, *parts):
        """Takes what was made of a crate from the repository."""
        carries(name, parts, ROOT, self.top)

    def gives(self, name, *parts):
        """Gives what was made of a crate to the repository."""
        carries(name, parts, self.top, ROOT)


def stamp_of(made):
    return (made / "stamp").read_bytes() if (made / "stamp").exists() else None


def linked(one, other):
    """Gives a file a second name: rt makes such a file anew, and never writes into it."""
    try:
        os.link(one, other)
    except OSError:
        shutil.copy2(one, other)


def carries(name, parts, giver, taker):
    """What rt made of a crate, from one copy of the sources to another that hasn't it. A library's files are shared, so that one
    that is there in each copy takes its room once."""
    for part in parts:
        made, place = (top / "crates" / name / "out" / part for top in (giver, taker))
        if made.is_dir() and (stamp_of(made) is None or stamp_of(made) != stamp_of(place)):
            shutil.rmtree(place, ignore_errors=True)
            shutil.copytree(made, place, copy_function=linked if part == "rlib" else shutil.copy2, dirs_exist_ok=True)


class Job:
    """The proof of one crate in a yard, which goes on beside others."""

    def __init__(self, name, crates, yard, jobs):
        self.name, self.yard, self.jobs = name, yard, jobs
        for lower in below(crates, name):
            yard.takes(lower, "rlib")
        yard.takes(name, "rlib", "incremental")
        self.begun, self.said = time.monotonic(), tempfile.TemporaryFile()
        self.process = subprocess.Popen([ROOT / "scripts/rt", "lib", "--jobs", str(jobs)], cwd=yard.top / "crates" / name,
                                        stdin=subprocess.DEVNULL, stdout=self.said, stderr=subprocess.STDOUT, start_new_session=True)

    def seconds(self):
        return round(time.monotonic() - self.begun)

    def text(self):
        self.said.seek(0)
        return self.said.read().decode(errors="replace")

    def ends(self):
        """Ends it, with all that it started."""
        if self.process.poll() is None:
            os.killpg(self.process.pid, signal.SIGTERM)
            self.process.wait()


def proves(names, crates, yards, jobs, done):
    """Proves the crates but for those that are done, one in each yard and with so many jobs in all, those with the longest chains above
    them first; the one that isn't proved, if there is one."""
    height, left, running = heights(names, crates), set(names) - done, []
    try:
        while left or running:
            ready = sorted((name for name in left if done >= set(crates[name])), key=lambda name: (-height[name], name))
            idle = jobs - sum(job.jobs for job in running)
            begun = min(len(ready), idle, len(yards))
            for at, (name, yard) in enumerate(zip(ready[:begun], list(yards))):
                left.remove(name)
                yards.remove(yard)
                running.append(Job(name, crates, yard, idle // begun + (at < idle % begun)))
            ended = [job for job in running if job.process.poll() is not None]
            for job in ended:
                running.remove(job)
                job.yard.gives(job.name, "rlib", "incremental")
                if job.process.returncode != 0:
                    return job
                yards.append(job.yard)
                done.add(job.name)
                beside = ", ".join(sorted(other.name for other in running))
                print(f"proved {job.name} in {job.seconds()} s, {len(names) - len(done)} of {len(names)} left"
                      + (f"; under way: {beside}" if beside else ""), flush=True)
            if not ended:
                time.sleep(0.2)
    finally:
        for job in running:
            job.ends()
    return None


def main():
    parser = argparse.ArgumentParser(description=__doc__.split("\n")[0])
    parser.add_argument("--jobs", type=int, metavar="N", help="so many crates at once")
    parser.add_argument("crate", nargs="?", default="vault", help="the crate for which it is done; without the word vault")
    given, crates = parser.parse_args(), crates_of_file()
    if given.crate not in crates:
        parser.error(f"there is no crate {given.crate}")
    names, jobs = below(crates, given.crate), max(1, given.jobs or kit.jobs_here())
    done = built() & set(names)
    print(f"proving {len(names) - len(done)} crates of {len(names)}, {jobs} at once: an hour on two processors, where none is proved"
          " yet. Unproved the program runs in a minute and a half: examples/first-frame.sh", flush=True)
    begun = time.monotonic()
    with tempfile.TemporaryDirectory() as top:
        yards = [Yard(Path(top) / str(place)) for place in range(min(jobs, len(names) - len(done)))]
        open_one = proves(names, crates, yards, jobs, done)
    if open_one:
        print(open_one.text(), end="")
        sys.exit(f"{open_one.name} isn't proved")
    print(f"all {len(names)} proved in {round(time.monotonic() - begun)} s", flush=True)


if __name__ == "__main__":
    main()
