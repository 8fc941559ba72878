"""What a trial is: a function that shows one thing, and raises where it isn't so.

Here trials are collected, run side by side in processes of their own, and told of: a line each, and at the end how many passed. One that
can't be tried on this machine raises `Skipped` with the reason. All that trials make lies in one room, a temporary folder that is
removed at the end, with whatever is still mounted below it.
"""
import os
import shutil
import signal
import subprocess
import sys
import tempfile
import time
import traceback
from concurrent.futures import ProcessPoolExecutor, as_completed
from dataclasses import dataclass
from multiprocessing import active_children, get_context
from pathlib import Path
from typing import Callable

ROOT = Path(__file__).resolve().parents[1]
# How long anything is waited for, in seconds. Nothing is shown by how long it takes; this only ends what hangs.
WAIT = 300
MEMORY = Path("/dev/shm")


@dataclass
class Options:
    """What is tried, and how much of it."""

    program: str = str(ROOT / "crates/vault/out/vault")
    is_long: bool = False
    with_times: bool = False
    # Whether a trial that lacks a program has failed.
    is_whole: bool = False
    room: str = ""


OPTIONS = Options()
TRIALS = []


@dataclass
class Trial:
    """A function that shows one thing. One that is long is run with --long alone; one that is early is begun before the others, since
    it takes the longest."""

    name: str
    run: Callable
    is_long: bool
    is_early: bool


class Skipped(Exception):
    """What was to be tried can't be, on this machine, for this reason."""


class Lacking(Skipped):
    """The same for want of a program, which can be installed."""


def trial(function=None, *, is_long=False, is_early=False):
    """Adds a function to the trials, under its name."""
    def adds(function):
        TRIALS.append(Trial(function.__name__, function, is_long, is_early))
        return function
    return adds(function) if function else adds


def same(got, wanted, what=""):
    if got != wanted:
        raise AssertionError(f"{what}{': ' if what else ''}{got!r}, and not {wanted!r}")


def holds(is_so, what):
    if not is_so:
        raise AssertionError(what)


def chosen(items, few):
    """All of the items with --long; else so many of them, spread evenly, the first and the last among them."""
    items = list(items)
    if OPTIONS.is_long or len(items) <= few:
        return items
    return [items[at * (len(items) - 1) // (few - 1)] for at in range(few)]


def awaits(is_so, what):
    """Waits until something is so."""
    end = time.monotonic() + WAIT
    while not is_so():
        holds(time.monotonic() < end, f"{what}: not in {WAIT} seconds")
        time.sleep(0.005)


def needs(*programs):
    """Skips the trial where one of these programs isn't there."""
    for program in programs:
        if shutil.which(program) is None:
            raise Lacking(f"there is no {program}")


def new_folder():
    """An empty folder in the room."""
    return Path(tempfile.mkdtemp(prefix="vault-", dir=OPTIONS.room))


def is_possible(command):
    """Whether a command ends well."""
    return subprocess.run(command, capture_output=True, timeout=WAIT).returncode == 0


def outcome(number):
    """What comes of a trial: `ok`, `skipped` or `FAILED`, why, and after how many seconds."""
    begun = time.monotonic()
    try:
        TRIALS[number].run()
        came, why = "ok", ""
    except Lacking as reason:
        came, why = "FAILED" if OPTIONS.is_whole else "skipped", str(reason)
    except Skipped as reason:
        came, why = "skipped", str(reason)
    except Exception as error:  # noqa: BLE001
        places = [place for place in traceback.extract_tb(error.__traceback__) if Path(place.filename).parent == ROOT / "trials"]
        came, why = "FAILED", f"{type(error).__name__}: {error} (" + ", ".join(f"{Path(it.filename).name} {it.lineno}" for it in places[1:]) + ")"
    return came, why, time.monotonic() - begun


def ends_on_signal():
    """Has a signal to end the process unwind it, so that what it started is ended too."""
    signal.signal(signal.SIGTERM, lambda *_: sys.exit(143))


def makes_room():
    """The folder in which all trials work: in memory, where there is room, since every store is synced many times."""
    in_memory = "TMPDIR" not in os.environ and os.access(MEMORY, os.W_OK) and shutil.disk_usage(MEMORY).free > 2 << 30
    room = tempfile.mkdtemp(prefix="vault-trials-", dir=MEMORY if in_memory else None)
    os.chmod(room, 0o711)
    return room


def clears(room):
    """Removes the room, and what is mounted below it."""
    mounted = [line.split()[1] for line in Path("/proc/mounts").read_text().splitlines() if line.split()[1].startswith(room + "/")]
    for place in sorted(mounted, reverse=True):
        subprocess.run(["umount", "-l", place], check=False)
    shutil.rmtree(room, ignore_errors=True)


def told_of(name, came, why, seconds):
    """The line of a trial."""
    shown = " ".join(why.split())
    return f"{came} {name}" + (f": {shown[:1500]}" if shown else "") + (f" [{seconds:.1f} s]" if OPTIONS.with_times else "")


def runs(numbers, jobs):
    """Runs these trials, prints their lines, and tells how many passed, were skipped, and failed."""
    count, skipped = {"ok": 0, "skipped": 0, "FAILED": 0}, []
    with ProcessPoolExecutor(jobs, mp_context=get_context("fork"), initializer=ends_on_signal) as pool:
        begun = {pool.submit(outcome, number): number for number in sorted(numbers, key=lambda number: not TRIALS[number].is_early)}
        try:
            for it in as_completed(begun):
                count[it.result()[0]] += 1
                skipped += [TRIALS[begun[it]].name] if it.result()[0] == "skipped" else []
                print(told_of(TRIALS[begun[it]].name, *it.result()), flush=True)
        except BaseException:
            pool.shutdown(wait=False, cancel_futures=True)
            for child in active_children():
                child.terminate()
            raise
    if skipped:
        print(f"{len(skipped)} skipped: {', '.join(sorted(skipped))}")
    return count


def runs_in_room(numbers, jobs):
    """Runs these trials in a room of their own; whether none failed."""
    ends_on_signal()
    OPTIONS.room = makes_room()
    try:
        count = runs(numbers, jobs)
    finally:
        clears(OPTIONS.room)
    print(f"{count['ok']} passed, {count['FAILED']} failed")
    return count["FAILED"] == 0
