"""The kit's command `rt`, as a module, for the scripts that go through its parts, and with less waiting in two of these."""
import functools
import importlib.machinery
import importlib.util
import os
import shutil
import sys
import threading


def once_each(stamp):
    """A crate's stamp asks for that of each crate that it names, and so on, along every way down: a minute and a half for the
    highest ones here. So, within one call, each crate is asked once."""
    asked = threading.local()

    @functools.wraps(stamp)
    def of(crate):
        if hasattr(asked, "known"):
            if crate.folder not in asked.known:
                asked.known[crate.folder] = stamp(crate)
            return asked.known[crate.folder]
        asked.known = {}
        try:
            return stamp(crate)
        finally:
            del asked.known

    return of


# What the check of a large crate takes, in bytes, and some more for each further job.
MEMORY = 4_000_000_000


def reckoning(lanes):
    """`rt ci` goes along a list of parts, each with the memory that it is reckoned to take. Of a large crate that is several times what
    its check takes, so that one went alone, with one job. So no part is reckoned with more than MEMORY; where the kit's list is of another
    form, it is told how many parts go side by side: one for each processor, as memory allows."""
    def run(tasks):
        if all(len(task) == 4 and isinstance(task[2], (int, float)) for task in tasks.values()):
            return lanes({key: (*task[:2], min(task[2], MEMORY), task[3]) for key, task in tasks.items()})
        os.environ.setdefault("RT_JOBS", str(jobs_here()))
        return lanes(tasks)

    return run


def jobs_here():
    """As many jobs as this machine has processors and free memory for, at least one."""
    free = next(int(line.split()[1]) * 1024 for line in open("/proc/meminfo") if line.startswith("MemAvailable:"))
    return max(1, min(len(os.sched_getaffinity(0)), free // MEMORY))


def load():
    loader = importlib.machinery.SourceFileLoader("rt", os.path.realpath(shutil.which("rt")))
    made = importlib.util.module_from_spec(importlib.util.spec_from_loader("rt", loader))
    sys.modules["rt"] = made
    loader.exec_module(made)
    made.rtlib.Crate.stamp = once_each(made.rtlib.Crate.stamp)
    if hasattr(made, "in_lanes"):
        made.in_lanes = reckoning(made.in_lanes)
    else:
        os.environ.setdefault("RT_JOBS", str(jobs_here()))
    return made
