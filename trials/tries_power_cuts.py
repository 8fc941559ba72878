"""Power cuts, by the calls that the real server makes: which images of the disk each may leave, and whether each is a store with all that was
acknowledged. The calls are recorded by strace; nothing here is a real cut, which trials/disks.sh makes."""
import subprocess

from trying import OPTIONS, ROOT, Skipped, holds, needs, trial
from yards import Yard

from cuts.calls import may_trace
from cuts.judging import judged
from cuts.lives import BY_CHANCE, PLACED
from cuts.machine import Machine

# How many seeds each life is lived with: in the gate, and with --long.
SEEDS = {"undisturbed": (1, 3), "kills": (1, 60), "failures": (1, 60)}


def is_traced():
    """Whether processes may be traced here."""
    needs("strace")
    if not may_trace():
        raise Skipped("strace may not trace here")


def lived(life, seed):
    """A life, and what is found in it."""
    with Yard() as yard:
        machine = Machine(yard.top, seed)
        try:
            life(machine)
        finally:
            machine.ends()
        return judged(machine, 12 if OPTIONS.is_long else 2, 60 if OPTIONS.is_long else 5)


def cut_in(life):
    """A trial of a life."""
    def run():
        is_traced()
        few, many = SEEDS.get(life.__name__, (1, 4))
        images, opened = 0, 0
        for seed in range(1, 1 + (many if OPTIONS.is_long else few)):
            found = lived(life, seed)
            images, opened = images + found.images, opened + found.opened
            holds(not found.faults, f"seed {seed}, {found.images} images, {found.opened} opened: {found.first}; in all {dict(found.faults.most_common(6))}")
        holds(images > 50 and opened > 0, f"{images} images were made, and {opened} opened")
    run.__name__, run.__module__ = f"a_cut_{life.__name__}", __name__
    trial(run, is_early=True)


@trial(is_long=True, is_early=True)
def a_cut_of_real_disks():
    """A copy of a file system's disk, taken as it is, is what a cut leaves."""
    run = subprocess.run([ROOT / "trials/disks.sh", OPTIONS.program], capture_output=True, text=True, stdin=subprocess.DEVNULL, timeout=3000)
    if run.returncode == 3:
        raise Skipped(run.stdout.replace("\n", "; "))
    holds(run.returncode == 0, run.stdout + run.stderr)


for each in (*BY_CHANCE, *PLACED):
    cut_in(each)
