"""Campaigns: rounds by chance over real processes, and scripts by chance beside the reference, of fixed seeds."""
import subprocess
import sys
import tempfile

from trying import OPTIONS, ROOT, holds, needs, trial

# In minutes. A plan that fails is made smaller only with --long.
HOUR = 60


def campaigns(*words):
    """A campaign of these words finds nothing."""
    # Without these there are no power cuts and no calls that fail, no clocks that jump, and no memory is refused.
    needs("strace", "cc", "gcc")
    kept = tempfile.gettempdir()
    shrink = HOUR if OPTIONS.is_long else 0
    command = [sys.executable, "-B", ROOT / "trials/campaign.py", "--keep", kept, "--shrink", str(shrink), *map(str, words), OPTIONS.program]
    run = subprocess.run(command, capture_output=True, text=True, timeout=4 * 60 * HOUR)
    holds(run.returncode == 0, run.stdout + run.stderr)
    print(run.stdout, end="", flush=True)


@trial(is_early=True)
def machines_that_are_disturbed_keep_a_sound_store():
    campaigns("--seed", 62, "--minutes", 1, "--format", 1)


@trial(is_early=True)
def machines_that_are_disturbed_at_a_store_of_version_2():
    campaigns("--seed", 1005, "--minutes", 1, "--format", 2)


@trial(is_early=True)
def scripts_by_chance_print_what_the_reference_prints():
    campaigns("--scripts", "--seed", 1, "--rounds", 100)


@trial(is_long=True, is_early=True)
def an_hour_of_disturbed_machines():
    campaigns("--minutes", HOUR)


@trial(is_long=True, is_early=True)
def an_hour_of_scripts():
    campaigns("--scripts", "--minutes", HOUR)
