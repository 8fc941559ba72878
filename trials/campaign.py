#!/usr/bin/env python3
"""Plays random rounds over real processes, until time is up or something is wrong.

Machines whose folders change back up, restore, list, forget, prune and check side by side at one store. Meanwhile clients and servers are
killed, connections are cut, disks fill up, and power cuts are simulated.

Usage: trials/campaign.py [--seed N] [--minutes M] [--rounds N] [--at-once N] [--format 1|2] [--plan FILE] [--keep FOLDER] [VAULT]
or: trials/campaign.py --scripts [--seed N] [--minutes M] [--rounds N] [VAULT]

Each job ends well, or as something explains that happened in its round. After each round the store has to be sound. A check is clean. Each
snapshot that was reported stored is there, unless a forget was asked to delete it; and none is there that a forget reported. Those that are
restored are the same byte for byte. After a prune nothing that was forgotten takes room. Only clients that were cut off left locks, each its
own. No token was given twice. The server holds no connection and no file, and no more memory than before.

A campaign begins by printing its seed; without --seed it draws one. After 60 rounds it goes on with the next seed and a new store. At its end,
also if it is interrupted, it prints what it did: what it counts has happened. The machine decides on time and order, so the same seed may find a fault in one run and miss it in the next. If a plan
fails, the campaign looks for the smallest plan that still fails, and stores it; --plan plays it again.

With --scripts it plays random scripts with `vault play`, and compares what is printed with the reference in scripts/cases. For some scripts it
refuses a request for memory. A script counts as a round.
Exit status: 0 nothing was found; 1 something was; 2 the words are wrong.
"""
import argparse
import copy
import os
import random
import shutil
import sys
import time
from collections import Counter
from pathlib import Path

sys.dont_write_bytecode = True

from rounds.plans import drawn_round, new_plan, read_plan, smaller
from rounds.playing import Campaign
from rounds.scripts import plays_scripts
from trying import OPTIONS, clears, ends_on_signal, makes_room, new_folder

# How often a smaller plan is played before it counts as one that doesn't fail.
REPEATS = 3
# After so many rounds the next seed has its turn, with a new store.
ROUNDS = 60


def faults_of(plan, counts, rounds, is_told=False):
    """Plays the rounds that come; what is wrong behind the last of them, and the rounds that were played."""
    campaign, played = Campaign(new_folder(), plan), []
    if is_told and (lacking := [*campaign.lacks()]):
        print(f"here there are {' and '.join(lacking)}", flush=True)
    try:
        if faults := campaign.opens():
            return faults, played
        for it in rounds:
            played.append(it)
            try:
                faults = campaign.plays(copy.deepcopy(it))
            except Exception as error:  # noqa: BLE001
                faults = [f"round {it.number}: {type(error).__name__}: {error}"]
            if faults:
                return faults, played
        return [], played
    finally:
        counts.update(campaign.counts)
        campaign.ends()
        shutil.rmtree(campaign.top, ignore_errors=True)


def in_time(rounds, until):
    """These rounds, until time is up."""
    for it in rounds:
        if time.monotonic() >= until:
            return
        yield it


def fails(plan, until):
    """Whether a plan fails in one of several runs, as far as that shows in time."""
    return any(faults_of(plan, Counter(), in_time(plan.rounds, until))[0] for _ in range(REPEATS) if time.monotonic() < until)


def shrunk(plan, until):
    """The smallest plan that still fails, as far as it is found in time."""
    candidates = smaller(plan)
    while time.monotonic() < until and (candidate := next(candidates, None)):
        if fails(candidate, until):
            plan, candidates = candidate, smaller(candidate)
    return plan


def shown(plan):
    """The rounds of a plan as text, a line for each step."""
    yield f"{plan.machines} machines, --at-once {plan.at_once}, --format {plan.format}, init {plan.numbers}, {plan.begun} snapshots at first"
    for it in plan.rounds:
        yield f"round {it.number}: edits of {it.edits}" + ", append-only" * it.append_only + ", a prune behind it" * it.prunes + ", a power cut" * it.is_cut
        yield from (f"  machine {job.machine} after {job.delay} s: {job.word} {job.number}" for job in it.jobs)
        yield from (f"  disturbed after {each.at} s for {each.seconds} s: {each.word} {each.number}" for each in it.disturbances)


def described(plan):
    """The words by which a plan is drawn again, and what it is like."""
    return f"--seed {plan.seed} --at-once {plan.at_once} --format {plan.format}: {plan.machines} machines, {plan.begun} snapshots at first, init {plan.numbers}"


def counted(counts, begun):
    """What was done, in words."""
    return ", ".join([*(f"{count} {word}" for word, count in sorted(counts.items()) if count), f"in {round(time.monotonic() - begun)} s"])


def plans_of(seed, given):
    """The plans to play: the one that is given, or one that is drawn for each seed from this one on."""
    if given.plan:
        yield read_plan(given.plan)
        return
    while True:
        yield new_plan(seed, given.at_once, given.format)
        seed += 1


def kept_at(plan, given):
    """Where a failing plan is stored."""
    return Path(given.keep) / f"campaign-{plan.seed}.json"


def first_failing(plans, given, counts):
    """Plays plans, until one fails, time is up, or there were enough rounds. The plan that fails, with what was played of it."""
    until = time.monotonic() + 60 * given.minutes
    for place, plan in enumerate(plans):
        left = given.rounds - counts["rounds"]
        if time.monotonic() >= until or left == 0:
            return None
        print(described(plan), flush=True)
        rounds = plan.rounds or in_time((drawn_round(plan, number) for number in range(min(ROUNDS, left) if left > 0 else ROUNDS)), until)
        faults, plan.rounds = faults_of(plan, counts, rounds, is_told=place == 0)
        if faults:
            plan.stores(kept_at(plan, given))
            print("\n".join([f"{kept_at(plan, given)}: play it again with --plan", *faults]), flush=True)
            return plan
    return None


def plays(plans, given):
    """Plays plans; the exit status."""
    counts, begun = Counter(), time.monotonic()
    try:
        plan = first_failing(plans, given, counts)
    finally:
        print(counted(counts, begun), flush=True)
    if not plan:
        return 0
    plan = shrunk(plan, time.monotonic() + 60 * given.shrink)
    plan.stores(kept_at(plan, given))
    print("\n".join(shown(plan)))
    return 1


def plays_all_scripts(seed, given):
    """Plays scripts; the exit status."""
    print(f"--scripts --seed {seed}", flush=True)
    counts, begun = Counter(), time.monotonic()
    try:
        fault = plays_scripts(seed, begun + 60 * given.minutes, given.rounds, new_folder(), counts)
    finally:
        print(counted(counts, begun), flush=True)
    print(fault or "", end="")
    return 1 if fault else 0


def words():
    parser = argparse.ArgumentParser(description=__doc__.split("\n")[0])
    parser.add_argument("--seed", type=int, help="the number that decides what happens; random if left out")
    parser.add_argument("--minutes", type=float, default=10, help="how many minutes new rounds are begun (10)")
    parser.add_argument("--rounds", type=int, default=-1, help="the greatest number of rounds")
    parser.add_argument("--at-once", type=int, default=0, help="how many connections the server serves at once; random if left out")
    parser.add_argument("--format", type=int, default=0, choices=(1, 2), help="the version of the store; random if left out")
    parser.add_argument("--shrink", type=float, default=5, metavar="MINUTES", help="how many minutes a smaller plan that fails is looked for (5)")
    parser.add_argument("--scripts", action="store_true", help="plays scripts in place of machines")
    parser.add_argument("--plan", metavar="FILE", help="plays this plan")
    parser.add_argument("--keep", metavar="FOLDER", default=".", help="where a failing plan is stored (here)")
    parser.add_argument("vault", nargs="?", default=OPTIONS.program, help="the program")
    return parser.parse_args()


def main():
    given = words()
    OPTIONS.program = os.path.abspath(given.vault)
    ends_on_signal()
    OPTIONS.room = makes_room()
    try:
        seed = given.seed if given.seed is not None else random.SystemRandom().randrange(1 << 32)
        if given.scripts:
            return plays_all_scripts(seed, given)
        return plays(plans_of(seed, given), given)
    except KeyboardInterrupt:
        return 130
    finally:
        clears(OPTIONS.room)


if __name__ == "__main__":
    sys.exit(main())
