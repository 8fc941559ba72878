#!/usr/bin/env python3
"""Makes the table of docs/SPEED.md of what bench/backup.sh printed.

Usage: bench/table.py FILE, which is what one run printed.

A row is a step. It has vault's seconds of processors, client and server together, divided by restic's of that very run; then the
seconds of processors of each program, the seconds of the clock of each, where restic stands a second time, on one processor; and the
MiB that each took at most. A list is left out: it takes vault nothing that the clock shows.
"""
import sys

PROGRAMS = ("vault", "restic", "single", "borg")
RATIO, CLOCK, PROCESSORS, MEMORY = range(4)
HEADS = ("Step", "of restic", "processors: vault", "restic", "borg", "clock: vault", "restic", "on one", "borg", "MiB: vault", "restic", "borg")


def steps(path):
    """The steps of a run in order, each with the fields of each program's line."""
    found = {}
    with open(path, encoding="utf-8") as lines:
        for line in lines:
            fields = [field.strip() for field in line.strip().strip("|").split("|")]
            if len(fields) == 7 and fields[1] in PROGRAMS:
                found.setdefault(fields[0], {})[fields[1]] = fields[2:]
    return found


def row(cells):
    print("| " + " | ".join(cells) + " |")


def main(path):
    row(HEADS)
    print("|---" * len(HEADS) + "|")
    for step, of in steps(path).items():
        if step.endswith(": list"):
            continue
        processors = [of[program][PROCESSORS] for program in ("vault", "restic", "borg")]
        clock = [of[program][CLOCK] for program in PROGRAMS]
        row([step, of["vault"][RATIO], *processors, *clock, *(of[program][MEMORY] for program in ("vault", "restic", "borg"))])


main(sys.argv[1])
