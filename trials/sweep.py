#!/usr/bin/env python3
"""Disturbs each step of each client in turn, in worlds that `vault play` plays, and looks at what is left.

Usage: trials/sweep.py [--every N] [VAULT]

Every world is a list of clients that run one after another; in some of them a prune has crashed, a deletion is under way, or a lock
was removed; some backups are fed, and each item is a step, too. Before each step of each of them, once: the client stops for good; it stops, its lock is removed, and its last request
comes late, behind all others; its lock is removed and it goes on; or the device fails in that step, after its change, before it, or
where it reads. The clients after it run on. Then all locks are removed, and a check has to be clean.

Each snapshot that was reported as stored, and that no forget was asked to delete, has to be restored whole. A script prints no bytes. So
the reference in scripts/cases plays it too: it has to print the same, and what it restores has to be what the backup was handed, byte for
byte. At last a backup of the same entries has to find each blob there, `stored 0 0`.

What is printed has to stay the same where each request so far comes once more before the report, and where the store is closed and
opened before each line, unless the device failed where it reads: a store that remembers reads at other steps.

Five of the worlds are scripts that were worked out by hand (scripts/cases/played_cases.py), line by line.

VAULT is the program; without it the one that `scripts/vault.sh` builds is run. With N only each N-th disturbance is tried. Nothing is
kept.
"""
import argparse
import itertools
import re
import subprocess
import sys
from dataclasses import dataclass, replace
from pathlib import Path

sys.dont_write_bytecode = True
sys.path.insert(0, str(Path(__file__).resolve().parents[1] / "scripts/cases"))
from played_cases import UPGRADED, WORKED
from plays import Player

PROGRAM = Path(__file__).resolve().parents[1] / "crates/vault/out/vault"
FAILURES = ("applied", "unapplied", "read")
# More steps than a client of these worlds takes.
MANY = 100
# The bytes of a larger file. All are in one pack, which is put once the items end: that a pack becomes due within a piece is for the cases.
MANY_BYTES = bytes(number * number // 7 % 256 for number in range(800)).hex()


@dataclass
class Client:
    """A client: the lines that start it, the same if it is a backup that is handed its entries, how many entries these are, the clients
    whose snapshots it names, those that it may delete, how it runs where it isn't the one that is disturbed, and where it is fed, its
    steps: {0} is its number, and {1} its token."""

    lines: list
    again: tuple = ()
    entries: int = 0
    names: tuple = ()
    forgets: tuple = ()
    runs: tuple = ("finish {0}",)
    steps: tuple = ()

    def run(self, number):
        return [line.format(number, number + 1) for line in self.runs]

    def fed(self, number):
        """The lines of its steps, where it is fed: more than it takes, since a step does nothing where nothing is pending."""
        return [line.format(number) for line in self.steps]


def backup(host, time, *entries):
    lines = [*entries, f"start backup {host} {time}"]
    return Client(lines, tuple(lines), len(entries))


def handed(items):
    """The lines of the entries that are fed as these items."""
    path, lines, data = [], [], None
    for item in items:
        word, *rest = item.split(" ")
        if word in ("dir", "file"):
            path.append(rest[0])
            if word == "dir":
                lines.append(f"dir {'/'.join(path)}")
            else:
                data = ""
        elif word == "bytes":
            data += rest[0]
        elif word == "close":
            if data is not None:
                lines.append(f"file {'/'.join(path)} {data or '-'}")
            data = None
            path.pop()
    return lines


def fed(host, time, *items):
    """A backup that is fed: behind each item come steps for what it may have to put."""
    feeds = [f"feed {{0}} {item}" for item in items]
    steps = ["step {0}"] * 8
    for feed in feeds:
        steps += [feed, *["step {0}"] * (4 if " end" in feed else 3 if " bytes" in feed else 1)]
    runs = ["finish {0}"]
    for feed in feeds:
        runs += [feed, "finish {0}"]
    again = [*handed(items), f"start backup {host} {time}"]
    return Client([f"start pieces {host} {time}"], tuple(again), len(again) - 1, runs=tuple(runs), steps=tuple(steps))


def forget(*clients):
    return Client(["start forget " + " ".join(map(str, clients))], names=clients, forgets=clients)


def restore(client):
    return Client([f"start restore {client}"], names=(client,))


def old(client):
    """The same of a client that knows version 1 alone."""
    return replace(client, lines=[line.replace("start", "old start") for line in client.lines])


PRUNE, CHECK, LIST, UPGRADE = (Client([f"start {job}"]) for job in ("prune", "check", "list", "upgrade"))


def prune_until(word, *behind):
    """A prune that comes so far, and then this."""
    return Client(["start prune"], runs=(f"until {{0}} {word}", *behind))


def without_lock(client, word):
    """A client whose lock is removed when it is about to ask this, and that goes on."""
    return replace(client, runs=(f"until {{0}} {word}", "unlock {1}", "finish {0}"))


def runs(client, *lines):
    """The same client, which runs so."""
    return replace(client, runs=lines)


TWO = [backup("a", 1, "file x 61", "file y 62"), backup("a", 2, "file x 61")]
CRASHED = ("crash {0}", "unlock {1}")

WORLDS = {
    "two hosts with one file": [backup("a", 1, "file x 616263"), backup("b", 2, "file x 616263"), LIST],
    "a pack that is thinned out": [
        backup("a", 1, "file x 61", "file y 62"),
        backup("a", 2, "file x 61"),
        forget(0),
        PRUNE,
        backup("b", 3, "file y 62"),
    ],
    "a pack that is pruned and made again": [backup("a", 1, "file x 616263"), forget(0), PRUNE, backup("b", 2, "file x 616263"), CHECK],
    "directories that are restored": [
        backup("a", 1, "dir d", "file d/x 616263", "file d/y -", "dir e"),
        backup("b", 2, "dir d", "file d/x 616263"),
        restore(0),
        Client(["start keep 1 1"], forgets=(0, 1)),
        PRUNE,
    ],
    "a prune that crashed before its index": [*TWO, forget(0), prune_until("put-index", *CRASHED), backup("b", 3, "file y 62"), PRUNE, restore(1)],
    "a prune that crashed in its deletions": [*TWO, forget(0), prune_until("delete-pack", *CRASHED), PRUNE, backup("b", 3, "file y 62"), CHECK],
    "a deletion that comes late": [
        backup("a", 1, "file x 616263"),
        forget(0),
        prune_until("delete-pack", "unlock {1}"),
        backup("a", 2, "file x 616263"),
        Client(["start list"], runs=("late 2", "finish {0}", "late 2")),
        restore(3),
    ],
    "a backup whose lock was removed": [
        backup("a", 1, "file x 616263"),
        without_lock(backup("b", 2, "file x 616263", "file z 7a"), "put-index"),
        forget(0),
        PRUNE,
        backup("b", 3, "file x 616263", "file z 7a"),
        CHECK,
    ],
    "clients of both versions around an upgrade": [
        old(backup("a", 1, "file x 616263", "file y 62")),
        UPGRADE,
        backup("b", 2, "dir d", "file d/x 616263", "file d/y -"),
        old(backup("c", 3, "file z 7a")),
        forget(0),
        PRUNE,
        UPGRADE,
        restore(2),
    ],
    "backups that are fed": [
        backup("a", 1, "file x 616263"),
        fed("b", 2, "dir d", "file x", "bytes 616263", "close", "close", "file y", f"bytes {MANY_BYTES}", "close", "end"),
        forget(0),
        PRUNE,
        fed("c", 3, "file x", "bytes 6162", "bytes 63", "close", "end"),
        restore(1),
        CHECK,
    ],
}

# What a backup is fed in one of them: an item before it wants any, and a name out of order, among others.
REFUSED_ITEMS = ["end", "file x", "bytes 61", "bytes 6263", "close", "file a", "end"]


def behind_ends(*steps):
    """The lines that feed these items, and behind each end these steps."""
    for item in REFUSED_ITEMS:
        yield f"feed {{0}} {item}"
        yield from steps * (item == "end")


# Those that were worked out by hand, line by line, with the script and what it prints.
BY_HAND = {
    "two hosts with equal files": (WORKED[0], [backup("a", 1, "file x 616263"), backup("b", 1, "file x 616263")]),
    "a prune that makes a pack again": (WORKED[1], [
        backup("a", 1, "file x 616263", "file y 6465"),
        backup("a", 2, "file x 616263"),
        forget(0),
        prune_until("put-index", *CRASHED),
        PRUNE,
        restore(1),
    ]),
    "a deletion that comes after its pack was made again": (WORKED[2], [
        backup("a", 1, "file x 616263"),
        forget(0),
        prune_until("delete-pack", "unlock {1}"),
        runs(backup("a", 2, "file x 616263"), "finish {0}", "late 2"),
        restore(3),
    ]),
    "a backup that is fed beside items that it refuses": (WORKED[6], [
        Client(["start pieces a 5"], ("file x 616263", "start backup a 5"), 1, runs=tuple(behind_ends("finish {0}")),
               steps=tuple(behind_ends(*["step {0}"] * 8))),
        restore(0),
    ]),
    "an old snapshot that comes after an upgrade": (UPGRADED, [
        old(backup("a", 1, "file x 616263")),
        runs(old(backup("b", 1, "file x 616263")), "until {0} put-snapshot"),
        runs(UPGRADE, "finish {0}", "unlock 2"),
        UPGRADE,
        runs(backup("c", 2, "file x 616263"), "finish {0}", "late 1", "finish 1"),
        old(restore(4)),
        restore(0),
        restore(4),
    ]),
}
WORLDS |= {name: world for name, (_, world) in BY_HAND.items()}


def play(program, lines):
    """What a script prints, a line each."""
    text = "".join(line + "\n" for line in lines)
    run = subprocess.run([program, "play"], input=text, capture_output=True, text=True, timeout=120)
    if run.returncode != 0:
        raise AssertionError(f"status {run.returncode}, {run.stderr.strip()}, of\n{text}")
    return run.stdout.splitlines()


def told_of(printed, client):
    """What the report tells of a client."""
    for line in printed:
        found = re.fullmatch(rf"client {client} \S+ (.*)", line)
        if found:
            return found[1]
    return None


def is_stored(printed, client):
    return (told_of(printed, client) or "").startswith("stored ")


def lines_before(world, client):
    """All that runs before a client's first step."""
    lines = []
    for number, earlier in enumerate(world[:client]):
        lines += [*earlier.lines, *earlier.run(number)]
    return lines + world[client].lines


def goes_on(program, world, lines, client):
    """The world and its lines when the clients after a disturbed one ran. One that names a snapshot which isn't stored lists
    in its place."""
    world = list(world)
    for number in range(client + 1, len(world)):
        printed = play(program, [*lines, "report"])
        if not all(is_stored(printed, named) for named in world[number].names):
            world[number] = LIST
        lines = [*lines, *world[number].lines, *world[number].run(number)]
    return world, lines


def steps_of(program, world, client):
    """How many steps a client takes that nothing disturbs."""
    if world[client].steps:
        return len(world[client].steps)
    for steps in range(MANY):
        printed = play(program, [*lines_before(world, client), *[f"step {client}"] * steps, "report"])
        if told_of(printed, client) != "running":
            return steps
    raise AssertionError("a client takes too many steps")


def disturbances(world, client, steps):
    """Each way to disturb a client before a step: its name, its lines, and those behind all other clients."""
    fed = world[client].fed(client)
    before = fed[:steps] if fed else [f"step {client}"] * steps
    rest = [*fed[steps:], f"finish {client}"]
    yield "stops", [*before, f"crash {client}"], []
    yield "is late", [*before, f"crash {client}", f"unlock {client + 1}"], [f"late {client}"]
    yield "loses its lock", [*before, f"unlock {client + 1}", *rest], []
    for failure in FAILURES:
        yield f"has a device that fails {failure}", [*before, f"fault {client} {failure}", *rest], []


def stored(world, printed):
    """The backups that were reported as stored, and of which no forget was asked to delete the snapshot."""
    forgotten = {number for client in world for number in client.forgets}
    for number, client in enumerate(world):
        if number not in forgotten and is_stored(printed, number):
            yield number, client.entries


def ending(world, kept):
    """All locks are removed; a check; a restore of each snapshot that has to be there; and a backup of the same entries."""
    checker = len(world)
    lines = [f"unlock {token}" for token in range(1, len(world) + 1)] + ["start check", f"finish {checker}"]
    for place, (number, _) in enumerate(kept):
        lines += [f"start restore {number}", f"finish {checker + 1 + 2 * place}"]
        lines += [*world[number].again, f"finish {checker + 2 + 2 * place}"]
    return lines


def restored_by(player, client):
    """The lines of the entries that a client of the reference restored."""
    entries = []
    for word, what in player.seats[client].client.given:
        if word == "piece":
            entries[-1][1] += what.hex()
        elif word in ("dir", "file"):
            entries.append([f"{word} {what}", ""])
    return sorted(line + (f" {digits or '-'}" if line.startswith("file ") else "") for line, digits in entries)


def faults_of(world, kept, printed):
    """What isn't as it has to be."""
    checker = len(world)
    if not (told_of(printed, checker) or "").startswith("clean "):
        yield f"check {told_of(printed, checker)}"
    for place, (number, entries) in enumerate(kept):
        restored, again = (told_of(printed, checker + 1 + 2 * place + one) for one in (0, 1))
        if restored != f"complete {entries}":
            yield f"restore of client {number}'s snapshot {restored}"
        if again != "stored 0 0":
            yield f"the same backup as client {number}'s {again}"


def faults_by_reference(world, kept, lines, printed):
    """What the reference prints otherwise, and which bytes it restores otherwise."""
    player = Player()
    if "".join(player.run(place, line.encode()) for place, line in enumerate(lines, 1)).splitlines() != printed:
        yield "the reference prints something else"
    for place, (number, _) in enumerate(kept):
        if restored_by(player, len(world) + 1 + 2 * place) != sorted(world[number].again[:-1]):
            yield f"the restore of client {number}'s snapshot gives other bytes"


def look_at(program, world, lines, reads):
    """Plays on to the end, and tells what isn't as it has to be."""
    kept = list(stored(world, play(program, [*lines, "report"])))
    whole = [*lines, *ending(world, kept)]
    printed = play(program, [*whole, "report"])
    yield from faults_of(world, kept, printed)
    yield from faults_by_reference(world, kept, [*whole, "report"], printed)
    if play(program, [*whole, "replay", "report"]) != printed:
        yield "another report when all requests come once more"
    opened = [each for line in whole for each in ("restart", line)]
    if not reads and play(program, [*opened, "report"]) != printed:
        yield "another report when the store is opened before each line"


def disturbed(program, world):
    """Each disturbance of a world: the client, the number of its steps before, and what is done."""
    for client in range(len(world)):
        for steps in range(steps_of(program, world, client) + 1):
            for way in disturbances(world, client, steps):
                yield client, steps, *way


def sweep(program, name, world, every=1):
    """Tries each disturbance of a world, or each of so many: how many, and a text for each thing that isn't as it has to be."""
    wrong, tried = [], 0
    for client, steps, what, lines, behind in itertools.islice(disturbed(program, world), 0, None, every):
        tried += 1
        ran, whole = goes_on(program, world, [*lines_before(world, client), *lines], client)
        for fault in look_at(program, ran, [*whole, *behind], what.endswith("read")):
            wrong.append(f"{name}: client {client} {what} after {steps} steps: {fault}")
    return tried, wrong


def by_hand(program, name):
    """What is wrong with a world that was worked out by hand, if nothing disturbs it."""
    (_, text, prints), world = BY_HAND[name]
    lines = [*lines_before(world, len(world) - 1), *world[-1].run(len(world) - 1), "report"]
    if lines != text.splitlines():
        yield "another script"
    if play(program, lines) != prints.splitlines():
        yield "it prints something else"


def main():
    parser = argparse.ArgumentParser(description="Disturbs each step of each client in turn")
    parser.add_argument("--every", type=int, default=1, metavar="N", help="only each N-th disturbance")
    parser.add_argument("program", nargs="?", default=str(PROGRAM), metavar="VAULT")
    given, failed = parser.parse_args(), False
    program = str(Path(given.program).resolve())
    for name in BY_HAND:
        for fault in by_hand(program, name):
            print(f"{name}: {fault}")
            failed = True
    for name, world in WORLDS.items():
        tried, wrong = sweep(program, name, world, given.every)
        print(*wrong, f"{name}: {tried} tried, {len(wrong)} wrong", sep="\n")
        failed = failed or bool(wrong)
    sys.exit(failed)


if __name__ == "__main__":
    main()
