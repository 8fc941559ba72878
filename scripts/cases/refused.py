#!/usr/bin/env python3
"""Runs some cases with their first request for memory refused, then with the second, and so on, until none is left.

A run of the program `vault` ends then as it ends else; or it reports want of memory; or a text on standard error is cut short. A script that is played prints what the reference prints where the store lacks memory for one of
its requests; or it ends for want of memory behind some of its lines. What stands in a case of a store alone is a case of the program
`cases`, twice in a row: whichever is refused, at most one of the two differs, and says why. Where a line of the case itself gets no memory
that program ends with that text. The programs are those that `rt run` builds in crates/vault and crates/cases.
"""

import os
import subprocess
import sys
import tempfile
from concurrent.futures import ThreadPoolExecutor
from copy import deepcopy
from pathlib import Path

sys.dont_write_bytecode = True

import line_cases
from checks import Check
from command_cases import NO_NAMES, OPENED, row, says
from event_cases import shows
from job_cases import FILE_TREE, indexed, restore_of, tree_first
from kernel_cases import AT_HALF, backup_of, done_at_half, half_forgotten, kept_of, restored_of
from kernel_cases import told as kernel
from naming import name_of
from piece_cases import fed_file
from played_cases import CARRIED, ENDED, RESTORED, WORKED
from plays import prints_of
from prune_cases import Objects, mixed, replies_to
from prunes import Prune
from running import Runner
from script import Script
from store import Store
from texts import dir_node, file_node, snapshot_text, tree_text
from world_cases import laid

CRATES = Path(__file__).resolve().parents[2] / "crates"
CASES, VAULT = CRATES / "cases/out/cases", CRATES / "vault/out/vault"
CAUSES = ("out of memory", "refused 11")
# The files of a store of which half is forgotten.
FILES = 6
# The small library that refuses a request.
REFUSER = Path(__file__).resolve().parents[1] / "refuse.c"


def at_fault():
    """A store in which a thing of each kind is at fault, some by what they hold, some by others."""
    tree = tree_text([dir_node("d", name_of(b"gone")), file_node("x", 4, [name_of(b"abc")]), file_node("y", 2, [name_of(b"de")])])
    objects = Objects().packed(("tree", tree), ("content", b"abc")).with_snapshot(tree)
    objects.index((name_of(b"{}"), [("tree", name_of(b"here"), 0, 4)]))
    objects.snapshot(b"here")
    for kind in ("pack", "index", "snapshot"):
        objects.add(kind, b"{}")
        objects.all.append((kind, name_of(b"another name"), b""))
    return objects


class Lacking(Store):
    """A store that lacks memory for the request of a number, counted from 1: before it reads anything, or once it has read all that the
    request needs, which it then remembers."""

    def __init__(self, number, has_read):
        super().__init__()
        self.left, self.has_read = number, has_read

    def answer(self, ask):
        self.left -= 1
        if self.left != 0:
            return super().answer(ask)
        if self.has_read:
            other = deepcopy(self)
            other.armed = None
            Store.answer(other, ask)
            self.remembered |= other.remembered
        return ("refused", 11)


def lacking(command, text):
    """What comes of a script if the store lacks memory for its first request, for its second, and so on: prints, and a fault."""
    for number in range(1, 10_000):
        for has_read in (False, True):
            store = Lacking(number, has_read)
            prints = prints_of(command, text, store=store)
            if store.left > 0:
                return
            yield prints


class Cases(Script):
    """Cases, and for each script that is played what it may print where the store lacks memory for one of its requests."""

    def __init__(self):
        super().__init__()
        self.lacking = {}

    def plays(self, heading, text, command="play", **shape):
        line_cases.plays(self, heading, text, command, **shape)
        self.lacking[heading] = [(prints, fault + "\n" * bool(fault)) for prints, fault in lacking(command, text.encode())]


# What happens to a client whose messages come one by one: again, late, over a device that fails, with its lock removed.
EVENTS = ("file f 736f6d65206279746573\nstart backup a 5\ndeliver 0\ndeliver 1\ndeliver 1\ndeliver 2\ndeliver 9\nlate 0\nreport\ndeliver 3\nfault 0 read\n"
          "start list\nuntil 1 list\nrestart\nfault 1 read\nreport\nunlock 1\nreport\nrestart\nreplay\ncrash 0\ndeliver 3\nreport\nstart keep 0 0\ndir ..\n"
          "start backup a 1\nlate 1\nreport\n")
ENTRIES = "dir d\nfile d/y 6465\nfile x 616263\n"
# Clients of all jobs, one after another.
ALL_JOBS = ("start backup a 5\nfinish 0\nstart restore 0\nfinish 1\nstart list\nfinish 2\nstart check\nfinish 3\nfile x 616263\nstart backup a 6\nfinish 4\n"
            "start keep 1 0\nfinish 5\nstart prune\nfinish 6\nstart forget 4\nfinish 7\nstart upgrade\nfinish 8\nreport\n")
# A line of each sort.
LINES = ("dir a\nfile a/b 616263\nfile c -\nold start backup h 5\nstart restore 0\n", "start list\nstart prune\nstart check\nstart keep 2 3\nstart upgrade\n"
         "step 0\nuntil 1 lock\nfinish 2\nlate 3\nfault 4 applied\ndeliver 0\nunlock 5\nask ticket\nask lock 6 shared\nask refresh 6 9\nask locks\ncrash 0\nrestart\n\nreplay\nreport\n",
         "start backup a 5\nfinish 0\nstart forget 0 0 0\nfinish 1\nreport\n", "append-only\nreport\n", "report\nstep  1\n", "report\nfile a 6g\n",
         "start backup " + "h" * 256 + " 5\n", "start backup " + "h" * 255 + " 5\nreport\nstart restore 0\n")


def commands(script):
    """One case of each command."""
    script.heading("locks")
    script.locks(says(("rows", [row(1, True), row(2, False)])))
    script.heading("refresh")
    script.refresh(7, says(("done",)))
    script.heading("unlock")
    script.unlock(True, says(("rows", [row(1)]), ("done",)))
    snapshot = snapshot_text("a", 5, 1, name_of(tree_text([])))
    for text, slow in (("snapshots", False), ("snapshots, byte by byte", True)):
        script.heading(text)
        script.snapshots(says(*OPENED, ("names", False, [name_of(snapshot)]), ("bytes", snapshot), ("done",)), slow=slow)
    script.heading("backup")
    script.backup("a", [(["d"], None), (["x"], b"abc")], says(*OPENED, NO_NAMES, *[("done",)] * 4), skipped=("p/link",))
    script.heading("backup of two packs")
    script.many_files(17)
    script.backup("a", [], says(*OPENED, NO_NAMES, *[("done",)] * 5))
    script.heading("restore")
    good = indexed(FILE_TREE, tree_first(FILE_TREE, b"abc")) + [("bytes", FILE_TREE), ("bytes", b"abc"), ("done",)]
    restore_of(script, FILE_TREE, *good)
    rows = [snapshot_text(host, time, 1, name_of(tree_text([]))) for host, time in (("a", 1), ("a", 2), ("b", 1))]
    rows.sort(key=name_of)
    page = ("names", False, [name_of(row) for row in rows])
    script.heading("forget, by names")
    script.forget([name_of(row) for row in rows[1:]], says(*OPENED, page, *[("done",)] * 3))
    script.heading("forget, by a policy")
    script.keep(1, 0, says(*OPENED, page, *[("bytes", row) for row in rows], ("done",), ("done",)))
    script.heading("prune")
    script.prune(says(*replies_to(Prune(), mixed())))
    script.heading("check, of a store that is well")
    script.check(says(*replies_to(Check(), mixed())))
    script.heading("check, with faults")
    script.check(says(*replies_to(Check(), at_fault())))
    script.heading("frames")
    script.frames(["0000001901010101010101010101010101010101010000000000000001"] * 2)


def clients(script):
    """A store and its clients, request by request, and to their ends at once."""
    script.heading("a store and its clients")
    script.fresh()
    for client in (script.start_backup([(["x"], b"abc")]), script.start_list(), script.start_backup([]),
                   script.start_forget(name_of(b"")), script.start_prune(), script.start_check()):
        script.steps(client)
    script.report()
    script.heading("a backup of two packs, to its end at once")
    script.fresh()
    script.many_files(17)
    script.finish(script.start_backup([]))
    shows(script, "events of a world", [(["d"], None), (["x"], b"abc")])
    script.heading("a policy for some snapshots")
    kernel(script, "keep", kept_of(30), 30)
    script.heading("a backup that is fed item by item, and the rest of a file as a list")
    script.fresh()
    script.pieces([("dir", "d"), *fed_file("x", b"ab", b"c"), ("close", None), ("file", "y"), ("rest", bytes(range(200)) * 8), ("end", None)])
    script.heading("a backup to its end, by itself")
    kernel(script, "backup", backup_of(300), 300)
    script.heading("a restore to its end, by itself")
    kernel(script, "restore", restored_of(300), 300)
    script.heading("a forget to its end, by itself")
    kernel(script, "forget", half_forgotten(FILES)[1], FILES)
    for word, job in AT_HALF.items():
        script.heading(f"a {word} to its end, by itself")
        kernel(script, word, done_at_half(FILES, job), FILES)
    script.heading("a ledger with as many fresh numbers as it keeps")
    script.fresh()
    script.ask(*[("ticket",)] * 1_025, ("lock", 1, False, 5, "a"), ("lock", 2, False, 5, "a"))
    script.heading("a list and a restore, to their ends at once")
    script.fresh()
    snapshot = laid(script, FILE_TREE, [("tree", FILE_TREE), ("content", b"abc")])
    script.finish(script.start_list())
    script.finish(script.start_restore(snapshot))


def scripts(script):
    """Scripts that are played, and one whose messages are carried."""
    script.plays("a script of each event", EVENTS)
    script.plays("a script of all jobs", ENTRIES + ALL_JOBS)
    for heading, text, _ in [*CARRIED, *WORKED[1:], *ENDED]:
        script.plays(heading, text)
    for heading, text, _ in WORKED[:-1]:
        script.plays(f"{heading}; and all requests come once more", text.replace("report\n", "replay\nreport\n"))
    for place, text in enumerate(LINES, 1):
        script.plays(f"lines of each sort, {place}", text)
    script.plays("a script that comes byte by byte", "start list\nfinish 0\nreport\n\nfile x 6", slow=True)
    script.plays("a script whose messages are carried", ENTRIES + RESTORED, "loop")


def chosen():
    """One case of each command, of the frames, of a store's clients, and of scripts."""
    script = Cases()
    for part in (commands, clients, scripts):
        part(script)
    script.ends()
    return script


def holds(is_so, what):
    if not is_so:
        raise AssertionError(what)


def refusing(library, mark, at):
    """The environment in which the request of a number is refused; a mark tells that it was."""
    mark.unlink(missing_ok=True)
    return {"REFUSE": str(at), "REFUSED": str(mark), "LD_PRELOAD": str(library)}


def is_frame_of_want(frame):
    """Whether a frame, in hexadecimal, refuses with code 11."""
    return frame.startswith("0000001a86") and frame.endswith("0b")


class Tried:
    """What is run again and again, each time with one request for memory refused."""

    def requests(self, library, mark, numbers, *place):
        """How many requests for memory were refused, those of these numbers, each in a run of its own."""
        for count, at in enumerate(numbers):
            ran = self.ran(refusing(library, mark, at), *place)
            if not mark.is_symlink():
                holds(self.is_whole(ran), f"{self.heading} differs where nothing is refused: {ran}")
                return count
            holds(not self.fault(ran), f"where request {at} is refused: {self.fault(ran)}")


class TriedRun(Tried):
    """A run of the program `vault`, of which a request for memory is refused, and what it may print then, where it is a script's."""

    def __init__(self, run, lacking):
        self.heading, self.run, self.lacking = run.heading, run, lacking

    def ran(self, environment, runner):
        return runner.came(self.run, environment)

    def is_whole(self, came):
        """Whether all came that is wanted."""
        return self.run.holds(came)

    def fault(self, came):
        """What is wrong with a run in which a request was refused."""
        wanted = self.run.wanted
        is_told = came.faults.endswith(tuple(cause + "\n" for cause in CAUSES))
        if (came.status, came.sent, came.restored, came.output) == (wanted.status, wanted.sent, wanted.restored, wanted.output):
            is_so = is_told or wanted.faults.startswith(came.faults)
        else:
            is_so = came.status in (1, 2) and is_told and wanted.output.startswith(came.output)
        is_so = is_so or self.lacking is not None and (came.output, came.faults) in self.lacking
        # The frames of a store that lacked memory for one of them.
        is_so = is_so or self.run.words == ["frames"] and not came.faults and any(map(is_frame_of_want, came.output.splitlines()))
        return None if is_so else f"{self.heading}: {came}"


def by_case(lines):
    """The lines of each case, behind its heading."""
    cases = {}
    for line in lines:
        if line.startswith("# "):
            cases[line] = []
        else:
            cases[next(reversed(cases))].append(line)
    return cases


def is_cause(line):
    """Whether a line tells of what is refused: by a text, or by a frame that refuses with code 11."""
    return line.endswith(CAUSES) or is_frame_of_want(line.removeprefix("said "))


class TriedCase(Tried):
    """A case of a store, and the same again behind it, of which a request for memory is refused."""

    def __init__(self, heading, given, wanted):
        self.heading = heading
        headings = heading, heading + ", again"
        self.given = "".join(line + "\n" for one in headings for line in [one, *given])
        self.wanted = {one: wanted for one in headings}

    def ran(self, environment):
        return subprocess.run([CASES], input=self.given, text=True, capture_output=True, env=os.environ | environment)

    def is_whole(self, ran):
        """Whether a run gave what is wanted of both."""
        return ran.returncode == 0 and by_case(ran.stdout.splitlines()) == self.wanted

    def fault(self, ran):
        """What is wrong with a run in which a request was refused."""
        gave = by_case(ran.stdout.splitlines())
        differ = [case for case in gave if gave[case] != self.wanted[case]]
        if ran.returncode == 0 and list(gave) != list(self.wanted):
            return "cases are left out"
        if ran.returncode != 0 and "out of memory" not in ran.stderr:
            return "it ends otherwise: " + ran.stderr
        if ran.returncode != 0 and differ and differ != [next(reversed(gave))]:
            return f"{differ} differ, before its end"
        if len(differ) > 1:
            return f"{differ} differ"
        if ran.returncode == 0 and not all(any(map(is_cause, gave[case])) for case in differ):
            return f"{differ} don't say why: {[gave[case] for case in differ]}"
        return None


def tried_runs(script):
    return [TriedRun(run, script.lacking.get(run.heading)) for run in script.runs]


def tried_cases(script):
    given, wanted = by_case(script.given), by_case(script.wanted)
    return [TriedCase(case, given[case], wanted[case]) for case in wanted]


def compiled(folder):
    """The library that refuses a request."""
    made = folder / "refuse.so"
    subprocess.run(["gcc", "-shared", "-fPIC", "-O1", "-o", made, REFUSER], check=True)
    return made


def main():
    script = chosen()
    runs, cases = tried_runs(script), tried_cases(script)
    with tempfile.TemporaryDirectory() as folder, ThreadPoolExecutor(os.cpu_count()) as pool:
        top = Path(folder)
        refuser = compiled(top)

        def refuses(place):
            room = top / str(place)
            room.mkdir()
            if place < len(runs):
                return runs[place].requests(refuser, room / "refused", range(1, 1_000_000), Runner(VAULT, room))
            return cases[place - len(runs)].requests(refuser, room / "refused", range(1, 1_000_000))

        counts = list(pool.map(refuses, range(len(runs) + len(cases))))
        print(f"the {len(runs)} runs and the {len(cases)} cases hold with each of their {sum(counts)} requests refused")


if __name__ == "__main__":
    main()
