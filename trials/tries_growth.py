"""Want of memory: requests for memory that are refused, one in each run, by a small library that stands before malloc and realloc.

The cases are run so: a run of each command over what a server says, and of scripts; and the program of cases, with what is asked of a store.
And the commands themselves, over a real server, each of whose runs is done all the same, or ends with a text that says why.
"""
import os
import re
import shutil
import subprocess
import sys
from concurrent.futures import ThreadPoolExecutor
from pathlib import Path

from program import Server, has_status, told
from trying import OPTIONS, ROOT, WAIT, Lacking, Skipped, holds, needs, new_folder, same, trial
from yards import SMALL, Yard, entries, filled, is_clean, restores, stored

sys.path.append(str(ROOT / "scripts/cases"))

# The cases that are run so, and how they are judged.
import refused

# In the gate each request up to this one is refused, then every seventh.
FIRST, STEP = 40, 7


def numbers(first=FIRST, step=STEP):
    """Which requests are refused, one after another, until one isn't made any more."""
    at = 1
    while True:
        yield at
        at += 1 if OPTIONS.is_long or at < first else step


def refuser(yard):
    """The library, where it can be built and loaded before the program."""
    needs("gcc")
    library = yard.top / "refuse.so"
    subprocess.run(["gcc", "-shared", "-fPIC", "-O1", "-o", library, refused.REFUSER], check=True, timeout=WAIT)
    return library


def counts(library, mark):
    """Skips the trial where the library doesn't see the program's own requests: of a script, or of a program with a sanitizer."""
    is_script = Path(OPTIONS.program).read_bytes()[:2] == b"#!"
    if is_script or told("--version", env=refused.refusing(library, mark, 1)).startswith("0|") and not mark.is_symlink():
        raise Skipped("the requests of this program can't be refused")


def step_of(case):
    """Which requests of a case are refused behind the first ones: the full ledger's case makes more than a hundred thousand."""
    return 50 * STEP if "ledger" in case.heading else STEP


@trial(is_early=True)
def cases_whose_memory_is_refused():
    """Each case of a store twice in a row: whichever request is refused, at most one of the two differs, and reports that there was no memory."""
    if not refused.CASES.is_file():
        raise Lacking("there is no program of cases: `rt ci` leaves one")
    with Yard() as yard, ThreadPoolExecutor(os.cpu_count()) as pool:
        library, cases = refuser(yard), refused.tried_cases(refused.chosen())
        total = sum(pool.map(lambda place: cases[place].requests(library, yard.top / f"refused-{place}", numbers(step=step_of(cases[place]))), range(len(cases))))
        holds(total > 2_000, f"only {total} requests were refused")
        print(f"{len(cases)} cases, {total} requests for memory refused", flush=True)


@trial(is_early=True)
def runs_whose_memory_is_refused():
    """Each run of the cases: whichever request is refused, it ends as it ends else, or reports that there was no memory."""
    with Yard() as yard:
        library, mark = refuser(yard), yard.top / "refused"
        counts(library, mark)
        runner = refused.Runner(OPTIONS.program, new_folder())
        total = sum(run.requests(library, mark, numbers(), runner) for run in refused.tried_runs(refused.chosen()))
        holds(total > 3000, f"only {total} requests were refused")


# How a command is told as done; where it isn't, it ends with status 1, and no signal ends it.
DONE = {"backup": r"0\|stored [0-9a-f]{64} \d+ \d+\n\|", "restore": r"0\|complete 3\n\|", "snapshots": r"0\|([0-9a-f]{64} \d+ h\n)+\|", "prune": r"0\|pruned \d+ \d+\n\|",
        "check": r"0\|clean \d+ \d+ \d+ \d+\n\|", "locks": r"0\|(\d+ (shared|exclusive) \d+ .*\n)*\|", "unlock": r"0\|(removed \d+\n)*\|"}


def is_an_end(job, got):
    """Whether a command is done, or reports that there was no memory, in itself or in the server."""
    return re.fullmatch(DONE[job], got) or re.fullmatch(r"1\|[^|]*\|(.*\n)*(out of memory|refused 11)\n", got)


def is_cut_off(got):
    """Whether the server ended the connection, since it had no memory for it."""
    return got in ("1||read failed\n", "1||write failed\n", "1||not reached\n")


@trial(is_long=True, is_early=True)
def commands_whose_memory_is_refused():
    """Each is done all the same, or fails; the store is well behind it, and the same command is done when nothing is refused."""
    with Yard(*SMALL, is_store=True) as yard:
        library, mark = refuser(yard), yard.top / "refused"
        counts(library, mark)
        root = filled(yard.top / "from", {"d/x": b"abc" * 50, "y": b"def"})
        with Server(yard.root, connections=10**6) as server:
            name = stored(server.address, root)
            for words in (["backup", "h", root], ["snapshots"], ["restore", name, yard.top / "to"], ["check"], ["locks"], ["prune"], ["unlock"]):
                refuses_each(server.address, library, mark, words, entries(root))
                has_status(told("unlock", server.address, "--remove-all"), 0)
                is_clean(server.address)
                restores(server.address, name, yard.top / "to", entries(root))


def refuses_each(address, library, mark, words, wanted):
    """Refuses the requests of a command, one in each run."""
    for count, at in enumerate(numbers()):
        for each in words[1:]:
            if str(each).endswith("/to"):
                shutil.rmtree(each, ignore_errors=True)
        if count % 10 == 0:
            told("unlock", address, "--remove-all")
        got = told(words[0], address, *words[1:], env=refused.refusing(library, mark, at))
        if not mark.is_symlink():
            break
        holds(is_an_end(words[0], got), f"{words[0]}, request {at} refused: {got}")
        if words[0] == "restore" and got.startswith("0|"):
            same(entries(words[2]), wanted, f"what was restored, request {at} refused")
        if count > (10_000 if OPTIONS.is_long else 60):
            break
    holds(at > 10, f"{words[0]} made {at} requests")


@trial(is_long=True)
def a_server_whose_memory_is_refused():
    """It answers with code 11, ends the connection, or doesn't begin; over the next connection all is done."""
    with Yard(*SMALL, is_store=True) as yard:
        library, mark = refuser(yard), yard.top / "refused"
        counts(library, mark)
        root = filled(yard.top / "from", {"d/x": b"abc" * 50, "y": b"def"})
        for count, at in enumerate(numbers()):
            try:
                server = Server(yard.root, connections=9, env=refused.refusing(library, mark, at))
            except AssertionError as error:
                holds(mark.is_symlink() and str(error).startswith("serve: "), error)
                continue
            with server:
                got = told("backup", server.address, "h", root)
                holds(is_an_end("backup", got) or is_cut_off(got), f"request {at} of the server refused: {got}")
            if not mark.is_symlink() or count > (10_000 if OPTIONS.is_long else 60):
                break
        with Server(yard.root, connections=9) as server:
            has_status(told("unlock", server.address, "--remove-all"), 0)
            is_clean(server.address)
            restores(server.address, stored(server.address, root), yard.top / "to", entries(root))
        same(at > 10, True, f"{at} requests")
