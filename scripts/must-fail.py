#!/usr/bin/env python3
"""Tries the gate's edits, each of which the prover has to refuse: those in must-fail/CRATE.

Usage: scripts/must-fail.py [--jobs N] [CRATE..]

Of each crate (all without a word) it checks a copy in which edits are made, over the libraries that were built (`rt ci`, or
scripts/libraries.py), and of the functions those alone that they turn, with what these call. Edits of different functions are tried
together: what is proved of a function rests on the contracts of those that it calls, and no edit changes a contract. An edit is
refused where the function that it turns isn't proved any more, by what the function itself owes: not for one that it calls, which
another edit turned. It is tried only where the crate's own library is there as the crate stands, which says that the function is
proved without it. What the checks of a crate prove of the others is kept from one to the next. So many crates go side by side as --jobs says, else one for each processor, as memory allows. The last line is
'N passed, M failed'.
"""
import argparse
import os
import sys
import tempfile
from concurrent.futures import ThreadPoolExecutor

sys.dont_write_bytecode = True

import kit  # noqa: E402
from refusals import Edit, crates_with, rounds_of, tried_round  # noqa: E402

ROOT = os.path.dirname(os.path.dirname(os.path.abspath(__file__)))
EDITS = f"{ROOT}/must-fail"


def edits_of(rt, crate):
    """The gate's edits of a crate, each of which turns one function."""
    made = [Edit(rt, crate, f"{EDITS}/{crate.name}/{name}") for name in sorted(os.listdir(f"{EDITS}/{crate.name}"))]
    others = [edit.label for edit in made if len(edit.functions) != 1]
    if others:
        sys.exit(f"{', '.join(others)}: turned is something else than one function")
    return made


def tried_crate(rt, crate):
    """What came of each edit of a crate."""
    with tempfile.TemporaryDirectory(prefix="kept-") as kept:
        return [it for each in rounds_of(edits_of(rt, crate)) for it in tried_round(rt, crate, each, kept)]


def main():
    parser = argparse.ArgumentParser(description=__doc__.split("\n")[0])
    parser.add_argument("--jobs", type=int, metavar="N", help="so many crates at once")
    parser.add_argument("crates", nargs="*", metavar="CRATE", help="the crates whose edits are tried; all without a word")
    given = parser.parse_args()
    rt = kit.load()
    rt.rtlib.guarded()
    crates = crates_with(rt, ROOT, given.crates or sorted(os.listdir(EDITS)))
    passed = failed = 0
    with ThreadPoolExecutor(given.jobs or kit.jobs_here()) as pool:
        for told in pool.map(lambda crate: tried_crate(rt, crate), sorted(crates, key=lambda it: -it.count(rb"\n"))):
            for edit, is_refused, why in told:
                passed, failed = passed + bool(is_refused), failed + (not is_refused)
                print(f"must-fail {edit.label}: {'refused' if is_refused else 'NOT REFUSED'}: {why}", flush=True)
    print(f"{passed} passed, {failed} failed")
    return 1 if failed else 0


if __name__ == "__main__":
    sys.exit(main())
