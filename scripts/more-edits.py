#!/usr/bin/env python3
"""Tries edits that the prover has to refuse, many at a time.

Usage: scripts/more-edits.py [CRATE | CRATE/EDIT ..]
or: scripts/more-edits.py --stale

Of each crate (all without a word) it tries the edits in more-edits/CRATE; with CRATE/EDIT those whose names begin with EDIT. Those
of the gate stand in must-fail/, and scripts/must-fail.py tries them.
An edit that turns functions of src/ is tried as one of the gate is: in a check of the functions alone that it and others turn. What
turns anything else, as a definition, and what such a check doesn't say of its functions, is tried alone, in a check of the crate.

It goes over the libraries that were built here (rt lib in the crate, which builds those below), and over what was kept of the crate's
own proof. In the highest crates a check of thirty edits takes up to 10 GB: let one go at a time there. The last line is
'N refused, M not'.

Where each edit in more-edits/CRATE was refused, more-edits/TRIED has a line of it: the crate, how many they were, and the digest of
these edits and of the crate's sources, contracts and proofs. --stale tells the crates without a line, or whose files are others now.
"""
import argparse
import hashlib
import os
import shutil
import sys
import tempfile

sys.dont_write_bytecode = True

import kit  # noqa: E402
from refusals import Edit, checked, crates_with, reason, rounds_of, tried_round, verdict  # noqa: E402

ROOT = os.path.dirname(os.path.dirname(os.path.abspath(__file__)))
TRIED = f"{ROOT}/more-edits/TRIED"


def tried(rt, crate, edits, kept):
    """What came of each edit of a crate."""
    for edit, is_refused, why in (it for each in rounds_of(edits) for it in tried_round(rt, crate, each, kept)):
        if is_refused is None:
            edit.functions = set()
            _, lines = checked(rt, crate, [edit], kept)
            is_refused, why = verdict(edit, lines), reason(edit, lines)
        yield edit, is_refused, why


def edits_of(crate):
    folder = f"{ROOT}/more-edits/{crate}"
    return [f"{folder}/{name}" for name in sorted(os.listdir(folder))]


def crates_with_edits():
    return sorted(crate for crate in os.listdir(f"{ROOT}/more-edits") if os.path.isdir(f"{ROOT}/more-edits/{crate}"))


def line_of(crate):
    """The line of a crate in TRIED, were all its edits tried on the files that stand here."""
    folders = [f"{ROOT}/crates/{crate}/{part}" for part in ("src", "specs", "proofs")] + [f"{ROOT}/more-edits/{crate}"]
    digest = hashlib.sha256()
    for path in sorted(os.path.join(place, name) for folder in folders for place, _, names in os.walk(folder) for name in names):
        with open(path, "rb") as it:
            digest.update(f"{os.path.relpath(path, ROOT)} {hashlib.sha256(it.read()).hexdigest()}\n".encode())
    return f"{crate} {len(edits_of(crate))} {digest.hexdigest()[:16]}"


def lines_of_tried():
    """The lines of TRIED by their crates."""
    if not os.path.exists(TRIED):
        return {}
    with open(TRIED, encoding="utf-8") as it:
        return {line.split()[0]: line.rstrip("\n") for line in it}


def note_tried(crate, line):
    lines = lines_of_tried() | {crate: line}
    with open(TRIED, "w", encoding="utf-8") as it:
        it.writelines(f"{lines[name]}\n" for name in sorted(lines))


def tell_stale():
    lines = lines_of_tried()
    for crate in crates_with_edits():
        if crate not in lines:
            print(f"{crate}: not tried")
        elif lines[crate] != line_of(crate):
            print(f"{crate}: changed since")
    return 0


def tries_crate(rt, crate, names):
    """How many edits of a crate were refused, and how many weren't: of all, or of those whose names begin so."""
    refused = failed = 0
    line = line_of(crate.name)
    edits = [Edit(rt, crate, path) for path in edits_of(crate.name) if not names or os.path.basename(path).startswith(tuple(names))]
    with tempfile.TemporaryDirectory(prefix="kept-") as kept:
        if os.path.isdir(f"{crate.folder}/out/incremental"):
            shutil.copytree(f"{crate.folder}/out/incremental", kept, dirs_exist_ok=True)
        for edit, is_refused, why in tried(rt, crate, edits, kept):
            refused, failed = refused + bool(is_refused), failed + (not is_refused)
            print(f"{'refused' if is_refused else 'NOT REFUSED'} {edit.label}: {why}", flush=True)
    if not failed and not names and line == line_of(crate.name):
        note_tried(crate.name, line)
    return refused, failed


def words():
    parser = argparse.ArgumentParser(description=__doc__.split("\n")[0])
    parser.add_argument("--stale", action="store_true", help="tells which crates' edits weren't tried as they stand")
    parser.add_argument("wanted", nargs="*", metavar="CRATE | CRATE/EDIT", help="a crate, or those of its edits that begin with EDIT; all without a word")
    given = parser.parse_args()
    wanted = {}
    for word in given.wanted or crates_with_edits():
        crate, _, name = word.partition("/")
        wanted.setdefault(crate, []).extend([name] if name else [])
    unknown = wanted.keys() - set(crates_with_edits())
    if unknown:
        parser.error(f"there are no edits of {', '.join(sorted(unknown))}")
    return given, wanted


def main():
    given, wanted = words()
    if given.stale:
        return tell_stale()
    rt = kit.load()
    rt.rtlib.guarded()
    refused, failed = map(sum, zip(*(tries_crate(rt, crate, wanted[crate.name]) for crate in crates_with(rt, ROOT, wanted))))
    print(f"{refused} refused, {failed} not")
    return 1 if failed else 0


if __name__ == "__main__":
    sys.exit(main())
