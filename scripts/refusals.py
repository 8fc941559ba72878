"""Whether the prover refuses a crate with edits in it, each for what the function that it turns owes."""
import os
import re
import shutil
import subprocess
import sys
import tempfile

import edits

TOLD = re.compile(r"^fn (\S+): (.*)$")
PLACED = re.compile(r"^(?:note: |so far: )?(?:\./)?(\S+):\d+:\d+: (.*)$")
# What a check tells before its end.
UNPROVED = re.compile(r"^so far: .*: (?:error|no proof|not proved)\b")
REFUSED = ("no proof", "not proved")
# The function isn't proved as one that it calls isn't, or a block that it passes on.
BY_ANOTHER = re.compile(r"^(?:no proof: |not proved: )?it (?:calls|passes|waits) ")
# A proof file names what the edit took away.
NAMES_ALONE = re.compile(r"has no field|is not in scope|has no `|was not admitted")
ONLY = re.compile(r"^only: (\S+)$", re.M)
# So many edits are tried together: where a search for a proof fails it takes its time, and each has a few.
MOST = 30


class Edit:
    """An edit of a crate: what it makes of the crate's files, and the names of the functions by which it is refused: those of src/ that
    it turns, or where it turns anything else those that its lines `only: NAME` say; none where it is refused by whatever isn't proved."""

    def __init__(self, rt, crate, path):
        self.label = f"{crate.name}/{os.path.basename(path)}"
        with open(path, encoding="utf-8") as it:
            self.text = it.read()
        texts, why = rt.edited(self.text, crate.folder)
        if why:
            sys.exit(f"{self.label}: {why}")
        turned = {(file, at) for file, text in texts.items() for at in places(crate, file, text)}
        self.is_local = all(at is not None and file.startswith("src/") for file, at in turned)
        names = [edits.name_of(crate.folder, *it) for it in turned] if self.is_local else ONLY.findall(self.text)
        self.functions = {f"{crate.name}::{name}" for name in names}


def places(crate, file, text):
    """The places of the functions of a file that this text of it turns."""
    with open(f"{crate.folder}/{file}", encoding="utf-8") as it:
        return edits.turned_functions(it.read().split("\n"), text.split("\n"))


def rounds_of(tried):
    """The edits in rounds of MOST at most, in each of which a function is turned once at most; what turns anything else comes alone."""
    rounds = []
    for edit in tried:
        fitting = next((it for it in rounds if len(it) < MOST and edit.is_local and all(other.is_local and not edit.functions & other.functions for other in it)), None)
        if fitting is None:
            rounds.append([edit])
        else:
            fitting.append(edit)
    return rounds


def checked(rt, crate, tried, kept):
    """The edits that could be made together, since their texts stand once beside the others, and the lines of a check of the functions
    by which these are refused, or of the whole crate where none are said: in a copy of the crate, over what the checks of the crate
    before it have kept there."""
    rtlib = rt.rtlib
    with tempfile.TemporaryDirectory(prefix="edits-") as room:
        for part in rtlib.PARTS:
            if os.path.isdir(f"{crate.folder}/{part}"):
                shutil.copytree(f"{crate.folder}/{part}", f"{room}/{part}")
        made = []
        for edit in tried:
            texts, why = rt.edited(edit.text, room)
            for file, text in ({} if why else texts).items():
                with open(f"{room}/{file}", "w", encoding="utf-8") as it:
                    it.write(text)
            made += [] if why else [edit]
        only = [word for edit in made for name in sorted(edit.functions) for word in ("--only", name)]
        words = [*rtlib.guarded(), rtlib.RATTLE, "check", *crate.words(["--jobs", "1"], keeps=False), "--incremental", kept, *only]
        lines = said_by(words, room, not only)
        return made, [] if rtlib.STALE.search("\n".join(lines)) else lines


def said_by(words, room, is_whole):
    """The lines of a check. One of the whole crate is ended by the first that says of something that it isn't proved: so the crate isn't."""
    how = {"stdin": subprocess.DEVNULL, "stdout": subprocess.PIPE, "stderr": subprocess.STDOUT}
    lines = []
    with subprocess.Popen(words, cwd=room, text=True, errors="replace", **how) as check:
        for line in check.stdout:
            lines.append(line.rstrip("\n"))
            if is_whole and UNPROVED.match(line):
                check.terminate()
                return [*lines, "logic=not-proved"]
    return lines


def said_of(function, lines):
    """What a check says of a function; None where it says nothing of it."""
    return next((found[2] for found in map(TOLD.match, reversed(lines)) if found and found[1] == function), None)


def answers_of(function):
    """Where the answers of a function's goals stand."""
    return f"proofs/{'/'.join(function.split('::')[1:])}/"


def errors(lines):
    """What a check says of places that aren't as they should be, with the file of each."""
    return [(found[1], found[2]) for found in map(PLACED.match, lines) if found and not found[0].startswith("note: ") and ": note: " not in found[0]]


def told_of(function, lines):
    """Whether a function isn't proved, by these lines of a check; None where they don't say so of it by itself: it calls another
    that isn't, and nothing else is said of it, nor of its own answers."""
    said = said_of(function, lines)
    if said is None or not said.startswith(REFUSED):
        return None if said is None else False
    own = [part for part in said.split("; ") if part not in REFUSED and not BY_ANOTHER.search(part)]
    if own or any(file.startswith(answers_of(function)) for file, _ in errors(lines)):
        return True
    return None if "; " in said or BY_ANOTHER.search(said) else True


def verdict(edit, lines):
    """Whether the edit was refused, by these lines of a check; None where they don't say so of its functions by themselves."""
    if not edit.functions:
        return any(line.startswith("logic=not-proved") for line in lines)
    told = [told_of(function, lines) for function in edit.functions]
    return True if True in told else None if None in told else False


def reason(edit, lines):
    """What the check says first of the functions: a goal in a file of their proofs, or their own lines, or else the check's first.
    Names that a proof file can't find any more come last, as they say little of the contract."""
    folders = tuple(map(answers_of, edit.functions))
    goals = [told for file, told in errors(lines) if not folders or file.startswith(folders)]
    own = [said for said in (said_of(function, lines) for function in sorted(edit.functions)) if said]
    said = sorted(goals or own or ["nothing is said of it"], key=lambda it: bool(NAMES_ALONE.search(it)))[0][:150]
    return f"{said} (only names that a proof file can't find)" if NAMES_ALONE.search(said) else said


def tried_round(rt, crate, tried, kept):
    """What came of each edit of a round: whether it was refused, and why; None where a check of its functions doesn't say so of them,
    also by itself. Those of whose functions a check doesn't say so by themselves, as they call one that another edit turns, and those
    that couldn't be made beside the others, are tried once more without these; in two halves, where it says so of none, as where an edit
    can't be read."""
    made, lines = checked(rt, crate, tried, kept)
    told = [edit for edit in made if len(tried) == 1 or verdict(edit, lines) is not None]
    for edit in told:
        yield edit, verdict(edit, lines), reason(edit, lines)
    left = [edit for edit in tried if edit not in told]
    for again in [left] if told else [left[: len(left) // 2], left[len(left) // 2 :]]:
        if again:
            yield from tried_round(rt, crate, again, kept)


def is_there(crate, rtlib):
    """Whether a crate's library is there, as the crate and those below it stand: `rt lib` stamps it with the digest of their sources,
    and one of `rt ci`, which has no stamp, has to be newer than all of these."""
    if os.path.exists(f"{crate.folder}/out/rlib/stamp"):
        return crate.is_built()
    sources = (file for it in (crate, *crate.below()) for file in rtlib.files_of(it.folder))
    return os.path.isdir(crate.rlib) and all(os.path.getmtime(file) <= os.path.getmtime(crate.rlib) for file in sources)


def crates_with(rt, root, wanted):
    """The crates of these names, where their libraries are there, and those of all below; else it ends, and says which lack."""
    crates = [it for it in rt.rtlib.crates_below(root) if it.name in wanted]
    lacking = sorted({it.name for it in {it for crate in crates for it in (crate, *crate.below())} if not is_there(it, rt.rtlib)})
    if lacking or len(crates) < len(wanted):
        sys.exit(f"no library of {', '.join(lacking)} as it stands: scripts/libraries.py" if lacking else "there is no such crate")
    return crates
