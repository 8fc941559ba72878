"""What the cases show of the program itself (scripts/cases): each command over what a server says, each script that is played, streams of
frames, and words; and each client of a case's store over the replies that it got there. Each of them is a process, of which status, texts,
requests and what was restored are what the reference says. What stands there of the store alone is what the program `cases` is run on.
"""
import sys
from itertools import groupby

from trying import OPTIONS, ROOT, Lacking, new_folder, trial

FOLDER = ROOT / "scripts/cases"
# Those that take the longest.
EARLY = ("check_cases", "line_cases", "part_cases", "prune_cases", "world_cases")


def cases():
    """The modules of cases, each with its parts."""
    sys.path.append(str(FOLDER))
    import write
    return [(name, list(parts)) for name, parts in groupby(write.PARTS, lambda part: part.__module__)]


def holds_each(parts):
    """Runs the program as the cases of these parts say."""
    from running import NoCompiler, Runner
    from script import Script
    script = Script()
    for part in parts:
        part(script)
    script.ends()
    try:
        runner = Runner(OPTIONS.program, new_folder())
    except NoCompiler as error:
        raise Lacking(str(error)) from error
    for run in script.runs:
        came = runner.came(run)
        if not run.holds(came):
            raise AssertionError(f"{run.heading}: {' '.join(run.words)[:200]}: {came}, and not {run.wanted}")


def tries(name, parts):
    """A trial of the cases of a module, where runs of the program are among them."""
    def holds_all():
        holds_each(parts)
    holds_all.__name__ = f"{name}_hold"
    trial(is_early=name in EARLY)(holds_all)


for name, parts in cases():
    if name not in ("event_cases", "kernel_cases"):
        tries(name, parts)
