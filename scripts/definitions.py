#!/usr/bin/env python3
"""Makes what docs/DEFINITIONS.md says below its reading list: each module of definitions with its first words, and the names that it has.

Usage: scripts/definitions.py [--check]

It writes the part of the page below the line `## By crate`, and prints nothing. With --check it writes nothing, and tells whether that
part is what it makes, and whether the reading list above it is what scripts/closure.py prints; exit status 1 where one isn't.
"""

import itertools
import re
import subprocess
import sys
from pathlib import Path

ROOT = Path(__file__).resolve().parents[1]
PAGE = ROOT / "docs" / "DEFINITIONS.md"
BELOW = "## By crate\n"
BEGINS = re.compile(r"^(?:(?:abbrev|unfoldable|opaque)\s+)*pub\s+(?:(?:abbrev|record|data)\s+)*([A-Za-z_][\w'-]*)")
# Files that only name others.
NODES = ("Lib", "inner")
ABOUT = (
    "Each module of definitions, with what it is about, and the names that it has; what each name means is said above it in the file.\n"
    "A module is `crates/CRATE/specs/MODULE.antt`, or, where it says so, `crates/CRATE/specs/inner/MODULE.antt`: no public contract and\n"
    "no law cites that one, and who reads claims can pass it by.\n"
)


def crates():
    """The crates that have definitions, lowest first."""
    lines = (ROOT / "crates.txt").read_text(encoding="utf-8").splitlines()
    names = [line.split(":")[0] for line in lines if line and not line.startswith("#")]
    return [name for name in names if any((ROOT / "crates" / name).glob("specs/*.antt"))]


def first_words(lines):
    """What a file says of itself: its first comment, which is that of its first definition where the file has none of its own, as one
    sentence without its end."""
    begins = next(at for at, line in enumerate(lines) if line.startswith("-- "))
    said = [line[3:].strip() for line in itertools.takewhile(lambda line: line.startswith("-- "), lines[begins:])]
    words = " ".join(said).removesuffix(".").replace("|", "\\|")
    return words[0].upper() + words[1:]


def row(path, is_inner):
    lines = path.read_text(encoding="utf-8").splitlines()
    names = dict.fromkeys(found[1] for found in map(BEGINS.match, lines) if found)
    where = "inner: " if is_inner else ""
    return f"| {where}`{path.stem}` | {first_words(lines)} | {', '.join(f'`{name}`' for name in names)} |"


def table(crate):
    specs = ROOT / "crates" / crate / "specs"
    rows = [row(path, False) for path in sorted(specs.glob("*.antt")) if path.stem not in NODES]
    rows += [row(path, True) for path in sorted(specs.glob("inner/*.antt"))]
    return f"\n### `{crate}`\n\n| Module | About | Names |\n|---|---|---|\n" + "".join(f"{it}\n" for it in rows)


def faults(page, made):
    """What isn't so of the page."""
    if page.split(BELOW)[1] != made:
        yield "docs/DEFINITIONS.md isn't what scripts/definitions.py makes"
    reading = subprocess.run([sys.executable, ROOT / "scripts/closure.py", "--reading"], capture_output=True, text=True, check=True).stdout
    for line in reading.splitlines():
        if line not in page.split("\n"):
            yield f"the reading list has no row {line}"


def main():
    page = PAGE.read_text(encoding="utf-8")
    made = f"\n{ABOUT}" + "".join(map(table, crates()))
    if "--check" not in sys.argv[1:]:
        PAGE.write_text(page.split(BELOW)[0] + BELOW + made, encoding="utf-8")
        return 0
    told = list(faults(page, made))
    print("\n".join(told), end="\n" if told else "")
    return 1 if told else 0


if __name__ == "__main__":
    sys.exit(main())
