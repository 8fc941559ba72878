#!/usr/bin/env python3
"""Tells which crates aren't laid out as `rt fmt` does it: the gate proves none of these, and none above them.

Usage: scripts/layout.py [--mend]

It looks at all sources, definitions and proofs, which takes a quarter of a minute; with --mend it lays them out. The last line is
'N passed, M failed', of crates.
"""
import argparse
import os
import sys
import tempfile

sys.dont_write_bytecode = True

import kit  # noqa: E402

ROOT = os.path.dirname(os.path.dirname(os.path.abspath(__file__)))


def main():
    parser = argparse.ArgumentParser(description=__doc__.split("\n")[0])
    parser.add_argument("--mend", action="store_true", help="lay them out")
    given = parser.parse_args()
    rtlib = kit.load().rtlib
    crates = rtlib.crates_below(ROOT)
    with tempfile.TemporaryFile("w+", errors="replace") as told:
        failed = [crate.name for crate in crates if rtlib.fmt(crate.folder, "--check", told)]
        if given.mend:
            failed = [crate.name for crate in crates if crate.name in failed and rtlib.fmt(crate.folder, "--write", told)]
    for name in failed:
        print(f"{name} isn't laid out: run rt fmt in its folder, or scripts/layout.py --mend")
    print(f"{len(crates) - len(failed)} passed, {len(failed)} failed")
    return 1 if failed else 0


if __name__ == "__main__":
    sys.exit(main())
