#!/usr/bin/env python3
"""Writes what the programs `cases` and `vault` are run on, and what they must print; with --check compares.

It is a second implementation, from the rules alone, and reads nothing that the programs printed. Which runs of `vault` the cases are
besides is in no file: trials/tries_cases.py makes them of the same parts.
"""

import sys
from pathlib import Path

sys.dont_write_bytecode = True

import check_cases
import command_cases
import damage_cases
import event_cases
import feed_cases
import folder_cases
import forget_cases
import job_cases
import kernel_cases
import known
import line_cases
import part_cases
import piece_cases
import played_cases
import prune_cases
import upgrade_cases
import vault_frames
import word_cases
import world_cases
from script import Script

CRATES = Path(__file__).resolve().parents[2] / "crates"
PARTS = [command_cases.locks, command_cases.refresh, command_cases.unlock, command_cases.lists, job_cases.restores,
         job_cases.backups, *word_cases.ALL, *world_cases.ALL, *damage_cases.ALL, *folder_cases.ALL, *forget_cases.ALL,
         *prune_cases.ALL, *check_cases.ALL, *upgrade_cases.ALL, *piece_cases.ALL, *played_cases.ALL, *line_cases.ALL, *feed_cases.ALL,
         *part_cases.ALL, *event_cases.ALL, *kernel_cases.ALL]


def files():
    """The files, and what each holds."""
    script = Script()
    for part in PARTS:
        part(script)
    script.ends()
    asked, said = vault_frames.stream()
    return {CRATES / "cases/stdin": "".join(line + "\n" for line in script.given),
            CRATES / "cases/stdout": "".join(line + "\n" for line in script.wanted),
            CRATES / "vault/stdin": asked, CRATES / "vault/stdout": said}


def main():
    known.check()
    differ = 0
    for path, text in files().items():
        if "--check" not in sys.argv[1:]:
            path.write_bytes(text.encode())
        elif path.read_bytes() != text.encode():
            print(f"{path.relative_to(CRATES.parent)} isn't what is written")
            differ = 1
    sys.exit(differ)


if __name__ == "__main__":
    main()
