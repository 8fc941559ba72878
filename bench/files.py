#!/usr/bin/env python3
"""Makes the files that bench/backup.sh backs up, and edits them. The same words give the same bytes.

Usage: files.py make KIND FOLDER SIZE [SEED], with a KIND of
  large   one file of SIZE MiB of random bytes
  small   SIZE files of 2 KiB of random bytes, in folders of 1,000
  mixed   files of 1 byte to 4 MiB, half of them text and half random bytes, in folders of folders, until they have SIZE MiB
or: files.py edit FOLDER. It writes other bytes over one file in ten; of a single file, over a tenth of it.
"""
import random
import sys
from pathlib import Path

MIB = 1 << 20


def large(folder, size, chance):
    with open(folder / "file", "wb") as file:
        for _ in range(size):
            file.write(chance.randbytes(MIB))


def small(folder, size, chance):
    for number in range(size):
        place = folder / f"{number // 1000:03}"
        if number % 1000 == 0:
            place.mkdir()
        (place / f"{number:06}").write_bytes(chance.randbytes(2048))


def text(length, chance):
    words = [chance.randbytes(chance.randint(1, 5)).hex() for _ in range(500)]
    return " ".join(chance.choices(words, k=length // 4 + 1)).encode()[:length]


def mixed(folder, size, chance):
    left, number = size * MIB, 0
    while left > 0:
        length = min(left, int(2 ** chance.uniform(0, 22)))
        place = folder / f"{number % 7}" / f"{number % 11}" / f"{number % 3}"
        place.mkdir(parents=True, exist_ok=True)
        data = text(length, chance) if number % 2 else chance.randbytes(length)
        (place / f"file {number}").write_bytes(data)
        left -= length
        number += 1


def edit(folder, chance):
    files = sorted(path for path in folder.rglob("*") if path.is_file())
    if len(files) > 1:
        for path in files[::10]:
            path.write_bytes(chance.randbytes(path.stat().st_size))
        return
    size = files[0].stat().st_size
    with open(files[0], "r+b") as file:
        file.seek(size // 2)
        file.write(chance.randbytes(size // 10))


words = sys.argv[1:]
if words[0] == "make":
    target = Path(words[2])
    target.mkdir()
    {"large": large, "small": small, "mixed": mixed}[words[1]](target, int(words[3]), random.Random(" ".join([words[1], *words[4:]])))
else:
    edit(Path(words[1]), random.Random("edit"))
