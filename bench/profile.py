#!/usr/bin/env python3
"""Tells where the processor's time goes in each step of a backup, by samples of perf.

Usage: bench/profile.py VAULT [MIB [FILES [MIXED]]], with the folders of bench/backup.sh: one file of 512 MiB, 20,000 files of 2 KiB, a
tree of 256 MiB without the words. --symbols names the symbols of each step that are in no group, the dearest first.

A row has a step, and the percentage of all samples of client and server together that fell into each group of symbols. It takes
Debian's `linux-perf`, and leave to look into the kernel. The port is 7085, or PORT. Nothing is kept.
"""
import os
import re
import subprocess
import sys
import tempfile
from collections import Counter
from pathlib import Path

HERE = Path(__file__).resolve().parent
ADDRESS = f"127.0.0.1:{os.environ.get('PORT', 7085)}"
STEPS = ("backup", "again", "edited", "restore", "check", "forget and prune")
# Of each group which symbols are in it; a symbol is in the first that takes it.
GROUPS = (
    ("SHA-256, one stream", r"repo_sha::(streams|rounds|schedules|messages)"),
    ("SHA-256, side by side", r"repo_sha::"),
    ("cutting", r"repo_chunk::"),
    ("copies", r"__mem(move|cpy|set|cmp)"),
    ("kernel: copies", r"\[k\] .*(rep_movs|copy_|_copy)"),
    ("kernel: memory", r"\[k\] .*(page|fault|memcg|charge|lru|zap|mmap|vma|vm_)"),
    ("kernel: files and the rest", r"\[k\]"),
)
LINE = re.compile(r"\s*[\d.]+%\s+(\d+)\s+(\[[.k]\]\s+.*\S)")


def sampled(data, *words):
    return subprocess.Popen(["perf", "record", "-q", "-e", "cpu-clock", "-F", "1999", "-o", data, "--", *map(str, words)], stdout=subprocess.PIPE, text=True)


def samples(data):
    """How many samples fell on each symbol."""
    report = ["perf", "report", "-i", data, "--stdio", "-n", "--no-children", "-g", "none", "--sort", "sym"]
    printed = subprocess.run(report, check=True, capture_output=True, text=True).stdout
    return Counter({found[2]: int(found[1]) for found in map(LINE.match, printed.splitlines()) if found})


def group_of(symbol):
    return next((name for name, symbols in GROUPS if re.search(symbols, symbol)), "else")


class Profiled:
    """A store, and what its steps took: how many samples on each symbol."""

    def __init__(self, vault, top, folder):
        self.vault, self.top, self.folder = vault, top, folder
        subprocess.run([vault, "init", top / "store"], check=True, stdout=subprocess.DEVNULL)

    def runs(self, *commands):
        """Runs commands against a server."""
        server = sampled(self.top / "server.data", self.vault, "serve", self.top / "store", ADDRESS, "--connections", len(commands))
        server.stdout.readline()
        found = Counter()
        for words in commands:
            client = sampled(self.top / "client.data", self.vault, *words)
            printed = client.stdout.read()
            if client.wait():
                sys.exit(f"{words[0]} failed: {printed}")
            found += samples(self.top / "client.data")
            if printed.startswith("stored"):
                self.snapshot = printed.split()[1]
        server.wait()
        return found + samples(self.top / "server.data")

    def step(self, name):
        if name in ("backup", "again", "edited"):
            if name == "edited":
                subprocess.run([HERE / "files.py", "edit", self.folder], check=True)
            return self.runs(("backup", ADDRESS, "host", self.folder))
        if name == "restore":
            return self.runs(("restore", ADDRESS, self.snapshot, self.top / "again"))
        if name == "check":
            return self.runs(("check", ADDRESS))
        return self.runs(("forget", ADDRESS, "--keep-last", 1), ("prune", ADDRESS))


def row(step, found, with_symbols):
    total, by_group = found.total(), Counter()
    for symbol, count in found.items():
        by_group[group_of(symbol)] += count
    shares = [f"{100 * by_group[name] / total:.0f}" for name, _ in (*GROUPS, ("else", None))]
    print("| " + " | ".join([step, *shares]) + " |", flush=True)
    if with_symbols:
        for symbol, count in found.most_common(40):
            if group_of(symbol) == "else":
                print(f"  {100 * count / total:5.1f} {symbol}")


def main(arguments):
    with_symbols = "--symbols" in arguments
    vault, *sizes = (word for word in arguments if word != "--symbols")
    sizes += ("512", "20000", "256")[len(sizes):]
    print("| " + " | ".join(["Step", *(name for name, _ in GROUPS), "else"]) + " |")
    print("|---" * (len(GROUPS) + 2) + "|")
    for kind, size in zip(("large", "small", "mixed"), sizes):
        with tempfile.TemporaryDirectory() as top:
            folder = Path(top) / kind
            subprocess.run([HERE / "files.py", "make", kind, folder, size], check=True)
            profiled = Profiled(Path(vault).resolve(), Path(top), folder)
            for name in STEPS:
                row(f"{kind}: {name}", profiled.step(name), with_symbols)


main(sys.argv[1:])
