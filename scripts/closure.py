#!/usr/bin/env python3
"""Prints what a law stands on: each definition of this repository that its statement names, straight or through others.

Usage: scripts/closure.py [--text | --reading] [CRATE.Module.word ..]

Without words: the headline, repo_world.Laws.EveryRunIsSafe. It prints the modules, of each how many lines of definitions
are needed and how many it has, and the sum. With --text it prints the definitions themselves, each after those that it
stands on, as a text to be read from the beginning to the end. With --reading it prints them as the table of docs/DEFINITIONS.md:
what they are about, in the order in which it is read, and of each module the lines that are needed.

It reads the files by their form: a definition begins with `pub`, `abbrev`, `record` or `data` at the edge of its line, and
goes on to the next one; a name means what the file imports it as. Types of the code (`declared`) are not among them.
"""

import re
import sys
from pathlib import Path

ROOT = Path(__file__).resolve().parents[1]
HEADLINE = "repo_world.Laws.EveryRunIsSafe"
READING = {
    "the law, and the world that it is about": ["repo_world"],
    "the store, and its locks": ["repo_store", "repo_locks"],
    "clients, what they exchange, what is sound": ["repo_session"],
    "what backups make, put and list": ["repo_backup", "repo_writing"],
    "other jobs' words": ["repo_restore", "repo_prune", "repo_reach", "repo_check"],
    "trees, snapshots, the config": ["repo_tree"],
    "packs, indexes, chunks, names, JSON, frames": ["repo_pack", "repo_index", "repo_chunk", "repo_name", "repo_json", "repo_wire"],
}
BEGINS = re.compile(r"^(?:(?:abbrev|unfoldable|opaque|pub)\s+)*(?:(?:record|data)\s+)?([A-Za-z_][\w'-]*)\b")
NAMED = re.compile(r"^(?:pub )?use Rattle\.(\w+)\.specs\.(?:inner\.)?(\w+)\.\{(.*)\}$")
WHOLE = re.compile(r"^(?:pub )?use Rattle\.(\w+)\.specs\.(?:inner\.)?(\w+) as (\w+)$")
WORD = re.compile(r"[A-Za-z_][\w'-]*(?:\.[A-Za-z_][\w'-]*)?")


class Module:
    """A file of definitions: what each name that it imports means, and the lines of each of its own."""

    def __init__(self, crate, path):
        self.key, self.imports, self.files, self.own = (crate, path.stem), {}, {}, {}
        comment, current = [], None
        for line in path.read_text().splitlines():
            if line.startswith(("use ", "pub use ")):
                self.take_import(line)
            elif line.startswith("--"):
                comment.append(line)
            elif line and not line[0].isspace():
                found = BEGINS.match(line)
                name = found.group(1) if found else None
                if found and name not in self.own:
                    current = self.own.setdefault(name, comment)
                current.append(line)
                comment = []
            elif line and current is not None:
                current.append(line)
        self.lines = sum(len(lines) for lines in self.own.values())

    def take_import(self, line):
        if found := NAMED.match(line):
            for word in found.group(3).split(","):
                name, _, other = word.strip().partition(" as ")
                self.imports[other or name] = (found.group(1), found.group(2), name)
        elif found := WHOLE.match(line):
            self.files[found.group(3)] = (found.group(1), found.group(2))

    def meaning(self, word):
        """The definition that a word of this file is, if it is one of this repository."""
        first, _, second = word.partition(".")
        if second and first in self.files:
            return (*self.files[first], second)
        if first in self.own:
            return (*self.key, first)
        return self.imports.get(first)


def modules():
    found = {}
    for path in sorted(ROOT.glob("crates/*/specs/**/*.antt")):
        crate = path.relative_to(ROOT / "crates").parts[0]
        found[crate, path.stem] = Module(crate, path)
    return found


def closure(all_modules, start):
    """What a definition stands on, and it itself, each after those that it stands on."""
    done, order = set(), []

    def take(definition):
        crate, module, name = definition
        lines = all_modules[crate, module].own.get(name) if (crate, module) in all_modules else None
        if definition in done or lines is None:
            return
        done.add(definition)
        for line in lines:
            for word in WORD.findall("" if line.startswith("--") else line):
                if found := all_modules[crate, module].meaning(word):
                    take(found)
        order.append(definition)

    take(start)
    return order


def print_reading(needed):
    """The table: of each row what it is about, its modules with their lines, and the sum."""
    print("| Read | Modules, with the lines that are needed | Lines |\n|---|---|---|")
    for about, crates in READING.items():
        of_crates = []
        for crate in crates:
            modules_of = [f"{module} ({lines})" for (of, module), lines in needed.items() if of == crate]
            if modules_of:
                of_crates.append(f"`{crate}`: {', '.join(modules_of)}")
        whole = sum(lines for (crate, _), lines in needed.items() if crate in crates)
        if whole:
            print(f"| {about} | {'; '.join(of_crates)} | {whole} |")


def main():
    sys.setrecursionlimit(10_000)
    words = [word for word in sys.argv[1:] if not word.startswith("--")] or [HEADLINE]
    all_modules = modules()
    order = []
    for word in words:
        crate, module, name = word.split(".")
        if name not in getattr(all_modules.get((crate, module)), "own", {}):
            sys.exit(f"{word} is no definition")
        order += [one for one in closure(all_modules, (crate, module, name)) if one not in order]
    if "--text" in sys.argv[1:]:
        for crate, module, name in order:
            print(f"-- {crate}: {module}")
            print("\n".join(all_modules[crate, module].own[name]) + "\n")
        return
    needed = {}
    for crate, module, name in order:
        needed[crate, module] = needed.get((crate, module), 0) + len(all_modules[crate, module].own[name])
    if "--reading" in sys.argv[1:]:
        print_reading(needed)
        return
    for (crate, module), lines in needed.items():
        print(f"{lines:5} of {all_modules[crate, module].lines:4}  {crate}: {module}")
    whole = sum(all_modules[key].lines for key in needed)
    print(f"{sum(needed.values()):5} of {whole:4}  lines in {len(needed)} modules, {len(order)} definitions")


if __name__ == "__main__":
    main()
