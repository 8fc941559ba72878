#!/usr/bin/env python3
"""Tries scripts/recover.py on stores that are laid out here by docs/FORMATS.md, whole and damaged, without vault.

Usage: scripts/recover-test.py

Objects that a hostile client may put are laid out, too: each may cost nothing but itself. The page's own example is laid out too: its names have to come out, and each of its lines has to print what the page says.
examples/recover.sh does the same with a store that vault made.
"""
import json
import os
import shutil
import struct
import subprocess
import sys
import tempfile
from hashlib import sha256
from pathlib import Path

ROOT = Path(__file__).resolve().parents[1]
PAGE = (ROOT / "docs/FORMATS.md").read_text()


def name_of(data):
    return sha256(data).hexdigest()


def text_of(value):
    return json.dumps(value, sort_keys=True, separators=(",", ":"), ensure_ascii=False).encode()


class Store:
    """A store's folder. Blobs wait until they are packed, packs until they are listed."""

    def __init__(self, folder):
        self.folder, self.known, self.waiting, self.packs = folder, {}, [], []
        for below in ("data", "index", "snapshots", "tmp"):
            (folder / below).mkdir(parents=True)

    def keep(self, below, data):
        path = self.folder / below / name_of(data)
        path.parent.mkdir(exist_ok=True)
        path.write_bytes(data)
        return path

    def blob(self, kind, data):
        if (kind, name_of(data)) not in self.known:
            self.known[kind, name_of(data)] = data
            self.waiting.append((kind, data))
        return name_of(data)

    def pack(self):
        """Packs the blobs that wait."""
        blobs = b"".join(data for _, data in self.waiting)
        header = b"".join(struct.pack("<BI", kind == "tree", len(data)) + bytes.fromhex(name_of(data)) for kind, data in self.waiting)
        whole, offset, listed = blobs + header + struct.pack("<I", len(header)), 0, []
        for kind, data in self.waiting:
            listed.append({"id": name_of(data), "length": len(data), "offset": offset, "type": kind})
            offset += len(data)
        self.waiting = []
        self.packs.append({"blobs": listed, "id": name_of(whole)})
        return self.keep(f"data/{name_of(whole)[:2]}", whole)

    def index(self):
        """Lists the packs that wait."""
        packs, self.packs = self.packs, []
        return self.keep("index", text_of({"packs": packs, "supersedes": []}))

    def directory(self, entries, size=1000):
        """The tree of a directory: of each name the bytes of a file, or the entries of a directory."""
        nodes = []
        for name, what in sorted(entries.items(), key=lambda entry: entry[0].encode()):
            if isinstance(what, dict):
                nodes.append({"name": name, "subtree": self.directory(what), "type": "dir"})
            else:
                content = [self.blob("data", what[at:at + size]) for at in range(0, len(what), size)]
                nodes.append({"content": content, "name": name, "size": len(what), "type": "file"})
        return self.blob("tree", text_of({"nodes": nodes}))

    def snapshot(self, tree, version=1):
        text = text_of({"host": "laptop", "time": 1793923200, "token": 1, "tree": tree, "version": version})
        return self.keep("snapshots", text).name


def found(folder):
    """What a folder holds, as the entries of a directory."""
    return {path.name: found(path) if path.is_dir() else path.read_bytes() for path in folder.iterdir()}


def without(entries, *paths):
    """The entries without these paths."""
    names = {name: what for name, what in entries.items() if name not in paths}
    return {name: without(what, *(path.removeprefix(name + "/") for path in paths if path.startswith(name + "/")))
            if isinstance(what, dict) else what for name, what in names.items()}


def count(entries):
    return sum(1 + (count(what) if isinstance(what, dict) else 0) for what in entries.values())


class Trial:
    """A store of a folder, in three packs and two indexes, that may be damaged."""

    tried = 0
    entries = {
        "empty": {}, "nothing": b"", "ä, ö, 海": b"abc", 'quoted " and \\ and\nmore': b"abc", ".hidden": b"x" * 999,
        "large": b"".join(sha256(b"%d" % at).digest() for at in range(400)),
        "deep": {"deeper": {"deepest": {"same": b"abc", "own": b"of its own"}}, "two": b"a" * 1000 + b"b" * 1000}}

    def __init__(self, work):
        self.work = work
        shutil.rmtree(work / "store", ignore_errors=True)
        self.store = Store(work / "store")
        self.store.directory(self.entries["deep"])
        self.deep = self.store.pack()
        self.first = self.store.index()
        self.store.directory({"large": self.entries["large"]})
        self.large = self.store.pack()
        tree = self.store.directory(self.entries)
        self.rest = self.store.pack()
        self.second = self.store.index()
        self.name = self.store.snapshot(tree)
        (self.work / "store/tmp/left.vault-part").write_bytes(b"left")
        (self.work / "store/index/notes").write_bytes(b"no index")

    def recovers(self, entries, lost=0, told=""):
        """Recovers, and compares with what has to come of it; where `told` is None any text may be told."""
        target = self.work / "target"
        shutil.rmtree(target, ignore_errors=True)
        words = [sys.executable, str(ROOT / "scripts/recover.py"), str(self.work / "store"), self.name, str(target)]
        before = found(self.work / "store")
        ran = subprocess.run(words, capture_output=True, text=True)
        assert (ran.stdout, ran.returncode) == (f"recovered {count(entries)} lost {lost}\n", int(lost > 0)), ran
        assert found(target) == entries, found(target)
        assert told is None or (told in ran.stderr and (ran.stderr == "") == (told == "")), ran.stderr
        assert found(self.work / "store") == before
        Trial.tried += 1


def cut(path, count):
    """Takes bytes from a file's end."""
    os.truncate(path, path.stat().st_size - count)


def change(path, at):
    """Changes a byte of a file, at a place or where some bytes begin."""
    data = bytearray(path.read_bytes())
    data[at if isinstance(at, int) else data.index(at)] ^= 1
    path.write_bytes(data)


def copy_deep(trial):
    """One more copy of what is in a directory, in a pack and an index of their own."""
    trial.store.known = {}
    trial.store.directory(trial.entries["deep"])
    trial.store.blob("data", b"and one more")
    trial.copy = trial.store.pack()
    trial.store.index()


def damages(work):
    """A store, whole, and with each sort of damage: what is still recovered, how much is lost, and what is told of it."""
    whole = Trial.entries
    no_large = without(whole, "large")
    no_deep = {**without(whole, "ä, ö, 海", 'quoted " and \\ and\nmore'), "deep": {}}
    for damage, entries, lost, told in (
            (lambda trial: None, whole, 0, ""),
            (lambda trial: trial.first.unlink(), whole, 0, ""),
            (lambda trial: trial.second.unlink(), whole, 0, ""),
            (lambda trial: change(trial.first, 30), whole, 0, "bytes of another name"),
            (lambda trial: cut(trial.second, 1), whole, 0, "bytes of another name"),
            (lambda trial: cut(trial.large, 40), whole, 0, "bad "),
            (lambda trial: cut(trial.large, trial.large.stat().st_size), no_large, 1, "missing data"),
            (lambda trial: trial.large.unlink(), no_large, 1, "missing data"),
            (lambda trial: change(trial.large, 5_000), no_large, 1, "missing data"),
            (lambda trial: trial.deep.unlink(), no_deep, 3, "missing tree"),
            (lambda trial: change(trial.deep, b"of its own"), without(whole, "deep/deeper/deepest/own"), 1, "missing data"),
            (lambda trial: change(trial.deep, b'own"'), without(whole, "deep/deeper/deepest/own", "deep/deeper/deepest/same"), 1, "missing tree"),
            (lambda trial: (copy_deep(trial), trial.deep.unlink()), whole, 0, None),
            (lambda trial: (copy_deep(trial), trial.copy.unlink()), whole, 0, None),
            (lambda trial: (copy_deep(trial), change(trial.deep, b"of its own")), whole, 0, None),
            (lambda trial: (copy_deep(trial), change(trial.copy, b"of its own")), whole, 0, None),
            (lambda trial: change(work / "store/snapshots" / trial.name, 3), {}, 1, "bytes of another name"),
            (lambda trial: (work / "store/snapshots" / trial.name).unlink(), {}, 1, "No such file")):
        trial = Trial(work)
        damage(trial)
        trial.recovers(entries, lost, told)


def lies(work):
    """Trees that no backup writes: nothing is written outside the target."""
    for name in ("..", ".", "", "a/b", "/a", "a\0", "a" * 256, "é" * 128):
        trial = Trial(work)
        trial.name = trial.store.snapshot(trial.store.directory({name: b"abc", "b": b"abc"}))
        trial.store.pack()
        trial.recovers({"b": b"abc"}, 1, "no name of an entry")
    trial = Trial(work)
    text = text_of({"nodes": [{"content": [name_of(b"abc")], "name": "x", "size": 4, "type": "file"}]})
    trial.name = trial.store.snapshot(trial.store.blob("tree", text))
    trial.store.pack()
    trial.recovers({}, 1, "another size")
    trial.name = trial.store.snapshot(trial.store.directory({"b": b"abc"}), version=3)
    trial.recovers({}, 1, "another version")
    deep = {}
    for _ in range(100):
        deep = {"d": deep}
    trial.name = trial.store.snapshot(trial.store.directory(deep))
    trial.store.pack()
    trial.recovers(deep)
    trial.name = trial.store.snapshot(trial.store.directory({"d": deep}))
    trial.store.pack()
    trial.recovers(deep, 1, "too deep")


def hostile(work):
    """Objects that no backup writes, as indexes, as trees and as a snapshot: each costs nothing but itself."""
    own = {"id": name_of(b"abc"), "length": 3, "offset": 0, "type": "data"}
    outside, text = work / "x", b"outside"
    outside.write_bytes(text)
    away = {**own, "id": name_of(text), "length": len(text)}
    bodies = [b"[" * 200_000, b"{" * 200_000, b"", b"\xff", b"nul", b"1", b"[]", b"{}", b'"packs"', b"1" * 5_000, b"-1e999999"]
    items = [None, 1, [], "text", {}, {"id": 1}, {"id": "../../../x", "blobs": [away]}, {"id": str(outside), "blobs": [away]}, {"id": "\ud800" * 64}]
    blobs = [None, {}, {**own, "length": 10 ** 18}, {**own, "length": -1}, {**own, "offset": 10 ** 30}, {**own, "offset": -1},
             {**own, "length": 3.0}, {**own, "length": [3]}, {**own, "type": []}, {**own, "id": {}}]
    trial = Trial(work)
    rest = trial.rest.name
    for body in bodies + [json.dumps({"packs": packs}).encode() for packs in (None, 1, {"a": 1}, *([item] for item in items))]:
        trial.store.keep("index", body)
    for what in blobs:
        trial.store.keep("index", json.dumps({"packs": [{"blobs": [what], "id": rest}]}).encode())
    trial.recovers(trial.entries, 0, None)
    node = {"content": [name_of(text)], "name": "led outside", "size": len(text), "type": "file"}
    trial.name = trial.store.snapshot(trial.store.blob("tree", text_of({"nodes": [node]})))
    trial.store.pack()
    trial.recovers({}, 1, "missing data")

    for body in bodies:
        trial = Trial(work)
        trial.name = trial.store.keep("snapshots", body).name
        trial.recovers({}, 1, None)
    good = {"content": [], "name": "z", "size": 0, "type": "file"}
    for tree in (*bodies, b'{"nodes":{}}', b'{"nodes":"abc"}', b'{"nodes":null}'):
        trial = Trial(work)
        trial.name = trial.store.snapshot(trial.store.blob("tree", tree))
        trial.store.pack()
        trial.recovers({}, 1, None)
    for node in (None, 1, "text", [], {}, {"name": 1}, {"name": None}, {"name": ["a"]}, {**good, "name": "\ud800"}, {**good, "name": "a", "size": "0"},
                 {**good, "name": "a", "content": [[]]}, {**good, "name": "a", "content": 5}, {"name": "a", "type": "file"}):
        trial = Trial(work)
        trial.name = trial.store.snapshot(trial.store.blob("tree", json.dumps({"nodes": [node, good]}).encode()))
        trial.store.pack()
        trial.recovers({"z": b""}, 1, None)
    trial = Trial(work)
    trial.name = trial.store.snapshot(trial.store.blob("tree", json.dumps({"nodes": [{"name": "a", "subtree": [], "type": "dir"}, good]}).encode()))
    trial.store.pack()
    trial.recovers({"a": {}, "z": b""}, 1, None)


def spoiled(work):
    """Which snapshots are spoiled: a good one beside one that is no JSON, and one whose tree is none."""
    trial = Trial(work)
    bad = [trial.store.keep("snapshots", b"[" * 200_000).name, trial.store.snapshot(trial.store.blob("tree", b"[" * 200_000))]
    trial.store.pack()
    words = [sys.executable, str(ROOT / "scripts/recover.py"), "--spoiled", str(work / "store")]
    ran = subprocess.run(words, capture_output=True, text=True)
    assert (ran.stdout, ran.returncode) == ("".join(name + "\n" for name in sorted(bad)), 1), ran
    Trial.tried += 1


def parts(work):
    """A directory in three trees, by a snapshot of version 2 and by one of version 1; and without its second tree."""
    files = {"a": b"abc", "b": {"below": b"abc"}, "c": b"c"}
    for version, entries in ((1, {"a": b"abc"}), (2, files)):
        trial = Trial(work)
        tree, packs = None, []
        for name in reversed(files):
            alone = json.loads(trial.store.known["tree", trial.store.directory({name: files[name]})])
            tree = trial.store.blob("tree", text_of(alone if tree is None else alone | {"next": tree}))
            packs.append(trial.store.pack())
        trial.store.index()
        trial.name = trial.store.snapshot(tree, version)
        trial.recovers(entries)
        packs[1].unlink()
        trial.recovers({"a": b"abc"}, version - 1, "missing")


def refusals(work):
    """Wrong words, and a target that isn't empty."""
    target = work / "taken"
    target.mkdir()
    (target / ".mine").write_bytes(b"mine")
    for words in ([], ["store"], [str(work / "store"), "0" * 64, str(target)]):
        ran = subprocess.run([sys.executable, str(ROOT / "scripts/recover.py"), *words], capture_output=True, text=True)
        assert ran.returncode == 2 and ran.stdout == "" and "Usage" in ran.stderr, ran
        Trial.tried += 1
    assert found(target) == {".mine": b"mine"}


def page(work):
    """The page's example: the store that it shows, its lines, and what they print."""
    store = Store(work / "shown")
    tree = store.directory({"d": {}, "x": b"abc"})
    store.pack()
    store.index()
    store.snapshot(tree)
    part = PAGE[PAGE.index("## A file by hand"):PAGE.index("## Frames")]
    shown = "".join(block for block in part.split("```\n")[1::2])
    lines = [line.removeprefix("$ ") for line in shown.splitlines() if line.startswith("$ ")]
    wanted = "".join(line + "\n" for line in shown.splitlines() if not line.startswith("$ "))
    ran = subprocess.run(["bash", "-c", "\n".join(lines)], cwd=store.folder, capture_output=True, text=True)
    assert ran.stdout.replace("\n", "") == wanted.replace("\n", "") and ran.stderr == "", (ran.stdout, wanted, ran.stderr)
    return len(lines)


def main():
    with tempfile.TemporaryDirectory() as room:
        work = Path(room)
        damages(work)
        lies(work)
        hostile(work)
        spoiled(work)
        parts(work)
        refusals(work)
        lines = page(work)
    print(f"{Trial.tried} recoveries and {lines} lines of the page as wanted")


if __name__ == "__main__":
    main()
