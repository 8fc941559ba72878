#!/usr/bin/env python3
"""Recovers a snapshot from the folder of a store, without vault, by docs/FORMATS.md alone.

Usage: scripts/recover.py STORE-FOLDER SNAPSHOT TARGET
or: scripts/recover.py --spoiled STORE-FOLDER

SNAPSHOT is the name of a file under snapshots/. TARGET is made where it isn't there, and has to be empty. Nothing in the store is
changed. The snapshot, each index and each blob is taken only where its bytes have its name (SHA-256). A blob is looked for in
each place that an index, or a pack's own entries, tell of. What is missing or bad is told on standard error, and the rest is
recovered: a file that can't be had whole is left out. At the end it prints how many directories and files are recovered, and
how many losses there are. Where it is stopped before, begin anew. Exit status: 0 no loss; 1 some; 2 the words are wrong, or
TARGET isn't empty.

With --spoiled it recovers nothing, and prints the names of the snapshots of which something is missing or bad, one a line,
ascending. Each blob that snapshots need is read once. Exit status: 0 there is none; 1 there are some; 2 the words are
wrong, or the folder has no `snapshots`.
"""
import functools
import json
import re
import struct
import sys
from hashlib import sha256
from pathlib import Path

NAME = "[0-9a-f]" * 64
# Anybody who may put an object may put any bytes. So whatever goes wrong with one object costs that object alone.
FAULTS = Exception
# The greatest blob, and the greatest place of one in a pack.
BLOB_LIMIT, PLACE_LIMIT = 8_388_608, 25_165_823


@functools.cache
def tell(text):
    """Each text once."""
    print(text, file=sys.stderr)


def checked(data, name):
    if sha256(data).hexdigest() != name:
        raise ValueError(f"bytes of another name than {name}")
    return data


def part(path, offset, length):
    with open(path, "rb") as file:
        file.seek(offset)
        return file.read(length)


def checked_name(text):
    """The text, if it is the name of an object."""
    if not re.fullmatch("[0-9a-f]{64}", text):
        raise ValueError("no name of an object")
    return text


def checked_place(pack, offset, length):
    """The place, if a blob can have it."""
    if not (0 < length <= BLOB_LIMIT and 0 <= offset <= PLACE_LIMIT - length):
        raise ValueError("no place of a blob")
    return pack, offset, length


def listed(index):
    """What an index lists: of each blob its type and name, and its place: pack, offset, length."""
    for pack in json.loads(checked(index.read_bytes(), index.name))["packs"]:
        name = checked_name(pack["id"])
        path = index.parents[1] / "data" / name[:2] / name
        if path.is_file():
            yield from (((blob["type"], blob["id"]), checked_place(path, blob["offset"], blob["length"])) for blob in pack["blobs"])
        else:
            tell(f"missing {path}")


def entered(pack):
    """The same by a pack's own entries."""
    end, offset = pack.stat().st_size - 4, 0
    size, = struct.unpack("<I", part(pack, end, 4))
    for kind, length, name in struct.iter_unpack("<BI32s", part(pack, end - size, size)):
        yield (("data", "tree")[kind], name.hex()), (pack, offset, length)
        offset += length


def places_in(store):
    """Of each blob, by type and name, the places where it lies, each once, those of indexes first."""
    places = {}
    for told_by, paths in ((listed, store.glob("index/" + NAME)), (entered, store.glob("data/??/" + NAME))):
        for path in sorted(paths):
            try:
                for blob, place in told_by(path):
                    places.setdefault(blob, {})[place] = None
            except FAULTS as error:
                tell(f"bad {path}: {error}")
    return places


def blob(places, kind, name):
    for place in places.get((kind, name), ()):
        try:
            return checked(part(*place), name)
        except FAULTS as error:
            tell(f"bad {place[0]}: {error}")
    raise ValueError(f"missing {kind} {name}")


def write_file(places, node, path):
    with open(path, "xb") as file:
        try:
            for name in node["content"]:
                file.write(blob(places, "data", name))
            if file.tell() != node["size"]:
                raise ValueError("another size")
        except FAULTS:
            path.unlink()
            raise


def nodes_of(places, tree, follows):
    """The nodes of a directory, tree by tree where it goes on in further ones."""
    while tree is not None:
        text = json.loads(blob(places, "tree", tree))
        if not isinstance(text["nodes"], list):
            raise ValueError("no list of nodes")
        yield from text["nodes"]
        tree = text.get("next") if follows else None


def check_name(name, depth):
    if depth == 100 or not 1 <= len(name.encode()) <= 255 or name in (".", "..") or set("/\0") & set(name):
        raise ValueError("no name of an entry, or too deep")


def recovered(places, tree, target, follows, depth=0):
    """Recovers what a directory lists; gives of each entry None, or what is lost."""
    for node in nodes_of(places, tree, follows):
        path = target
        try:
            path = target / node["name"]
            check_name(node["name"], depth)
            path.mkdir() if node["type"] == "dir" else write_file(places, node, path)
            yield None
            if node["type"] == "dir":
                yield from recovered(places, node["subtree"], path, follows, depth + 1)
        except FAULTS as error:
            yield f"{path}: {error}"


class Look:
    """What was found whole already: the lengths of pieces of files, and directories with all below them."""

    def __init__(self, store):
        self.store, self.places, self.whole = store, places_in(store), set()
        self.length = functools.cache(lambda name: len(blob(self.places, "data", name)))

    def look(self, tree, follows, depth=0):
        """An error where something below a directory is missing or bad."""
        if (tree, follows, depth) in self.whole:
            return
        for node in nodes_of(self.places, tree, follows):
            check_name(node["name"], depth)
            if node["type"] == "dir":
                self.look(node["subtree"], follows, depth + 1)
            elif sum(map(self.length, node["content"])) != node["size"]:
                raise ValueError("another size")
        self.whole.add((tree, follows, depth))

    def is_whole(self, name):
        try:
            snapshot = read_snapshot(self.store, name)
            self.look(snapshot["tree"], snapshot["version"] == 2)
            return True
        except FAULTS as error:
            tell(f"snapshot {name}: {error}")
            return False


def print_spoiled(store):
    look = Look(store)
    spoiled = [it.name for it in sorted(store.glob("snapshots/" + NAME)) if not look.is_whole(it.name)]
    print("".join(name + "\n" for name in spoiled), end="")
    return 1 if spoiled else 0


def read_snapshot(store, name):
    snapshot = json.loads(checked((store / "snapshots" / name).read_bytes(), name))
    if snapshot["version"] not in (1, 2):
        raise ValueError("another version")
    return snapshot


def main():
    words = sys.argv[1:]
    is_look = words[:1] == ["--spoiled"]
    if is_look and len(words) == 2 and Path(words[1], "snapshots").is_dir():
        return print_spoiled(Path(words[1]))
    if is_look or len(words) != 3 or any(Path(words[2]).glob("*")):
        tell(__doc__)
        return 2
    store, name, target = Path(words[0]), words[1], Path(words[2])
    done = lost = 0
    try:
        target.mkdir(parents=True, exist_ok=True)
        snapshot = read_snapshot(store, name)
        for loss in recovered(places_in(store), snapshot["tree"], target, snapshot["version"] == 2):
            if loss:
                tell(f"lost {loss}")
                lost += 1
            else:
                done += 1
    except FAULTS as error:
        tell(f"lost {target}: {error}")
        lost += 1
    print(f"recovered {done} lost {lost}")
    return 1 if lost else 0


if __name__ == "__main__":
    sys.exit(main())
