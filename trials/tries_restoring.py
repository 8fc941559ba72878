"""Restores into real folders: targets that are taken, what stands in the way, what a server says that lies, and what a restore tells."""
import hashlib
import json
import os
import shutil

from connections import Answering, Watched
from program import Server, frame, matches, told
from trying import same, trial
from yards import Yard, entries, filled, in_store, restores, stored

TICKET_, LOCK, UNLOCK, LIST, GET, RANGE, CONFIG = 1, 2, 4, 6, 7, 8, 11


@in_store
def targets_of_restores(yard):
    """It is made with the folders above it; one that isn't empty, or that lies below a file, is left alone and nothing is asked. Where it can't be
    made the restore ends."""
    root = filled(yard.top / "from", {"x": b"abc"})
    (yard.top / "void").mkdir()
    with Server(yard.root, connections=12) as server:
        name = stored(server.address, root)
        for target in ("above/target", "void", "a/b/../c"):
            if ".." in target:
                (yard.top / "a/b").mkdir(parents=True)
            same(told("restore", server.address, name, yard.top / target), "0|complete 1\n|", target)
            same(entries(yard.top / target), {"x": b"abc"})
        with Watched(server.port) as line:
            for target, text in (("from", "target not empty"), ("from/x/target", "stopped"), ("from/x", "stopped")):
                same(told("restore", line.address, name, yard.top / target), f"1||{text}\n", target)
        same(line.count, 0, "requests")
        same(entries(root), {"x": b"abc"})
        same(told("restore", server.address, name, "/proc/target"), "1||stopped\n")
        same(told("locks", server.address), "0||")


@in_store
def a_target_is_made_once_something_is_restored(yard):
    """Not where there is no such snapshot, or where nothing of it comes; one that was there stays. Of an empty folder's snapshot it is made."""
    root, void, target = filled(yard.top / "from", {"x": b"abc"}), yard.top / "void", yard.top / "above/target"
    void.mkdir()
    with Server(yard.root, connections=9) as server:
        name = stored(server.address, root)
        for folder in (void, target):
            same(told("restore", server.address, "0" * 64, folder), f"1||missing snapshot\nsnapshot {'0' * 64}\n", folder)
        with Watched(server.port, lambda at, _: at < 3) as line:
            same(told("restore", line.address, name, target), "1||read failed\n")
        same(sorted(os.listdir(yard.top)), ["from", "root", "void"])
        same(told("restore", server.address, name, void), "0|complete 1\n|")
        (root / "x").unlink()
        restores(server.address, stored(server.address, root), target, {})
        same(target.is_dir(), True)


@in_store
def a_target_of_a_hidden_file_is_not_empty(yard):
    root, target = filled(yard.top / "from", {"x": b"abc"}), filled(yard.top / "to", {".hidden": b"mine"})
    with Server(yard.root, connections=2) as server:
        name = stored(server.address, root)
        same(told("restore", server.address, name, target), "1||target not empty\n")
    same(entries(target), {".hidden": b"mine"})


def meets(yard, tag, files, meddles):
    """A restore of these files; when its first request with this tag is passed on, something comes into the target: what it tells."""
    root, target, met = filled(yard.top / "from", files), yard.top / "to", []

    def before(_, request):
        if request[4] == tag and not met:
            met.append(tag)
            target.mkdir(exist_ok=True)
            meddles(target)
        return True
    with Server(yard.root, connections=3) as server:
        name = stored(server.address, root)
        with Watched(server.port, before) as line:
            got = told("restore", line.address, name, target), entries(target)
        same(told("locks", server.address), "0||", "the locks after a restore")
        return got


@in_store
def a_file_in_the_way_of_a_folder_stops_a_restore(yard):
    """What was written stays, and what is in the way is left alone."""
    got, there = meets(yard, RANGE, {"a": b"abc", "b/": b""}, lambda target: (target / "b").write_text("mine"))
    same(got, "1||stopped\n")
    same(there, {"a": b"abc", "b": b"mine"})


@in_store
def a_file_in_the_way_of_a_file_is_not_replaced(yard):
    got, there = meets(yard, RANGE, {"a": b"abc", "b": b"def"}, lambda target: (target / "b").write_text("mine"))
    same(got, "1||stopped\n")
    same(there, {"a": b"abc", "b": b"mine"})


@in_store
def a_link_in_the_way_is_not_followed(yard):
    """Neither is one at the place of a file, nor one at that of a folder."""
    outside = filled(yard.top / "outside", {"./": b""})
    for name, files in (("a", {"a": b"abc"}), ("d", {"d/x": b"abc"})):
        shutil.rmtree(yard.top / "from", ignore_errors=True)
        shutil.rmtree(yard.top / "to", ignore_errors=True)
        got, there = meets(yard, RANGE, files, lambda target, name=name: (target / name).symlink_to("../outside"))
        same(got, "1||stopped\n")
        same(there[name], ("link", "../outside"))
        same(entries(outside), {})


@in_store
def names_of_files_that_are_being_written_may_be_those_of_entries(yard):
    files = {"!": b"!", "!restoring-0": b"0", "!restoring-1": b"1", "a": b"a", "b": b"b", "d/!restoring-0": b"d"}
    with Server(yard.root, connections=2) as server:
        name = stored(server.address, filled(yard.top / "from", files))
        restores(server.address, name, yard.top / "to", entries(yard.top / "from"))


@in_store
def a_restore_that_is_cut_off_leaves_whole_files(yard):
    """Cut off before each of its requests in turn: what stands under an entry's own name is whole, and `read failed` is told."""
    files = {"a": b"abc" * 200, "d/b": b"def" * 100, "c": bytes(range(256)) * 3}
    shutil.rmtree(yard.root)
    told("init", yard.root, "--min", 64, "--max", 128, "--bits", 6, "--target", 1024)
    with Server(yard.root, connections=1000) as server:
        name = stored(server.address, filled(yard.top / "from", files))
        with Watched(server.port) as line:
            restores(line.address, name, yard.top / "to", entries(yard.top / "from"))
        for stop in range(line.count):
            shutil.rmtree(yard.top / "to", ignore_errors=True)
            with Watched(server.port, before=lambda at, _, stop=stop: at != stop) as cut:
                got = told("restore", cut.address, name, yard.top / "to")
            same(got, "1||read failed\n" if stop < line.count - 1 else got, f"cut off before request {stop}")
            for path, data in entries(yard.top / "to").items():
                if not os.path.basename(path).startswith("!restoring-"):
                    same(data, entries(yard.top / "from").get(path, "nothing"), f"{path}, cut off before request {stop}")
        same(line.count > 8, True, "requests of a restore")


# A server that lies.


def name_of(data):
    return hashlib.sha256(data).digest()


def text_of(value):
    return json.dumps(value, sort_keys=True, separators=(",", ":"), ensure_ascii=False).encode()


CONFIG_TEXT = text_of({"chunk_bits": 6, "chunk_max": 128, "chunk_min": 64, "id": "00" * 16, "pack_target": 1024, "version": 1})


def replies_of(tree, content=b"abc"):
    """A server of one snapshot, whose tree is this text, and whose files are these bytes: its answers, and the snapshot's name."""
    snapshot = text_of({"host": "a", "time": 5, "token": 1, "tree": name_of(tree).hex(), "version": 1})
    blobs = [{"id": name_of(tree).hex(), "length": len(tree), "offset": 0, "type": "tree"},
             {"id": name_of(content).hex(), "length": len(content), "offset": len(tree), "type": "data"}]
    index = text_of({"packs": [{"blobs": blobs, "id": "ab" * 32}], "supersedes": []})
    objects, parts = {(2, name_of(snapshot)): snapshot, (1, name_of(index)): index}, {0: tree, len(tree): content}

    def answers(_, request):
        tag, given, sequence = request[4], request[29:], int.from_bytes(request[21:29], "big")
        says = {TICKET_: (129, bytes(7) + b"\1"), LOCK: (130,), UNLOCK: (130,), CONFIG: (132, CONFIG_TEXT)}.get(tag)
        if tag == LIST:
            says = (131, b"\0" + (1).to_bytes(2, "big") + name_of(index))
        if tag == GET:
            says = (132, objects[given[0], given[1:]])
        if tag == RANGE:
            says = (132, parts[int.from_bytes(given[32:36], "big")])
        return frame(says[0], *says[1:], sequence=sequence, instance=request[5:21])
    return answers, name_of(snapshot).hex()


def file_node(name, size=3, content=b"abc"):
    return {"content": [name_of(content).hex()], "name": name, "size": size, "type": "file"}


def bad_tree(tree):
    """What a command prints of a tree that can't be read."""
    return f"1||bad tree\ntree {name_of(text_of(tree)).hex()}\n"


def gets(yard, tree, content=b"abc"):
    """What a restore tells over such a server, and what it leaves."""
    answers, name = replies_of(text_of(tree), content)
    shutil.rmtree(yard.top / "to", ignore_errors=True)
    with Answering(answers) as server:
        return told("restore", server.address, name, yard.top / "to"), entries(yard.top / "to")


@trial
def names_that_lead_elsewhere_are_not_written():
    """A tree with such a name isn't read, and nothing is written, in the target or outside of it."""
    with Yard() as yard:
        same(gets(yard, {"nodes": [file_node("x")]}), ("0|complete 1\n|", {"x": b"abc"}))
        for name in ("..", ".", "", "a/b", "/a", "../a", "a\0b", "a" * 256):
            node = {"name": name, "subtree": name_of(b"").hex(), "type": "dir"}
            for tree in ({"nodes": [file_node(name)]}, {"nodes": [node]}):
                same(gets(yard, tree), (bad_tree(tree), {}), repr(name))
        same(os.listdir(yard.top), [])


@trial
def bytes_of_another_name_are_not_given_out():
    """Where a blob's bytes, an object's, or a file's size are others than was said, the restore ends, and no such file is there."""
    with Yard() as yard:
        tree = {"nodes": [file_node("x")]}
        for content in (b"abd", b"abcd"):
            same(gets(yard, tree, content), (f"1||missing content\ncontent {name_of(b'abc').hex()}\n", {}))
        longer, falling = {"nodes": [file_node("x", size=4)]}, {"nodes": [file_node("y"), file_node("x")]}
        same(gets(yard, longer)[0], bad_tree(longer))
        same(gets(yard, falling), (bad_tree(falling), {}))
        answers, name = replies_of(text_of(tree))
        for tag, says in ((GET, f"1||bad snapshot\nsnapshot {name}\n"), (RANGE, bad_tree(tree))):
            def turned(number, request, tag=tag):
                reply = answers(number, request)
                return reply[:-1] + bytes([reply[-1] ^ 1]) if request[4] == tag else reply
            shutil.rmtree(yard.top / "to", ignore_errors=True)
            with Answering(turned) as server:
                same(told("restore", server.address, name, yard.top / "to"), says)
            same(entries(yard.top / "to"), {})


@in_store
def a_snapshot_that_is_none(yard):
    with Server(yard.root, connections=2) as server:
        same(told("restore", server.address, "0" * 64, yard.top / "to"), f"1||missing snapshot\nsnapshot {'0' * 64}\n")
        same(told("locks", server.address), "0||")
    for name in ("", "0" * 63, "0" * 65, "A" * 64, "g" * 64):
        got = told("restore", "127.0.0.1:1", name, yard.top / "to")
        same((got[:3], matches(got, r"2\|\|.+")), ("2||", ()), name)
