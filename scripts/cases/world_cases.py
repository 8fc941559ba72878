"""Cases of one store and its clients."""

import random

from line_cases import plays
from naming import name_of
from texts import dir_node, file_node, index_text, pack_of, snapshot_text, tree_text

X = [(["x"], b"abc")]
TWO = [(["x"], b"abc"), (["y"], b"de")]
EMPTY = tree_text([])


def stored(script, entries, host="a", time=1, told=False):
    """A backup, and the client that made it."""
    place = script.start_backup(entries, host, time)
    (script.steps if told else script.finish)(place)
    return place


def restored(script, snapshot, told=False):
    place = script.start_restore(snapshot)
    (script.steps if told else script.finish)(place)
    return place


def round_trip(script, heading, entries, told=False, numbers=()):
    script.heading(heading)
    script.fresh(*numbers)
    place = stored(script, entries, told=told)
    restored(script, place, told)
    script.report()


def rows(script):
    """Backups and restores, request by request."""
    round_trip(script, "nothing is backed up and restored", [], True)
    script.heading("its store lists one snapshot")
    script.steps(script.start_list())
    script.heading("a store is made once")
    script.init()
    round_trip(script, "an empty file beside an empty directory", [(["a"], b""), (["b"], None)], True)
    round_trip(script, "a file whose bytes are its sibling's tree text", [(["d"], None), (["f"], EMPTY)], True)
    round_trip(script, "a folder whose names begin alike, walked in order", [
        (["a"], b"1"), (["d"], None), (["d", "e"], None), (["d", "e", "x"], b"2"), (["d", "y"], b"3"), (["d.z"], b"4"),
        (["e"], None), (["e", "e"], None)], True)
    script.heading("equal files of two hosts")
    script.fresh()
    stored(script, X, "a", 1, True)
    place = stored(script, X, "b", 1, True)
    restored(script, place, True)
    script.report()
    script.heading("a restore's lock is removed, and its snapshot and pack are deleted")
    script.fresh()
    place = stored(script, X)
    restore = script.start_restore(place)
    script.until(restore, "range")
    script.unlock_token(2)
    delete_all(script)
    script.steps(restore)
    script.report()
    for word in ("list", "get", "range"):
        script.heading(f"the same before its first {word}")
        script.fresh()
        place = stored(script, X)
        restore = script.start_restore(place)
        script.until(restore, word)
        script.unlock_token(2)
        delete_all(script)
        script.steps(restore)
        script.report()


def delete_all(script):
    """Deletes every object, under an exclusive lock."""
    token = script.store.ledger.next
    deletes = [("delete", token, kind, name) for kind in ("index", "pack", "snapshot")
               for name in sorted(script.store.objects[kind])]
    script.ask(("ticket",), ("lock", token, True, 5, "a"), *deletes, ("unlock", token))


def starts(script):
    """Entries that are refused at a start, which takes no number."""
    lists = [["file b -", "file a -"], ["file d/x -"], ["file .. -"], ["file a -", "file a -"], ["file f -", "file f/x -"], ["file a//x -"],
             ["dir " + "/".join("d" * length) for length in range(1, 102)], []]
    text = "".join("".join(line + "\n" for line in [*lines, "start backup a 5"]) for lines in lists)
    plays(script, "starts that are refused", text + "finish 0\nreport\n")


def deep(script):
    """The deepest directories that there are."""
    nested = [(["d"] * length, None) for length in range(1, 101)]
    round_trip(script, "directories nested 100 deep", nested)
    script.heading("a file below a path of 100 components")
    script.fresh()
    deepest = tree_text([file_node("x", 0, [])])
    trees = [deepest]
    for _ in range(100):
        trees.append(tree_text([dir_node("d", name_of(trees[-1]))]))
    restored(script, laid(script, trees[-1], [("tree", tree) for tree in trees]))
    script.report()


def laid(script, root, blobs):
    """A snapshot of a tree, with a pack of blobs and its index, laid on the shelf: the snapshot's name."""
    pack, facts = pack_of(blobs)
    index, snapshot = index_text([(name_of(pack), facts)]), snapshot_text("a", 5, 1, name_of(root))
    for kind, data in (("pack", pack), ("index", index), ("snapshot", snapshot)):
        script.lay(kind, name_of(data), data)
    return name_of(snapshot)


def fences(script):
    """A client whose lock is removed after each of its requests."""
    for role, count in (("backup", 8), ("restore", 9), ("list", 6)):
        for steps in range(1, count):
            script.heading(f"a {role} whose lock is removed after {steps} requests")
            script.fresh()
            place = stored(script, X)
            client = started(script, role, place)
            for _ in range(steps):
                script.step(client)
            script.unlock_token(2)
            script.steps(client)
            script.late(client)
            script.report()


def started(script, role, stored):
    if role == "backup":
        return script.start_backup(TWO, "b", 7)
    return script.start_restore(stored) if role == "restore" else script.start_list()


def faults(script):
    """The device fails at each request of each client."""
    for role, count in (("backup", 9), ("restore", 9), ("list", 6)):
        for word in ("read", "kept read", "unapplied", "applied"):
            for steps in range(count):
                script.heading(f"a {role} that meets a failure, {word}, at request {steps + 1}")
                script.fresh()
                place = stored(script, X)
                client = started(script, role, place)
                for _ in range(steps):
                    script.step(client)
                script.fault_read(client, word)
                script.steps(client)
                script.report()


def reopened(script):
    """The store is opened again before each request of each client."""
    script.heading("a store that is opened again before each request")
    script.fresh()
    place = None
    for start in (lambda: script.start_backup(X), lambda: script.start_backup(TWO, "b", 7), lambda: script.start_restore(place),
                  script.start_list, lambda: script.start_forget(place), script.start_prune, script.start_check):
        client = start()
        place = client if place is None else place
        while script.seats[client].client.pending:
            script.restart()
            script.step(client)
        script.report()


def locked_out(script):
    """Clients beside an exclusive lock, and beside shared ones."""
    for role in ("backup", "restore", "list"):
        script.heading(f"a {role} beside an exclusive lock")
        script.fresh()
        place = stored(script, X)
        script.ask(("ticket",), ("lock", 2, True, 5, "b"))
        script.steps(started(script, role, place))
        script.ask(("unlock", 2))
        script.report()
    script.heading("a list beside 255 shared locks, and beside 256")
    script.fresh()
    tickets = [("ticket",)] * 255 + [("lock", token, False, 5, "b") for token in range(1, 256)]
    script.ask(*tickets)
    script.finish(script.start_list())
    script.ask(("ticket",), ("lock", 257, False, 5, "b"))
    script.finish(script.start_list())
    script.report()


def two_at_once(script):
    """Two clients, request by request in turn."""
    script.heading("two backups of equal files at once")
    script.fresh()
    first, second = script.start_backup(X, "a", 1), script.start_backup(X, "b", 2)
    for _ in range(8):
        script.step(first)
        script.step(second)
    third = restored(script, first)
    restored(script, second)
    script.report()
    script.heading("a list while a backup is stored")
    script.fresh()
    stored(script, X)
    backup, listing = script.start_backup(TWO, "b", 2), script.start_list()
    script.until(listing, "get")
    script.steps(backup)
    script.steps(listing)
    script.report()
    script.heading("a backup that crashes before its snapshot")
    script.fresh()
    crashed = script.start_backup(X)
    script.until(crashed, "put-snapshot")
    script.crash(crashed)
    script.step(crashed)
    script.unlock_token(1)
    restored(script, stored(script, TWO, "b", 2, True))
    script.report()
    script.heading("a put that comes late, and an unlock that comes twice")
    script.fresh()
    client = script.start_backup(X)
    script.until(client, "put-index")
    script.late(client)
    script.steps(client)
    script.late(client)
    script.report()


def deletions(script):
    """An exclusive lock deletes, a shared one doesn't."""
    script.heading("an exclusive lock deletes")
    script.fresh()
    a = name_of(b"abc")
    script.ask(("ticket",), ("lock", 1, True, 5, "a"), ("put", 1, "index", a, b"abc"), ("get", "index", a),
               ("delete", 1, "index", a), ("get", "index", a), ("delete", 1, "index", a), ("delete", 2, "index", a),
               ("ticket",), ("delete", 2, "index", a), ("lock", 2, False, 5, "b"), ("unlock", 1), ("delete", 1, "index", a),
               ("lock", 2, False, 5, "b"), ("delete", 2, "index", a), ("list", "index", a))
    script.report()


def many(script):
    """More than a page of snapshots and of indexes."""
    script.heading("300 snapshots and 300 indexes")
    script.fresh()
    for number in range(300):
        stored(script, [(["x"], b"%d" % number)], "h", number)
    script.finish(script.start_list())
    restored(script, 0)
    restored(script, 299)
    script.report()


def much(script):
    """As many blobs as an index waits for, and a directory whose text is too large."""
    script.heading("20,000 blobs that wait are indexed before the rest")
    script.fresh()
    script.many_files(20_000)
    stored(script, [])
    script.report()
    script.finish(script.start_list())
    for count in (4_095, 4_096):
        script.heading(f"a pack is due at 4,096 blobs: {count} files and a tree")
        script.fresh(64, 128, 6, 16_777_216)
        script.many_files(count)
        stored(script, [])
        script.report()
    script.heading("23,498 names of 255 bytes are too many for a directory, and one less isn't")
    for count in (23_498, 23_497):
        script.fresh()
        script.many_dirs(count)
        script.finish(script.start_backup([]))
        script.report()
    script.heading("packs that were due before a directory is too large stay, and nothing names them")
    script.fresh()
    script.take_in([(["0"], random.Random(3).randbytes(4_000))])
    script.many_dirs(23_498)
    script.finish(script.start_backup([]))
    script.report()


def largest(script):
    """A directory whose text has just as many bytes as it may have, and one more."""
    dirs, files = 23_493, "abcde"
    for size in (8_388_608, 8_388_609):
        script.heading(f"a directory whose text has {size} bytes")
        script.fresh()
        nodes = [dir_node(f"{number:0255}", name_of(EMPTY)) for number in range(dirs)]
        nodes += [file_node(letter * 255, 0, []) for letter in files]
        left = size - len(tree_text(nodes + [file_node("~", 0, [])])) + 1
        script.many_dirs(dirs)
        script.take_in([([letter * 255], b"") for letter in files] + [(["~" * left], b"")])
        script.finish(script.start_backup([]))
        script.report()


ALL = [rows, starts, deep, fences, faults, reopened, locked_out, two_at_once, deletions, many, much, largest]
