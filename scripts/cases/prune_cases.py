"""Cases of prunes: over what a server says, and at one store with its other clients."""

import random

from command_cases import NO_NAMES, OPENED, codes, no_texts, places, raw_pages, say, says, snapshots_texts, streams
from commands import INSTANCE
from jobs import Client
from prunes import Prune
from naming import name_of
from store import Store
from texts import config_text, dir_node, file_node, index_text, pack_of, snapshot_text, tree_text
from world_cases import TWO, X, restored, stored

DONE = ("done",)
ABC, DE = b"abc", b"de"
ROOT = tree_text([file_node("x", 3, [name_of(ABC)])])


class Objects:
    """Objects of a store, made by hand."""

    def __init__(self):
        self.all = []

    def add(self, kind, data):
        self.all.append((kind, name_of(data), data))
        return name_of(data)

    def pack(self, *blobs):
        """A pack: its name, and the places of its blobs."""
        data, places = pack_of(blobs)
        return self.add("pack", data), places

    def index(self, *packs):
        return self.add("index", index_text(packs))

    def snapshot(self, root, host="a", time=5):
        return self.add("snapshot", snapshot_text(host, time, 1, name_of(root)))

    def with_snapshot(self, root):
        """The same with a snapshot of a tree."""
        self.snapshot(root)
        return self

    def packed(self, *blobs):
        """A pack and its index."""
        self.index(self.pack(*blobs))
        return self


def mixed():
    """A snapshot whose blobs lie beside one that nobody needs."""
    objects = Objects().packed(("content", ABC), ("content", DE), ("tree", ROOT))
    objects.snapshot(ROOT)
    return objects


def replies_to(core, objects):
    """What an honest store with these objects says to a client, reply by reply."""
    store = Store()
    store.config = config_text()
    for kind, name, data in objects.all:
        store.objects[kind][name] = data
    return [say for _, say in Client(core, INSTANCE, "vault", 5).exchanges(store)]


def laid(script, objects):
    """A new store with these objects on its shelf."""
    script.fresh()
    for kind, name, data in objects.all:
        script.lay(kind, name, data)


def pruned(script):
    """A prune told request by request, then another one, which has nothing to do."""
    script.steps(script.start_prune())
    script.finish(script.start_prune())
    script.report()


def over_replies(script):
    """A prune over what a server says."""
    good = replies_to(Prune(), mixed())
    places(script, "prune", script.prune, good)
    streams(script, "prune", script.prune, good)
    for place in (3, 8, 9, 10, 11, 12, 13):
        codes(script, "prune", script.prune, good, place)
    script.heading("prune: a reply to another request between, and then it is busy")
    script.prune(say(1, ("token", 1)) + say(9, ("done",)) + say(2, ("refused", 3)))
    texts = [snapshot_text("host " + letter, 7, 2, name_of(ROOT)) for letter in "xyz"]
    by_name = {name_of(text): text for text in texts}
    for text, pages in raw_pages("snapshot", by_name):
        script.heading("prune: of snapshots, " + text)
        names = [name for page in pages for name in page[2]]
        script.prune(says(*OPENED, *pages, *[("bytes", by_name[name]) for name in names], NO_NAMES, NO_NAMES, DONE, DONE))
    empty = index_text([])
    for text, pages in raw_pages("index", [name_of(empty), name_of(ABC), name_of(DE)]):
        script.heading("prune: of indexes, " + text)
        script.prune(says(*OPENED, NO_NAMES, *pages, ("bytes", empty), NO_NAMES, *[DONE] * 4))
    for text, pages in raw_pages("pack", [name_of(ROOT), name_of(ABC), name_of(DE)]):
        script.heading("prune: of packs, " + text)
        script.prune(says(*OPENED, NO_NAMES, NO_NAMES, *pages, *[DONE] * 4))


def unreadable(script):
    """Objects that don't read, over replies: nothing is put and nothing deleted."""
    for text, data in snapshots_texts():
        script.heading("prune: a snapshot " + text)
        script.prune(says(*OPENED, ("names", False, [name_of(data)]), ("bytes", data), NO_NAMES, NO_NAMES, DONE))
    for text, data in no_texts():
        script.heading("prune: an index " + text)
        script.prune(says(*OPENED, NO_NAMES, ("names", False, [name_of(data)]), ("bytes", data), NO_NAMES, DONE))
    good = replies_to(Prune(), mixed())
    for text, place, data in (("a snapshot", 4, b"{}"), ("an index", 6, b"{}"), ("a tree", 8, ROOT[:-1] + b" "),
                              ("a tree that is cut", 8, ROOT[:-1]), ("a blob", 9, b"abd"), ("a blob that is cut", 9, b"ab")):
        script.heading("prune: " + text + " of other bytes")
        script.prune(says(*good[:place], ("bytes", data), DONE))


def worked(script):
    """Two backups, a forget and a prune, and what is left."""
    script.heading("a prune of two backups, of which one is forgotten")
    script.fresh()
    first, second = stored(script, TWO), stored(script, X, "a", 2)
    script.finish(script.start_forget(first))
    pruned(script)
    restored(script, second, True)
    for text, backups in (("nothing", []), ("one backup", [X]), ("two hosts", [X, X]), ("no file", [[]])):
        script.heading("a prune of " + text)
        script.fresh()
        for time, entries in enumerate(backups):
            stored(script, entries, "ab"[time], time)
        pruned(script)
    script.heading("a prune after all is forgotten")
    script.fresh()
    script.finish(script.start_forget(stored(script, TWO), stored(script, X, "a", 2)))
    pruned(script)


def shapes():
    """Stores by hand, and what each shows."""
    yield "a pack of what is needed and what isn't", mixed()
    objects = mixed()
    objects.pack(("content", b"lost"))
    yield "a pack in no index", objects
    objects = Objects().packed(("content", ABC), ("tree", ROOT)).packed(("content", ABC), ("content", DE))
    objects.snapshot(ROOT)
    yield "two copies of a blob, one in a pack of its own kind", objects
    objects = Objects().packed(("content", ABC), ("tree", ROOT)).packed(("tree", ROOT), ("content", ABC))
    objects.snapshot(ROOT)
    yield "two packs of the same blobs", objects
    objects = Objects()
    pack = objects.pack(("content", ABC), ("tree", ROOT))
    objects.index(pack, pack)
    objects.snapshot(ROOT)
    yield "an index that names a pack twice", objects
    objects = Objects()
    pack = objects.pack(("content", ABC), ("tree", ROOT))
    objects.index(pack)
    objects.index(pack, objects.pack(("content", DE)))
    objects.snapshot(ROOT)
    yield "a pack in two indexes", objects
    objects = Objects()
    name, places = objects.pack(("content", ABC), ("content", DE), ("tree", ROOT))
    objects.index((name, [places[0], places[2]]))
    objects.snapshot(ROOT)
    yield "a pack of which an index tells only what is needed", objects
    objects = Objects().packed(("content", ABC), ("tree", ROOT))
    objects.index((name_of(b"gone"), [("content", name_of(DE), 0, 2)]))
    objects.snapshot(ROOT)
    yield "an index of a pack that isn't there, of which nothing is needed: the pack is missing", objects
    empty = tree_text([])
    above = tree_text([dir_node("a", name_of(empty)), dir_node("b", name_of(tree_text([dir_node("c", name_of(empty))])))])
    objects = Objects().packed(("tree", empty), ("content", DE), ("tree", above), ("tree", tree_text([dir_node("c", name_of(empty))])))
    objects.snapshot(above)
    yield "a tree at two depths", objects
    objects = mixed()
    objects.snapshot(ROOT, "b", 9)
    yield "a tree that two snapshots reach", objects
    same = file_node("x", len(empty), [name_of(empty)])
    both = tree_text([dir_node("d", name_of(empty)), same])
    objects = Objects().packed(("content", empty), ("tree", empty), ("content", DE), ("tree", both))
    objects.snapshot(both)
    yield "one name of two kinds", objects
    objects = Objects().packed(("content", empty), ("tree", tree_text([same])))
    objects.packed(("tree", empty))
    objects.snapshot(tree_text([same]))
    yield "a tree's text of which only the content is needed", objects


def by_hand(script):
    """What becomes of packs and indexes that were laid on the shelf."""
    for text, objects in shapes():
        script.heading("a prune: " + text)
        laid(script, objects)
        pruned(script)


def nested(tree, depth=100):
    """A tree, and as many directories above it, the root last."""
    trees = [tree]
    for _ in range(depth):
        trees.append(tree_text([dir_node("d", name_of(trees[-1]))]))
    return trees


def broken_stores():
    """Stores in which something is missing or bad that a snapshot needs; or just isn't."""
    deep, leaf = nested(tree_text([file_node("x", 0, [])])), nested(tree_text([]))
    above = tree_text([dir_node("d", name_of(b"gone")), file_node("x", 3, [name_of(ABC)])])
    for text, root, blobs in (
            ("a root in no index", ROOT, [("content", ABC)]), ("content in no index", ROOT, [("tree", ROOT)]),
            ("a tree in no index below", above, [("tree", above), ("content", ABC)]),
            ("a tree that isn't one", b"{}", [("tree", b"{}")]), ("a tree of another kind", ROOT, [("content", ROOT), ("content", ABC)]),
            ("directories nested 101 deep", deep[-1], [("tree", tree) for tree in deep]),
            ("directories nested 100 deep", leaf[-1], [("tree", tree) for tree in leaf] + [("content", DE)]),
            ("a file of another size than its blobs'", tree_text([file_node("x", 4, [name_of(ABC)])]),
             [("tree", tree_text([file_node("x", 4, [name_of(ABC)])])), ("content", ABC), ("content", DE)])):
        objects = Objects().packed(*blobs).packed(("content", b"not needed"))
        objects.snapshot(root)
        yield text, objects


def broken(script):
    """What snapshots need and isn't there, or is bad: the store stays as it is."""
    for text, objects in broken_stores():
        script.heading("a prune: " + text)
        laid(script, objects)
        script.finish(script.start_prune())
        script.report()
    for kind in ("pack", "index", "snapshot"):
        for other in (None, b"{}"):
            script.heading(f"a prune: a {kind} that is " + ("gone" if other is None else "other bytes"))
            laid(script, mixed())
            name = next(name for one, name, _ in mixed().all if one == kind)
            script.lift(kind, name)
            if other is not None:
                script.lay(kind, name, other)
            script.steps(script.start_prune())
            script.report()


def lost_packs(script):
    """Two backups at once store a blob in two packs, and some of these are lost: a prune names the least of them, and changes nothing."""
    for text, lost in (("the least", [0]), ("the greatest", [1]), ("both", [0, 1])):
        script.heading("a prune after two backups at once stored a blob in two packs, which are lost: " + text)
        script.fresh()
        backups = [script.start_backup(X, "a", 1), script.start_backup(TWO, "b", 2)]
        for place in backups:
            script.until(place, "put-pack")
        for place in backups:
            script.finish(place)
        packs = sorted(script.store.objects["pack"].items())
        assert len(packs) == 2
        for place in lost:
            script.lift("pack", packs[place][0])
        script.steps(script.start_prune())
        script.report()
        for place in backups:
            restored(script, place)
        script.finish(script.start_check())
        for place in lost:
            script.lay("pack", *packs[place])
        script.finish(script.start_prune())
        for place in backups:
            restored(script, place)
        script.report()


def spoilt(script, name, data, blob):
    """A pack whose blob has another first byte."""
    start = data.index(blob)
    script.lift("pack", name)
    script.lay("pack", name, data[:start] + bytes([data[start] ^ 1]) + data[start + 1:])


def bad_copies(script):
    """A blob that moves has copies in three packs, of which some are bad: the first good one is taken. Where all are, the store stays as it is."""
    objects = mixed().packed(("content", ABC), ("content", b"fg")).packed(("content", ABC), ("content", b"hi"))
    packs = sorted((name, data) for kind, name, data in objects.all if kind == "pack")
    snapshot = next(name for kind, name, _ in objects.all if kind == "snapshot")
    for bad in ([0], [1], [2], [0, 1], [0, 2], [0, 1, 2]):
        script.heading("a prune: of three copies of a blob these are bad: " + " ".join(map(str, bad)))
        laid(script, objects)
        for place in bad:
            spoilt(script, *packs[place], ABC)
        pruned(script)
        restored(script, snapshot)
    both = Objects().packed(("tree", ROOT), ("content", DE), ("content", ABC)).packed(("tree", ROOT), ("content", b"fg")).with_snapshot(ROOT)
    packs = sorted((name, data) for kind, name, data in both.all if kind == "pack")
    for bad in ([0], [0, 1]):
        script.heading("a prune: of two copies of a tree these are bad once it moves: " + " ".join(map(str, bad)))
        laid(script, both)
        client = script.start_prune()
        script.until(client, "range")
        script.step(client)
        for place in bad:
            spoilt(script, *packs[place], ROOT)
        script.finish(client)
        script.report()


def begun(script):
    """A prune that puts a pack and an index, and deletes two indexes and two packs."""
    script.fresh()
    first, second = stored(script, TWO), stored(script, X, "a", 2)
    script.finish(script.start_forget(first))
    return second, script.start_prune()


def interrupted(script):
    """A prune whose lock is removed, that crashes, or whose device fails, at each of its requests."""
    count = 15
    for steps in range(1, count):
        script.heading(f"a prune whose lock is removed after {steps} requests")
        snapshot, client = begun(script)
        for _ in range(steps):
            script.step(client)
        script.unlock_token(4)
        script.steps(client)
        script.late(client)
        script.report()
    for steps in range(1, count):
        script.heading(f"a prune that crashes after {steps} requests, and the next one")
        snapshot, client = begun(script)
        for _ in range(steps):
            script.step(client)
        script.crash(client)
        script.step(client)
        script.unlock_token(4)
        script.finish(script.start_prune())
        restored(script, snapshot)
        script.late(client)
        script.report()
    for word in ("read", "unapplied", "applied"):
        for steps in range(count):
            script.heading(f"a prune that meets a failure, {word}, at request {steps + 1}")
            snapshot, client = begun(script)
            for _ in range(steps):
                script.step(client)
            script.fault_read(client, word)
            script.finish(client)
            restored(script, snapshot)
            script.report()


def beside(script):
    """A prune and other clients."""
    for exclusive in (False, True):
        script.heading("a prune beside " + ("an exclusive lock" if exclusive else "a shared one"))
        script.fresh()
        stored(script, X)
        script.ask(("ticket",), ("lock", 2, exclusive, 5, "b"))
        script.steps(script.start_prune())
        script.ask(("unlock", 2))
        script.report()
    script.heading("a delete of a prune that comes late, after a backup made its pack again")
    script.fresh()
    script.finish(script.start_forget(stored(script, X)))
    client = script.start_prune()
    script.until(client, "delete-pack")
    script.unlock_token(3)
    again = stored(script, X, "a", 2)
    script.late(client)
    restored(script, again)
    script.steps(client)
    script.report()
    script.heading("a restore whose lock is removed, whose snapshot is forgotten, and what it needs pruned")
    script.fresh()
    snapshot = stored(script, X)
    restore = script.start_restore(snapshot)
    script.until(restore, "range")
    script.unlock_token(2)
    script.finish(script.start_forget(snapshot))
    script.finish(script.start_prune())
    script.steps(restore)
    script.report()
    script.heading("a backup whose lock is removed before its index, and a prune")
    script.fresh()
    backup = script.start_backup(TWO)
    script.until(backup, "put-index")
    script.unlock_token(1)
    script.finish(script.start_prune())
    script.steps(backup)
    script.late(backup)
    script.report()


def many(script):
    """More than a page of everything, and more blobs than one index has."""
    script.heading("300 snapshots, of which 150 are forgotten, and a prune")
    script.fresh()
    places = [stored(script, [(["x"], b"%d" % number), (["y"], b"%d" % (number // 2))], "h", number) for number in range(300)]
    script.finish(script.start_forget(*places[::2]))
    script.finish(script.start_prune())
    script.finish(script.start_prune())
    restored(script, places[1])
    restored(script, places[299])
    script.report()
    script.heading("21,000 blobs move, and are listed in two indexes")
    script.fresh(64, 128, 6, 16_777_216)
    script.many_files(21_000)
    first = stored(script, [])
    script.many_files(20_990)
    second = stored(script, [], "a", 2)
    script.finish(script.start_forget(first))
    script.finish(script.start_prune())
    script.finish(script.start_prune())
    script.report()


def by_chance(script):
    """Backups of folders by chance, forgets and prunes."""
    for seed in range(8):
        chance = random.Random(seed)
        script.heading(f"prunes by chance, {seed}")
        script.fresh()
        files, places = {}, []
        for time in range(6):
            for _ in range(3):
                files[chance.choice("abcdefgh")] = chance.randbytes(chance.choice([0, 1, 70, 300, 1_500]))
            if len(files) > 4:
                files.pop(chance.choice(sorted(files)))
            places.append(stored(script, [([name], files[name]) for name in sorted(files)], chance.choice("ab"), time))
            if chance.randrange(3) == 0:
                script.finish(script.start_forget(*chance.sample(places, 1)))
                script.finish(script.start_prune())
        script.finish(script.start_keep(2, 0))
        script.finish(script.start_prune())
        script.finish(script.start_prune())
        restored(script, places[-1])
        script.report()


ALL = [over_replies, unreadable, worked, by_hand, broken, lost_packs, bad_copies, interrupted, beside, many, by_chance]
