"""Cases of checks: over what a server says, and at one store with its other clients."""

import random

from checks import Check
from command_cases import NO_NAMES, OPENED, codes, places, raw_pages, say, says, snapshots_texts, streams
from job_cases import TREE, indexes, trees
from prune_cases import ABC, DE, DONE, ROOT, Objects, broken_stores, laid, mixed, nested, replies_to, shapes
from naming import name_of
from texts import dir_node, file_node, index_text, pack_of, snapshot_text, tree_text
from world_cases import TWO, X, stored

GONE = name_of(b"gone")


def checked(script, told=False):
    """A check, and how it ends."""
    place = script.start_check()
    (script.steps if told else script.finish)(place)
    return script.seats[place].client.outcome


def clean(script, counts, told=False):
    assert checked(script, told).text == "clean " + counts


def found(script, *faults):
    """A check that finds just these things at fault: (thing, way)."""
    told = [(thing, what) for thing, _, what in checked(script).faults]
    assert told == list(faults), told


def over_replies(script):
    """A check over what a server says."""
    good = replies_to(Check(), mixed())
    places(script, "check", script.check, good)
    streams(script, "check", script.check, good)
    for place in (4, 6, 8, 9):
        codes(script, "check", script.check, good, place)
    script.heading("check: a reply to another request between, and then it is busy")
    script.check(say(1, ("token", 1)) + say(9, ("done",)) + say(2, ("refused", 3)))
    texts = [snapshot_text("host " + letter, 7, 2, name_of(ROOT)) for letter in "xyz"]
    by_name = {name_of(text): text for text in texts}
    for text, pages in raw_pages("snapshot", by_name):
        script.heading("check: of snapshots, " + text)
        names = [name for page in pages for name in page[2]]
        script.check(says(*OPENED, *pages, *[("bytes", by_name[name]) for name in names], NO_NAMES, NO_NAMES, DONE))
    for text, pages in raw_pages("index", [name_of(ROOT), name_of(ABC), name_of(DE)]):
        script.heading("check: of indexes, " + text)
        script.check(says(*OPENED, NO_NAMES, *pages, *[("refused", 5)] * sum(len(page[2]) for page in pages), NO_NAMES, DONE))
    for text, pages in raw_pages("pack", [name_of(ROOT), name_of(ABC), name_of(DE)]):
        script.heading("check: of packs, " + text)
        script.check(says(*OPENED, NO_NAMES, NO_NAMES, *pages, *[("refused", 5)] * sum(len(page[2]) for page in pages), DONE))
    for text, place, data in (("a snapshot", 4, b"{}"), ("an index", 6, b"{}"), ("a pack", 8, b"{}"), ("a tree", 9, ROOT[:-1] + b" "),
                              ("a tree that is cut", 9, ROOT[:-1])):
        script.heading("check: " + text + " of other bytes")
        script.check(says(*good[:place], ("bytes", data), *good[place + 1:]))
    script.heading("check: faults that can't be shown")
    script.check(says(*good[:4], ("refused", 5), *good[5:]), output_room=9)


def uneven(script):
    """A tree of another length than its place's, which an honest store never says."""
    pack, facts = pack_of([("content", ABC), ("tree", ROOT)])
    snapshot = snapshot_text("a", 5, 1, name_of(ROOT))
    for length in (len(ROOT) - 1, len(ROOT) + 1):
        index = index_text([(name_of(pack), [facts[0], ("tree", name_of(ROOT), 3, length)])])
        script.heading(f"check: a tree of its name, {len(ROOT)} bytes, at a place of {length}")
        script.check(says(*OPENED, ("names", False, [name_of(snapshot)]), ("bytes", snapshot), ("names", False, [name_of(index)]),
                          ("bytes", index), ("names", False, [name_of(pack)]), ("bytes", pack), ("bytes", ROOT), DONE))
    above = tree_text([dir_node("d", name_of(ROOT)), dir_node("e", name_of(b"gone")), file_node("f", 3, [name_of(b"lost")])])
    pack, facts = pack_of([("content", ABC), ("tree", ROOT), ("tree", above)])
    snapshot = snapshot_text("a", 5, 1, name_of(above))
    index = index_text([(name_of(pack), [*facts[:2], (*facts[2][:3], len(above) - 1)])])
    script.heading("check: what is below a tree of another length than its place's")
    script.check(says(*OPENED, ("names", False, [name_of(snapshot)]), ("bytes", snapshot), ("names", False, [name_of(index)]),
                      ("bytes", index), ("names", False, [name_of(pack)]), ("bytes", pack), ("bytes", above), ("bytes", ROOT), DONE))


def worked(script):
    """Two backups, a forget, a prune and a check; and stores in which all is well."""
    script.heading("a check after two backups, a forget and a prune")
    script.fresh()
    first, second = stored(script, TWO), stored(script, X, "a", 2)
    clean(script, "2 2 2 4")
    script.finish(script.start_forget(first))
    clean(script, "1 2 2 2")
    script.finish(script.start_prune())
    clean(script, "1 1 2 2", True)
    script.report()
    for text, backups, counts in (
            ("nothing", [], "0 0 0 0"), ("one backup", [X], "1 1 1 2"), ("two hosts", [X, X], "2 1 1 2"), ("no file", [[]], "1 1 1 1"),
            ("a file whose bytes are its sibling's tree text", [[(["d"], None), (["f"], tree_text([]))]], "1 1 1 3")):
        script.heading("a check of " + text)
        script.fresh()
        for time, entries in enumerate(backups):
            stored(script, entries, "ab"[time], time)
        clean(script, counts, True)
        script.report()
    for word, counts in (("applied", "1 1 3 2"), ("unapplied", "1 2 3 2")):
        script.heading(f"a check after a prune that crashed, and one whose device failed, {word}")
        script.fresh()
        first, _ = stored(script, TWO), stored(script, X, "a", 2)
        script.finish(script.start_forget(first))
        prune = script.start_prune()
        script.until(prune, "delete-index")
        script.step(prune)
        script.fault(prune, word)
        script.finish(prune)
        clean(script, counts)
        script.report()


def by_kinds():
    """Each kind of fault of each kind of thing: a store, and what a check tells of it."""
    yield "an index and a pack that are none", [("index", name_of(ABC), ABC), ("pack", name_of(b""), ABC)], [
        ("index", "unreadable"), ("pack", "name")]
    yield "a snapshot of other bytes", [("snapshot", GONE, snapshot_text("a", 5, 1, name_of(ROOT)))], [("snapshot", "name")]
    yield "a snapshot that is none", [("snapshot", name_of(b"{}"), b"{}")], [("snapshot", "unreadable")]
    yield "an index of other bytes", [("index", GONE, index_text([]))], [("index", "name")]
    yield "a root in no index", Objects().with_snapshot(ROOT).all, [("tree", "unindexed")]
    whole = Objects().packed(("content", ABC), ("tree", ROOT)).with_snapshot(ROOT).all
    yield "a tree whose pack is gone", [one for one in whole if one[0] != "pack"], [("index", "place"), ("tree", "missing")]
    yield "a tree whose pack is cut", [(kind, name, data[:99] if kind == "pack" else data) for kind, name, data in whole], [
        ("pack", "name"), ("index", "place"), ("tree", "missing")]
    yield "a tree that another name has", [(kind, name, data.replace(b'"x"', b'"y"') if kind == "pack" else data)
                                           for kind, name, data in whole], [("pack", "name"), ("index", "place"), ("tree", "name")]
    yield "content that another name has", [(kind, name, data.replace(ABC, b"abd") if kind == "pack" else data)
                                            for kind, name, data in whole], [("pack", "name"), ("index", "place")]
    above = tree_text([dir_node("d", GONE), file_node("x", 3, [name_of(ABC)]), file_node("y", 2, [name_of(DE)])])
    yield "a tree and content in no index", Objects().packed(("tree", above), ("content", ABC)).with_snapshot(above).all, [
        ("content", "unindexed"), ("tree", "unindexed")]
    size = tree_text([dir_node("d", GONE), file_node("x", 4, [name_of(ABC)])])
    yield "a file of another size, in a tree that is gone through", Objects().packed(("tree", size), ("content", ABC)).with_snapshot(
        size).all, sorted([("tree", "unreadable", name_of(size)), ("tree", "unindexed", GONE)], key=lambda one: one[2])
    lost = tree_text([file_node("x", 9, [name_of(ABC), GONE])])
    yield "a file of another size, of which a blob is in no index", Objects().packed(("tree", lost), ("content", ABC)).with_snapshot(
        lost).all, [("content", "unindexed")]
    none = tree_text([dir_node("d", GONE)]) + b" {"
    yield "a tree that is none, which isn't gone through", Objects().packed(("tree", none)).with_snapshot(none).all, [("tree", "unreadable")]


def alone(script):
    """Each kind of fault of each kind of thing, by itself."""
    for text, objects, faults in by_kinds():
        script.heading("a check: " + text)
        script.fresh()
        for kind, name, data in objects:
            script.lay(kind, name, data)
        found(script, *[one[:2] for one in faults])
        script.report()
    for kind in ("snapshot", "index", "pack"):
        script.heading(f"a check: a {kind} that goes once it was listed")
        laid(script, mixed())
        check = script.start_check()
        script.until(check, "get")
        while script.seats[check].client.pending.what[:2] != ("get", kind):
            script.step(check)
        script.lift(kind, script.seats[check].client.pending.what[2])
        script.steps(check)


def read_badly(script):
    """Snapshots, indexes, packs and trees, of which some can't be read."""
    for text, data in snapshots_texts():
        script.heading("a check: a snapshot " + text)
        laid(script, Objects().packed(("tree", TREE)))
        script.lay("snapshot", name_of(data), data)
        checked(script)
    pack, _ = pack_of([("tree", TREE)])
    for text, data in indexes(name_of(pack)):
        script.heading("a check: an index " + text)
        script.fresh()
        script.lay("pack", name_of(pack), pack)
        script.lay("index", name_of(data), data)
        script.lay("snapshot", name_of(data), snapshot_text("a", 5, 1, name_of(TREE)))
        checked(script)
    for text, data in packs():
        script.heading("a check: a pack " + text)
        script.fresh()
        script.lay("pack", name_of(data), data)
        checked(script)
    for text, tree in trees():
        script.heading("a check: a tree " + text)
        objects = Objects().packed(("content", ABC), ("tree", tree)).with_snapshot(tree)
        laid(script, objects)
        checked(script)


def packs():
    """Packs that no index lists, and some that are none."""
    one, _ = pack_of([("content", ABC)])
    two, _ = pack_of([("content", ABC), ("tree", ROOT)])
    yield "of one blob", one
    yield "of two blobs", two
    yield "of one blob twice", pack_of([("content", ABC), ("content", ABC)])[0]
    yield "of one name of two kinds", pack_of([("content", TREE), ("tree", TREE)])[0]
    for count in (0, 3, 4, 40):
        yield f"of its first {count} bytes", one[:count]
    yield "without its last byte", one[:-1]
    yield "with a byte more", one + b"\0"
    yield "with a byte more at its begin", b"\0" + one
    yield "without blobs", bytes(4)
    for length in (36, 38, 74, 37 * 4_097):
        yield f"whose header has {length} bytes", one[:-4] + length.to_bytes(4, "little")
    yield "of a third kind", one.replace(b"\0\3\0\0\0", b"\2\3\0\0\0")
    for length in (0, 2, 4, 8_388_609):
        yield f"of a blob of {length} bytes", one.replace(b"\0\3\0\0\0", b"\0" + length.to_bytes(4, "little"))
    yield "whose blob has another name", b"abd" + one[3:]
    yield "whose second blob has another name", two.replace(b'"x"', b'"y"')


def by_hand(script):
    """Stores that were laid on the shelf."""
    for text, objects in [*shapes(), *broken_stores(), *misplaced(), *twofold()]:
        script.heading("a check: " + text)
        laid(script, objects)
        checked(script)


def misplaced():
    """Indexes and the packs that they name."""
    name, facts = Objects().pack(("content", ABC), ("tree", ROOT))
    for text, listed in (
            ("nothing less", [(name, facts)]), ("two items", [(name, facts[:1]), (name, facts[1:])]), ("each blob twice", [(name, facts * 2)]),
            ("its second blob first", [(name, facts[::-1])]), ("one blob less", [(name, facts[:1])]), ("none of its blobs", [(name, [])]),
            ("one blob more", [(name, facts + [("content", name_of(DE), 3 + len(ROOT), 2)])]),
            ("another kind", [(name, [("tree", *facts[0][1:]), facts[1]])]), ("another name", [(name, [("content", name_of(DE), 0, 3), facts[1]])]),
            ("another offset", [(name, [(*facts[0][:2], 1, 3), facts[1]])]), ("another length", [(name, [(*facts[0][:3], 2), facts[1]])]),
            ("a blob at two places", [(name, facts + [("content", name_of(ABC), 9, 3)])]),
            ("another pack too, that isn't there, without blobs", [(name, facts), (GONE, [])]),
            ("another pack too, that isn't there", [(name, facts), (GONE, [("content", name_of(b"lost"), 0, 4)])]),
            ("another pack too, of a blob that is needed", [(name, facts), (bytes(32), [("content", name_of(ABC), 0, 3)])]),
            ("another pack too, of that blob with another length", [(name, facts), (bytes(32), [("content", name_of(ABC), 0, 4)])]),
            ("another pack too, of the root", [(name, facts), (bytes(32), [("tree", name_of(ROOT), 0, len(ROOT))])])):
        objects = Objects()
        objects.pack(("content", ABC), ("tree", ROOT))
        objects.index(*listed)
        yield "an index that tells of a pack " + text, objects.with_snapshot(ROOT)
    objects = Objects()
    pack, facts = objects.pack(("content", ABC), ("tree", ROOT))
    objects.index((pack, facts[:1]))
    objects.index((pack, facts[1:]))
    yield "two indexes that tell of half a pack each", objects.with_snapshot(ROOT)
    objects = Objects()
    objects.index(objects.pack(("content", ABC), ("tree", ROOT)), objects.pack(("content", DE)))
    objects.all = [one for one in objects.all if one[2][:2] != DE]
    yield "an index that names a pack that is gone, of a blob that nobody needs", objects.with_snapshot(ROOT)
    bad, facts = Objects().pack(("content", ABC), ("tree", ROOT))
    objects = Objects()
    objects.all.append(("pack", bad, b"abc"))
    objects.index((bad, facts))
    yield "an index of a pack of other bytes", objects.with_snapshot(ROOT)
    objects = Objects()
    objects.index((objects.add("pack", b"{}"), [("content", name_of(ABC), 0, 3)]))
    yield "an index of a pack that is none", objects
    objects = Objects().packed(("content", ABC), ("tree", ROOT))
    objects.all += [("snapshot", GONE, b"{}"), ("index", GONE, b"{}"), ("pack", GONE, b"{}"), ("snapshot", bytes(32), b""),
                    ("index", bytes(32), b""), ("pack", bytes(32), b"")]
    for thing in (b"1", b"[2]", b'{"3":4}'):
        objects.add("index", thing)
        objects.add("pack", thing)
        objects.add("snapshot", thing)
        objects.index((name_of(thing), [("content", name_of(thing), 0, 1)]))
        objects.snapshot(thing)
        holder = tree_text([file_node("x", 1, [name_of(b"lost" + thing)]), file_node("y", 4, [name_of(ABC)])])
        objects.packed(("tree", holder)).snapshot(holder)
    yield "several faults of each kind", objects


def twofold():
    """Trees that are reached at several depths, or lie in several packs."""
    bare = tree_text([])
    below = tree_text([dir_node("c", name_of(bare)), file_node("x", 4, [name_of(ABC)])])
    root = tree_text([dir_node("a", name_of(below)), dir_node("b", name_of(tree_text([dir_node("c", name_of(below))])))])
    blobs = [("tree", tree) for tree in (bare, below, tree_text([dir_node("c", name_of(below))]), root)]
    yield "a tree with a file of another size, at two depths", Objects().packed(*blobs, ("content", ABC)).with_snapshot(root)
    copies = Objects().packed(("tree", ROOT), ("content", ABC)).packed(("content", ABC), ("tree", ROOT)).with_snapshot(ROOT)
    yield "two packs of the same blobs, of which the lesser is read", copies


def deepest(script):
    """Trees that stand at a path of 100 components, where none may have nodes."""
    held = tree_text([file_node("x", 3, [name_of(ABC)])])
    chain = nested(held, 99)
    root = tree_text([dir_node("a", name_of(held)), dir_node("d", name_of(chain[-1]))])
    objects = Objects().packed(*[("tree", tree) for tree in [*chain, root]])
    script.heading("a check: a tree with a file at a path of 100 components and at one of 1, whose blob is in no index")
    laid(script, objects.with_snapshot(root))
    found(script, ("content", "unindexed"), ("tree", "unreadable"))
    script.heading("the same, once its blob is in an index")
    for kind, name, data in Objects().packed(("content", ABC)).all:
        script.lay(kind, name, data)
    found(script, ("tree", "unreadable"))
    script.heading("the same, where it is a root alone, and then at a path of 99 components")
    script.lift("snapshot", objects.all[-1][1])
    for root, counts in ((held, "1 2 2 2"), (chain[-1], "2 2 2 101")):
        snapshot = snapshot_text("a", 7, 1, name_of(root))
        script.lay("snapshot", name_of(snapshot), snapshot)
        clean(script, counts)
    script.report()
    chain = nested(tree_text([dir_node("d", GONE)]), 100)
    script.heading("a check: a directory at a path of 100 components, whose own tree isn't reached")
    laid(script, Objects().packed(*[("tree", tree) for tree in chain]).with_snapshot(chain[-1]))
    found(script, ("tree", "unreadable"))


def in_order(script):
    """The order of the requests: pages, then objects, kind by kind; then trees, in the order in which they are met."""
    script.heading("a check, request by request: trees of three depths")
    leaves = [tree_text([file_node(letter, 3, [name_of(ABC)])]) for letter in "uvw"]
    middle = [tree_text([dir_node("l", name_of(leaf)), dir_node("m", name_of(leaves[0]))]) for leaf in leaves]
    roots = [tree_text([dir_node("d", name_of(one)), dir_node("e", name_of(leaves[1]))]) for one in middle]
    objects = Objects().packed(*[("tree", tree) for tree in leaves + middle], ("content", ABC)).packed(*[("tree", tree) for tree in roots])
    for root in [*roots, roots[0], leaves[2]]:
        objects.snapshot(root, "a", len(objects.all))
    laid(script, objects)
    clean(script, "5 2 2 10", True)
    script.report()


def spoiled(script):
    """Each byte of each object of a small store is turned, and each object cut at each length."""
    for under in ("same", "own"):
        for kind in ("pack", "index", "snapshot"):
            script.heading(f"each byte of a {kind} turned, and it cut at each length, under {'its' if under == 'same' else 'another'} name")
            laid(script, Objects().packed(("content", ABC), ("tree", ROOT)).with_snapshot(ROOT))
            name, = script.store.objects[kind]
            ends = script.spoil(kind, name, under)
            assert under == "own" or all(end.startswith("faults") for end in ends)
            clean(script, "1 1 1 2")


def interrupted(script):
    """A check whose lock is removed, that crashes, or whose device fails, at each of its requests."""
    count = 11
    for steps in range(1, count):
        script.heading(f"a check whose lock is removed after {steps} requests")
        script.fresh()
        stored(script, X)
        client = script.start_check()
        for _ in range(steps):
            script.step(client)
        script.unlock_token(2)
        script.steps(client)
        script.late(client)
        script.report()
    script.heading("a check that crashes, and the next one")
    script.fresh()
    stored(script, X)
    client = script.start_check()
    script.until(client, "range")
    script.crash(client)
    script.step(client)
    script.finish(script.start_check())
    script.unlock_token(2)
    clean(script, "1 1 1 2")
    script.late(client)
    script.report()
    for word in ("read", "unapplied", "applied"):
        for steps in range(count):
            script.heading(f"a check that meets a failure, {word}, at request {steps + 1}")
            script.fresh()
            stored(script, X)
            client = script.start_check()
            for _ in range(steps):
                script.step(client)
            script.fault_read(client, word)
            script.finish(client)
            script.report()


def beside(script):
    """A check and other clients."""
    for exclusive in (False, True):
        script.heading("a check beside " + ("an exclusive lock" if exclusive else "a shared one"))
        script.fresh()
        stored(script, X)
        script.ask(("ticket",), ("lock", 2, exclusive, 5, "b"))
        script.steps(script.start_check())
        script.ask(("unlock", 2))
        script.report()
    for word in ("get", "range"):
        script.heading(f"a check whose lock is removed before its first {word}, and a prune: faults of a store that is well")
        script.fresh()
        first, _ = stored(script, TWO), stored(script, X, "a", 2)
        script.finish(script.start_forget(first))
        check = script.start_check()
        script.until(check, word)
        script.unlock_token(4)
        script.finish(script.start_prune())
        script.steps(check)
        clean(script, "1 1 2 2")
        script.report()
    script.heading("a check of snapshots that are too large, which aren't given, and of one that just isn't")
    for length in (65_536, 65_537):
        script.fresh()
        script.lay("snapshot", name_of(bytes(length)), bytes(length))
        checked(script, True)
    script.heading("a check of a store of a later version, and of one without a config")
    script.fresh()
    script.lay("snapshot", GONE, snapshot_text("a", 5, 1, name_of(ROOT), 2))
    script.lay("snapshot", name_of(snapshot_text("a", 5, 1, name_of(ROOT), 2)), snapshot_text("a", 5, 1, name_of(ROOT), 2))
    checked(script, True)
    script.shelf()
    checked(script, True)


def many(script):
    """More than a page of everything."""
    script.heading("300 snapshots, of which 150 are forgotten, and checks before and after a prune")
    script.fresh()
    backups = [stored(script, [(["x"], b"%d" % number), (["y"], b"%d" % (number // 2))], "h", number) for number in range(300)]
    clean(script, "300 300 300 600")
    script.finish(script.start_forget(*backups[::2]))
    clean(script, "150 300 300 375")
    script.finish(script.start_prune())
    assert checked(script).text.startswith("clean 150 1 ")
    script.report()


def by_chance(script):
    """Backups of folders by chance, forgets and prunes, after which all is well; and then objects that go or change."""
    for seed in range(8):
        chance = random.Random(seed)
        script.heading(f"checks by chance, {seed}")
        script.fresh()
        files, backups = {}, []
        for time in range(5):
            for _ in range(3):
                files[chance.choice("abcdefgh")] = chance.randbytes(chance.choice([0, 1, 70, 300, 700]))
            backups.append(stored(script, [([name], files[name]) for name in sorted(files)], chance.choice("ab"), time))
            if chance.randrange(3) == 0:
                script.finish(script.start_forget(*chance.sample(backups, 1)))
                script.finish(script.start_prune())
            assert checked(script).text.startswith("clean")
        for _ in range(6):
            damaged(script, chance)
            checked(script)
        script.report()


def damaged(script, chance):
    """One object, by chance, goes, or has other bytes: some of its own turned, or those of another."""
    kind = chance.choice(["pack", "index", "snapshot"])
    names = sorted(script.store.objects[kind])
    if not names:
        return
    name = chance.choice(names)
    data = script.store.objects[kind][name]
    script.lift(kind, name)
    way = chance.randrange(4)
    if way == 1 and data:
        at = chance.randrange(len(data))
        script.lay(kind, name, data[:at] + bytes([data[at] ^ chance.randrange(1, 256)]) + data[at + 1:])
    if way == 2:
        script.lay(kind, name, data[:chance.randrange(len(data) + 1)])
    if way == 3:
        script.lay(kind, name_of(data + b" "), data + b" ")


ALL = [over_replies, uneven, worked, alone, read_badly, by_hand, deepest, in_order, spoiled, interrupted, beside, many, by_chance]
