"""Cases of restores and backups over what a server says."""

from command_cases import (ABC, NO_NAMES, OPENED, SNAPSHOT, TREE, codes, no_texts, places, raw_pages, say, says,
                           snapshots_texts, streams)
from naming import name_of
from piece_cases import stream
from texts import dir_node, dump, file_node, index_text, pack_of, snapshot_text, tree_text

PACK = name_of(b"pack")
FILE_TREE = tree_text([file_node("x", 3, [ABC])])


def fact(kind, blob, offset, length=None, name=None):
    return (kind, name or name_of(blob), offset, len(blob) if length is None else length)


def snapshot_of(tree):
    return snapshot_text("a", 5, 1, name_of(tree))


def indexed(tree, *indexes):
    """The replies to a restore up to its last index."""
    names = sorted(indexes, key=name_of)
    return OPENED + [("bytes", snapshot_of(tree)), ("names", False, [name_of(one) for one in names])] + [
        ("bytes", one) for one in names]


def tree_first(tree, *blobs):
    """The index of a pack that holds a tree, and behind it contents."""
    facts, offset = [fact("tree", tree, 0)], len(tree)
    for blob in blobs:
        facts.append(fact("content", blob, offset))
        offset += len(blob)
    return index_text([(PACK, facts)])


def restore_of(script, tree, *replies, **shape):
    script.restore(name_of(snapshot_of(tree)), says(*replies), **shape)


def trees():
    """Trees that are read, and some that are none: what each is."""
    content = file_node("x", 3, [ABC])
    trees = [("with keys more", dump({"nodes": [content | {"mode": 7}], "more": 1})), ("without nodes", b"{}"),
             ("whose nodes are none", b'{"nodes":0}'), ("whose node is none", b'{"nodes":[1]}')]
    for text, change in (("of another type", {"type": "link"}), ("with a size of text", {"size": "3"}),
                         ("with a size that isn't whole", {"size": 3.0}), ("with a size of 2^48", {"size": 2**48}),
                         ("with a size of -3", {"size": -3}), ("with a size that is another", {"size": 4}),
                         ("with content that is no list", {"content": ABC.hex()}), ("with a name in upper case", {"content": [ABC.hex().upper()]}),
                         ("whose name is empty", {"name": ""}), ("whose name is .", {"name": "."}), ("whose name is ..", {"name": ".."}),
                         ("whose name has a slash", {"name": "a/b"}), ("whose name has a zero", {"name": "a\0"}),
                         ("whose name has 256 bytes", {"name": "n" * 256}), ("whose name has 128 letters and 256 bytes", {"name": "é" * 128}), ("whose name has 255 bytes", {"name": "n" * 255}),
                         ("whose name is a number", {"name": 7}), ("whose name has other letters", {"name": "mañana 末.txt"}),
                         ("whose name has control characters", {"name": "\1\n\"\\\x7f"})):
        trees.append(("with a node " + text, dump({"nodes": [content | change]})))
    for key in content:
        trees.append((f"with a node without {key}", dump({"nodes": [{k: content[k] for k in content if k != key}]})))
    trees += [("with one name twice", tree_text([content, content])),
              ("whose names fall", tree_text([content, file_node("b", 3, [ABC])])),
              ("with a directory of no name", tree_text([{"name": "d", "type": "dir", "subtree": "0"}])),
              ("with a directory without a tree", tree_text([{"name": "d", "type": "dir"}]))]
    return trees + list(no_texts())


def restored_trees(script):
    for text, tree in trees():
        script.heading("restore: a tree " + text)
        restore_of(script, tree, *indexed(tree, tree_first(tree, b"abc")), ("bytes", tree), ("bytes", b"abc"), ("done",))


def indexes(pack_name=PACK):
    """Indexes of a pack of the empty tree, and what each is."""
    item = {"id": name_of(TREE).hex(), "length": len(TREE), "offset": 0, "type": "tree"}
    pack = {"blobs": [item], "id": pack_name.hex()}
    yield "with keys more", dump({"packs": [pack | {"a": 1}], "b": 2})
    yield "with names that it supersedes", dump({"packs": [pack], "supersedes": [ABC.hex()]})
    yield "with an item without facts", dump({"packs": [{"blobs": [], "id": ABC.hex()}, pack]})
    yield "with one pack in two items", dump({"packs": [pack, pack]})
    for text, value in (("a list", []), ("without packs", {}), ("whose packs are none", {"packs": 0}),
                        ("whose pack is none", {"packs": [0]}), ("whose supersedes is no list", {"packs": [pack], "supersedes": 0}),
                        ("that supersedes no text", {"packs": [pack], "supersedes": [1]}),
                        ("that supersedes no name", {"packs": [pack], "supersedes": ["0"]})):
        yield text, dump(value)
    for text, change in (("without a name", {"id": "0" * 63}), ("with a name in upper case", {"id": "A" * 64}),
                         ("whose name is a number", {"id": 5}), ("without blobs", {"blobs": None})):
        yield "of a pack " + text, dump({"packs": [pack | change]})
    for text, change in (("of length 0", {"length": 0}), ("of length 8,388,609", {"length": 8_388_609}),
                         ("past the greatest pack", {"offset": 25_165_823 - len(TREE) + 1}),
                         ("with an offset of text", {"offset": "0"}), ("with a length that isn't whole", {"length": 12.0}),
                         ("of another type", {"type": "blob"}), ("whose type is none", {"type": None}),
                         ("whose name has 65 digits", {"id": "0" * 65})):
        yield "with a blob " + text, dump({"packs": [pack | {"blobs": [item | change]}]})
    for key in item:
        yield f"with a blob without {key}", dump({"packs": [pack | {"blobs": [{k: item[k] for k in item if k != key}]}]})
    yield from no_texts()


def copies(script):
    """Of several copies of a blob the least place is read."""
    one, two = name_of(b"one"), name_of(b"two")
    first = index_text([(max(one, two), [fact("tree", FILE_TREE, 0), fact("content", b"abc", 900), fact("content", b"abc", 800)])])
    second = index_text([(min(one, two), [fact("content", b"abc", 999), fact("content", b"abc", 700)])])
    script.heading("restore: the copy in the least pack, at the least offset")
    restore_of(script, FILE_TREE, *indexed(FILE_TREE, first, second), ("bytes", FILE_TREE), ("bytes", b"abc"), ("done",))
    script.heading("restore: a tree's name as a content's isn't the content")
    alone = index_text([(PACK, [fact("tree", FILE_TREE, 0), fact("tree", b"abc", 200)])])
    restore_of(script, FILE_TREE, *indexed(FILE_TREE, alone), ("bytes", FILE_TREE), ("done",))


def bad_blobs(script, good):
    for text, data in (("another byte", b"abd"), ("a byte less", b"ab"), ("a byte more", b"abcd"), ("nothing", b"")):
        script.heading(f"restore: a content of {text}")
        restore_of(script, FILE_TREE, *good[:7], ("bytes", data), ("done",))
        script.heading(f"restore: a tree of {text}")
        restore_of(script, FILE_TREE, *good[:6], ("bytes", FILE_TREE[:-3] + data), ("done",))
    script.heading("restore: a tree in no index")
    restore_of(script, TREE, *indexed(TREE, index_text([])), ("done",))
    script.heading("restore: a content in no index")
    restore_of(script, FILE_TREE, *indexed(FILE_TREE, tree_first(FILE_TREE)), ("bytes", FILE_TREE), ("done",))
    script.heading("restore: the second content in no index, so the first isn't given out")
    tree = tree_text([file_node("w", 0, []), file_node("x", 7, [ABC, name_of(b"gone")])])
    restore_of(script, tree, *indexed(tree, tree_first(tree, b"abc")), ("bytes", tree), ("done",))
    script.heading("restore: a file of another size behind an empty one")
    tree = tree_text([file_node("w", 0, []), file_node("x", 4, [ABC])])
    restore_of(script, tree, *indexed(tree, tree_first(tree, b"abc")), ("bytes", tree), ("done",))


def sinks(script, good):
    """A sink that takes some parts of what is given out."""
    for count in range(4):
        script.heading(f"restore: {count} parts are taken")
        restore_of(script, FILE_TREE, *good, stop=count)


def several(script):
    """Directories and files, with a blob twice."""
    empty = tree_text([])
    below = tree_text([dir_node("e", name_of(empty)), file_node("f", 5, [ABC, name_of(b"de")])])
    root = tree_text([dir_node("d", name_of(below)), file_node("x", 0, []), file_node("y", 3, [ABC])])
    blobs = [("content", b"abc"), ("tree", below), ("content", b"de"), ("tree", empty), ("tree", root)]
    pack, facts = pack_of(blobs)
    index = index_text([(name_of(pack), facts)])
    good = indexed(root, index) + [("bytes", data) for data in (root, below, empty, b"abc", b"de", b"abc")] + [("done",)]
    script.heading("restore: two directories and three files, in order")
    restore_of(script, root, *good)
    for count in range(11):
        script.heading(f"restore: {count} parts of several are taken")
        restore_of(script, root, *good, stop=count)


def restores(script):
    good = indexed(FILE_TREE, tree_first(FILE_TREE, b"abc")) + [("bytes", FILE_TREE), ("bytes", b"abc"), ("done",)]
    run = lambda *a, **k: script.restore(name_of(snapshot_of(FILE_TREE)), *a, **k)
    places(script, "restore", run, good)
    streams(script, "restore", run, good)
    for place in (3, 5, 6, 7):
        codes(script, "restore", run, good, place)
    script.heading("restore: nothing")
    restore_of(script, TREE, *indexed(TREE, tree_first(TREE)), ("bytes", TREE), ("done",))
    for text, data in snapshots_texts():
        script.heading("restore: a snapshot " + text)
        script.restore(name_of(data), says(*OPENED, ("bytes", data), NO_NAMES, ("done",)))
    script.heading("restore: a snapshot of another name")
    script.restore(ABC, says(*OPENED, ("bytes", SNAPSHOT), NO_NAMES, ("done",)))
    for text, data in indexes():
        script.heading("restore: an index " + text)
        restore_of(script, TREE, *indexed(TREE, data), ("bytes", TREE), ("done",))
    script.heading("restore: an index of another name")
    restore_of(script, TREE, *OPENED, ("bytes", SNAPSHOT), ("names", False, [ABC]), ("bytes", tree_first(TREE)), ("done",))
    for text, pages in raw_pages("index", [name_of(bytes([one])) for one in range(3)]):
        script.heading("restore: indexes, " + text)
        restore_of(script, TREE, *OPENED, ("bytes", SNAPSHOT), *pages, ("refused", 5), ("done",))
    restored_trees(script)
    copies(script)
    bad_blobs(script, good)
    sinks(script, good)
    several(script)


def nested(depth):
    """Directories, each in the one before it."""
    return [(["d"] * length, None) for length in range(1, depth + 1)]


def refused_entries(script):
    """Entries that no backup takes: of those that a folder may have the directories that are too deep."""
    for text, depth in (("101", 101), ("100", 100)):
        script.heading(f"backup: directories nested {text} deep")
        script.backup("a", nested(depth), says(*OPENED, NO_NAMES, *[("done",)] * 30))
    script.heading("backup: an entry that isn't taken behind a pack that was put, and a lock that isn't given back")
    script.backup("a", [(["a"], stream(1_500)), *nested(101)], says(*OPENED, NO_NAMES, ("done",), ("refused", 10)))
    script.heading("backup: an entry that isn't taken, and a server that says no more, or nothing that reads")
    script.backup("a", nested(101), says(*OPENED, NO_NAMES))
    script.backup("a", nested(101), says(*OPENED, NO_NAMES) + bytes(4))


def backups(script):
    good = OPENED + [NO_NAMES] + [("done",)] * 4
    entries = [(["x"], b"abc")]
    run = lambda *a, **k: script.backup("a", entries, *a, **k)
    places(script, "backup", run, good)
    streams(script, "backup", run, good)
    for place in (2, 3, 4, 6):
        codes(script, "backup", run, good, place)
    script.heading("backup: a reply to another request between, and then it is busy")
    script.backup("a", [], say(1, ("token", 1)) + say(9, ("done",)) + say(2, ("refused", 3)))
    script.heading("backup: nothing")
    script.backup("a", [], says(*good))
    known = index_text([(PACK, [fact("content", b"abc", 0), fact("tree", FILE_TREE, 3)])])
    page = ("names", False, [name_of(known)])
    script.heading("backup: what an index knows isn't put")
    run(says(*OPENED, page, ("bytes", known), ("done",), ("done",)))
    script.heading("backup: the index is refused 5")
    run(says(*OPENED, page, ("refused", 5), ("done",)))
    script.heading("backup: an index of other bytes")
    run(says(*OPENED, page, ("bytes", b"{}"), ("done",)))
    for text, pages in raw_pages("index", [name_of(bytes([one])) for one in range(3)]):
        script.heading("backup: indexes, " + text)
        run(says(*OPENED, *pages, ("refused", 5), ("done",)))
    refused_entries(script)
    skips(script, good)
    for host in ("h" * 255, "mañana", "a b", "\x7f"):
        script.heading("backup: a host of " + str(len(host.encode())) + " bytes")
        script.backup(host, entries, says(*good))


def skips(script, good):
    """Backups of all but some entries."""
    skipped, found = ("an entry in p/d", "p/link"), [(["d"], None)]
    script.heading("backup: entries were skipped")
    script.backup("a", found, says(*good), skipped=skipped)
    script.heading("backup: it is busy, before it comes to entries that would be skipped")
    script.backup("a", found, says(("token", 1), ("refused", 3)), unmet=skipped)
    script.heading("backup: entries were skipped, and others are refused")
    script.backup("a", nested(101), says(*OPENED, NO_NAMES, ("done",)), skipped=skipped)
    script.heading("backup: entries were skipped, and it can't be shown")
    script.backup("a", found, says(*good), skipped=skipped, output_room=9)
