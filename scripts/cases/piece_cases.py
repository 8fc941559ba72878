"""Cases of a backup that is fed items, over a store."""

from hashlib import sha256

from world_cases import restored


def stream(count):
    """Bytes without a pattern."""
    return b"".join(sha256(b"%d" % number).digest() for number in range((count + 31) // 32))[:count]


def fed_file(name, *pieces):
    return [("file", name)] + [("bytes", piece) for piece in pieces] + [("close", None)]


def order(script):
    """Items before it wants any, and out of their order."""
    script.heading("a backup that is fed: items before it wants any, and out of their order")
    script.fresh()
    items = fed_file("x", b"a", b"bc") + [("file", "a"), ("end", None)]
    restored(script, script.pieces(items, early=("end", "dir:..", "abandon", "bytes:61"), late=("file:y", "abandon", "end")))
    script.report()
    script.heading("a backup that is fed: each item where it may not be taken")
    script.fresh()
    out_of_place = [("bytes", b"a"), ("bytes", b""), ("close", None)]
    in_file = [("dir", "e"), ("file", "e"), ("file", ".."), ("end", None)]
    names = [(word, name) for word in ("dir", "file") for name in ("", ".", "..", "a/b", "n" * 256)]
    items = out_of_place + names + [("dir", "d"), ("end", None)] + names + [("file", "f")] + in_file
    items += [("bytes", b""), ("close", None), ("file", "f"), ("dir", "f"), ("bytes", b"a"), ("close", None), ("close", None)]
    items += [("dir", "d"), ("file", "c"), ("file", "e"), ("close", None), ("end", None)]
    restored(script, script.pieces(items))
    script.report()


def deep(script):
    """Directories as deep as they may be, and one deeper."""
    script.heading("a backup that is fed: directories nested 100 deep, and below them neither directory nor file")
    script.fresh()
    items = [("dir", "d")] * 100 + [("dir", "e"), ("file", "e"), ("dir", "..")] + [("close", None)] * 100 + [("end", None)]
    restored(script, script.pieces(items))
    script.heading("a backup that is fed: a file at a path of 100 components")
    script.fresh()
    items = [("dir", "d")] * 99 + fed_file("f", b"abc") + [("dir", "g"), ("file", "h")] + [("close", None)] * 100 + [("end", None)]
    restored(script, script.pieces(items))


def packs(script):
    """Files over several packs, however they are cut into pieces; a piece is taken as far as a pack is due."""
    data = stream(6_000)
    for size in (6_000, 1_500, 100, 7):
        script.heading(f"a backup that is fed a file of several packs in pieces of {size} bytes")
        script.fresh()
        pieces = [data[place:place + size] for place in range(0, len(data), size)]
        restored(script, script.pieces(fed_file("a", *pieces) + [("end", None)]))
        script.report()
    script.heading("the same entries, backed up whole, after they were fed")
    script.finish(script.start_backup([(["a"], data)], "b", 6))
    script.heading("the same fed, after they were backed up")
    script.fresh()
    script.finish(script.start_backup([(["a"], data)]))
    script.pieces(fed_file("a", data) + [("end", None)], "b", 6)
    script.report()
    script.heading("a piece of chunks that are known and of chunks that aren't")
    mixed = data[:2_000] + stream(9_000)[6_000:] + data[2_000:]
    restored(script, script.pieces(fed_file("a", mixed) + [("end", None)], "b", 7))
    script.report()
    script.heading("a backup that is fed files whose last chunk or whose directory fills a pack")
    script.fresh()
    items = [("dir", "d")]
    for number in range(30):
        items += fed_file(f"{number:02}", stream(50 + 30 * number))
    items += [("close", None)] + fed_file("e", b"") + fed_file("f") + [("end", None)]
    restored(script, script.pieces(items))
    script.report()


def lists(script):
    """What is left of a file, and its end, as a list of items."""
    script.heading("a backup that is fed what is left of files as lists of items, over several packs; and where no file is open")
    script.fresh()
    items = [("rest", b"abc"), ("file", "a"), ("rest", stream(6_000)), ("rest", b""), ("file", "b"), ("bytes", stream(700)), ("rest", stream(1_500)[700:])]
    items += [("file", "c"), ("rest", b""), ("dir", "d")] + [("file", "e"), ("rest", stream(90)), ("close", None), ("end", None)]
    restored(script, script.pieces(items))
    script.report()


def abandoned(script):
    """A backup that is given up."""
    script.heading("a backup that is fed: given up before anything, in a file, and behind a pack")
    script.fresh()
    script.pieces([("abandon", None)])
    script.pieces([("dir", "d"), ("file", "f"), ("bytes", b"abc"), ("abandon", None)])
    script.pieces([("file", "f"), ("bytes", stream(3_000)), ("abandon", None)])
    script.report()


ALL = [order, deep, packs, lists, abandoned]
