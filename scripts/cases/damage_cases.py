"""Cases of a store whose objects are damaged, whose device fails, or whose connections break."""

from commands import INSTANCE
from frames import Message
from naming import name_of
from texts import config_text, file_node, index_text, pack_of, snapshot_text, tree_text
from world_cases import TWO, X, laid, restored, stored


def frame(what, sequence=1):
    return Message(INSTANCE, sequence, what).frame()


def damages(script):
    """Objects that are gone or aren't what their names say."""
    content, tree = b"abc", tree_text([file_node("x", 3, [name_of(b"abc")])])
    pack, facts = pack_of([("content", content), ("tree", tree)])
    index, snapshot = index_text([(name_of(pack), facts)]), snapshot_text("a", 1, 1, name_of(tree))
    for kind, data, others in (
            ("pack", pack, [None, b"abd" + pack[3:], pack[:20] + b"!" + pack[21:], pack[:100], pack[:2], b""]),
            ("index", index, [None, index[:-1], index + b" ", b"", index_text([]), b"\xff"]),
            ("snapshot", snapshot, [None, snapshot[:-1], snapshot + b" ", b"", snapshot_text("a", 1, 1, name_of(tree), 2)])):
        for other in others:
            text = "that is gone" if other is None else f"of {len(other)} other bytes"
            script.heading(f"a {kind} {text}")
            script.fresh()
            place = stored(script, X)
            script.lift(kind, name_of(data))
            if other is not None:
                script.lay(kind, name_of(data), other)
            restored(script, place, True)
            script.steps(script.start_list())
            script.steps(script.start_backup(TWO, "b", 2))
            script.report()
    for other in ([], [("tree", tree)], [("content", content)]):
        script.heading(f"an index that tells of {len(other)} blobs")
        script.fresh()
        name = laid(script, tree, [("content", content), ("tree", tree)])
        script.lift("index", name_of(index))
        text = index_text([(name_of(pack), [fact for fact in facts if fact[0] in [kind for kind, _ in other]])])
        script.lay("index", name_of(text), text)
        restored(script, name, True)
        restored(script, stored(script, X, "b", 2, True), True)
        script.report()


def large_objects(script):
    """Objects above their kinds' limits, which aren't given, and a config above its own."""
    script.heading("a snapshot of 65,537 bytes isn't given, one of 65,536 is")
    for length in (65_537, 65_536):
        script.fresh()
        script.lay("snapshot", name_of(bytes(length)), bytes(length))
        script.ask(("get", "snapshot", name_of(bytes(length))))
        script.steps(script.start_list())
        script.steps(script.start_restore(name_of(bytes(length))))
    script.heading("an index of 8,388,609 bytes isn't given")
    script.fresh()
    script.lay("index", name_of(bytes(8_388_609)), bytes(8_388_609))
    script.ask(("get", "index", name_of(bytes(8_388_609))))
    script.steps(script.start_backup(X))
    script.heading("a config of 65,537 bytes isn't given")
    for length in (65_537, 65_536):
        script.config(bytes(length))
        script.ask(("config",))
        script.steps(script.start_list())


def configs(script):
    """Stores without a config, and with others."""
    for text, data in (("none", None), ("a later one", config_text(version=2)), ("no text", b"{"),
                       ("greater chunks", config_text(64, 8_388_608, 32, 16_777_216))):
        script.heading("a store whose config is " + text)
        script.shelf()
        if data is not None:
            script.config(data)
        for client in (script.start_backup(X), script.start_restore(name_of(b"")), script.start_list()):
            script.steps(client)
        script.init()
        script.report()
    for word in ("read", "unapplied", "applied"):
        script.heading(f"a store is made while the device fails, {word}, and then once more")
        script.shelf()
        script.arm(word)
        script.init()
        script.disarm()
        script.init()
        script.steps(script.start_list())
        script.report()


def connections(script):
    """Connections that are served to their ends, or break."""
    ticket = frame(("ticket",))
    for text, data, shape in (
            ("one byte at a time", ticket, {"slow": True}), ("its first 28 bytes", ticket[:28], {}),
            ("a length below the least", bytes.fromhex("00000018"), {}), ("a frame and a bad length", ticket + bytes(4), {}),
            ("nothing", b"", {}), ("that breaks after a frame", ticket, {"broken": True}),
            ("that breaks inside one", ticket[:9], {"broken": True}), ("that takes 20 bytes", ticket, {"room": 20}),
            ("that takes 37", ticket, {"room": 37}), ("that takes none", ticket, {"room": 0}),
            ("two frames at once, of which one reply is taken", ticket * 2, {"room": 40}),
            ("an unknown tag", bytes.fromhex("000000190d") + ticket[5:], {}),
            ("a field more", bytes.fromhex("0000001a01") + ticket[5:] + b"\0", {}),
            ("a reply", Message(INSTANCE, 1, ("done",)).frame(), {})):
        script.heading("a connection: " + text)
        script.shelf()
        script.serve(data, **shape)
        script.report()


def failing_asks(script):
    """Each ask while the device fails in a call of each sort."""
    a = name_of(b"abc")
    asks = [("ticket",), ("lock", 2, False, 5, "a"), ("lock", 1, False, 5, "a"), ("refresh", 1, 9), ("unlock", 1),
            ("unlock", 9), ("locks",), ("list", "pack", None), ("get", "pack", a), ("range", a, 0, 1), ("range", a, 0, 0),
            ("put", 1, "pack", name_of(b"de"), b"de"), ("put", 9, "pack", a, b"abc"), ("put", 1, "pack", a, b"abd"),
            ("delete", 1, "pack", a), ("config",)]
    for ask in asks:
        for word in ("read", "kept read", "applied", "unapplied"):
            script.heading(f"the device fails, {word}: {ask[0]}")
            script.fresh()
            script.lay("pack", a, b"abc")
            script.ask(("ticket",), ("lock", 1, ask[0] == "delete", 5, "a"), ("ticket",), ("list", "pack", None))
            if word == "read":
                script.restart()
            script.arm(word.removeprefix("kept "))
            script.ask(ask, sequence=4)
            script.disarm()
            script.ask(("locks",), ("list", "pack", None), sequence=5)
            script.report()


def remembered(script):
    """What is remembered of the device, and when it is read again."""
    a, listing = name_of(b"abc"), ("list", "pack", None)
    script.heading("a put that fails when it is done, and then reading calls that fail")
    script.fresh()
    script.ask(("ticket",), ("lock", 1, False, 5, "a"))
    script.arm("applied")
    script.ask(("put", 1, "pack", a, b"abc"))
    for _ in range(2):
        script.arm("read")
        script.ask(listing)
        script.ask(listing)
    script.ask(("get", "pack", a))
    script.report()
    script.heading("names that were listed before, and then others are put and deleted")
    script.fresh()
    script.ask(listing, ("ticket",), ("lock", 1, True, 5, "a"))
    for data in (b"abc", b"de", b"abc"):
        script.ask(("put", 1, "pack", name_of(data), data), listing)
    for data in (b"abc", b"abc", b"f"):
        script.ask(("delete", 1, "pack", name_of(data)), listing)
    script.restart()
    script.ask(listing, ("locks",))
    script.report()
    for word in ("applied", "unapplied"):
        for ask in (("ticket",), ("lock", 2, False, 5, "a"), ("refresh", 1, 9), ("unlock", 1)):
            script.heading(f"a ledger whose saving fails, {word}, is read again: {ask[0]}")
            script.fresh()
            script.ask(("ticket",), ("lock", 1, False, 5, "a"), ("ticket",))
            script.arm(word)
            script.ask(ask)
            script.ask(("locks",), ("ticket",))
            script.report()


def appending(script):
    """A store that only appends."""
    a = name_of(b"abc")
    for exclusive in (True, False):
        script.heading("deletions from a store that only appends, under " + ("an exclusive lock" if exclusive else "a shared one"))
        script.fresh()
        script.append_only()
        script.ask(("ticket",), ("lock", 1, exclusive, 5, "a"), ("put", 1, "pack", a, b"abc"), ("delete", 1, "pack", a), ("delete", 9, "pack", a),
                   ("delete", 1, "snapshot", a), ("get", "pack", a), ("list", "pack", None), ("unlock", 1), ("locks",))
        script.arm("read")
        script.ask(("delete", 1, "pack", a), ("get", "pack", a))
        script.report()
    script.heading("clients of a store that only appends")
    script.fresh()
    script.append_only()
    stored = script.start_backup(X)
    script.steps(stored)
    for client in (script.start_forget(stored), script.start_prune(), script.start_check(), script.start_restore(stored)):
        script.steps(client)
    script.steps(script.start_backup(TWO, "b", 7))
    script.lift("snapshot", script.seats[stored].client.outcome.name)
    script.steps(script.start_prune())
    script.steps(script.start_check())
    script.report()


ALL = [damages, large_objects, configs, connections, failing_asks, remembered, appending]
