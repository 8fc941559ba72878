"""Values that the rules spell out: the reference has to have them before it writes anything."""

from checks import Check
from chunks import chunks, remainder
from commands import INSTANCE
from frames import Message
from jobs import Backup, Client, Forget, List, Restore, StartRefused, kept
from prunes import Prune, Upgrade
from naming import name_of
from played_cases import CARRIED, ENDED, PLAYED, REFUSED, WORKED
from plays import prints_of
from store import Ledger, Store
from texts import (Unreadable, config_text, directory_texts, file_node, index_text, pack_of, parts_of, read_index, read_snapshot,
                   read_tree, snapshot_text, tree_text)

A = "ba7816bf8f01cfea414140de5dae2223b00361a396177a9cb410ff61f20015ad"
E = "e3b0c44298fc1c149afbf4c8996fb92427ae41e4649b934ca495991b7852b855"
ABC = name_of(b"abc")


def lengths(data, *rule):
    return [len(chunk) for chunk in chunks(data, *rule)]


def check_chunks():
    assert remainder(bytes(57) + b"\x20" + bytes(6)) == 0x1DA3358B4DC173
    assert remainder(bytes(57) + b"\x40" + bytes(6)) == 0x06E55E9DD64395
    assert remainder(bytes(63) + b"\1") == 1 and remainder(bytes(62) + b"\1\x40") == 0x140
    assert lengths(bytes(200), 64, 128, 6) == [64, 64, 64, 8]
    assert lengths(b"", 64, 128, 6) == [] and lengths(bytes(63), 64, 128, 6) == [63]
    assert lengths(bytes(63) + b"\1\x40", 64, 128, 6) == [65]
    assert lengths(bytes(63) + b"\1" * 4, 64, 66, 6) == [66, 1]


def check_frames():
    def is_frame(what, sequence, digits):
        assert Message(INSTANCE, sequence, what).frame().hex() == digits.replace("I", "01" * 16).replace(" ", "")
    is_frame(("ticket",), 1, "00000019 01 I 0000000000000001")
    is_frame(("token", 1), 1, "00000021 81 I 0000000000000001 0000000000000001")
    is_frame(("lock", 1, False, 5, "a"), 2, "0000002c 02 I 0000000000000002 0000000000000001 00 0000000000000005 01 61")
    is_frame(("put", 1, "snapshot", ABC, b"abc"), 3, f"00000045 09 I 0000000000000003 0000000000000001 02 {A} 616263")
    is_frame(("get", "snapshot", ABC), 4, f"0000003a 07 I 0000000000000004 02 {A}")
    is_frame(("upgrade", 1), 3, "00000021 0c I 0000000000000003 0000000000000001")
    is_frame(("bytes", b"abc"), 4, "0000001c 84 I 0000000000000004 616263")


def check_texts():
    assert ABC.hex() == A and name_of(b"").hex() == E
    assert pack_of([("content", b"abc")])[0].hex() == "616263" + "00" + "03000000" + A + "25000000"
    index = (f'{{"packs":[{{"blobs":[{{"id":"{A}","length":3,"offset":0,"type":"data"}}],"id":"{E}"}}],"supersedes":[]}}').encode()
    assert index_text([(name_of(b""), [("content", ABC, 0, 3)])]) == index
    assert read_index(index) == [("content", ABC, (name_of(b""), 0, 3))]
    tree = f'{{"nodes":[{{"content":["{A}"],"name":"x","size":3,"type":"file"}}]}}'.encode()
    assert tree_text([file_node("x", 3, [ABC])]) == tree and len(tree) == 126 and tree_text([]) == b'{"nodes":[]}'
    snapshot = f'{{"host":"a","time":5,"token":1,"tree":"{E}","version":1}}'.encode()
    assert snapshot_text("a", 5, 1, name_of(b"")) == snapshot and read_snapshot(snapshot) == ("a", 5, 1, name_of(b""), 1)
    assert config_text() == (b'{"chunk_bits":6,"chunk_max":128,"chunk_min":64,"id":"00000000000000000000000000000000",'
                             b'"pack_target":1024,"version":1}')
    for text in (b'{"nodes":[{"content":[],"name":"..","size":0,"type":"file"}]}', b"{", b'{"nodes":0}'):
        try:
            read_tree(text)
        except Unreadable:
            continue
        raise AssertionError(text)


def finish(store, client):
    """A lone client's result."""
    client.finish(store)
    return client.outcome


def new_store():
    store = Store()
    store.config = config_text()
    return store


def check_jobs():
    for entries, stored, complete in (
            ([], "stored 1 12", "complete 0"), ([(["a"], b""), (["b"], None)], "stored 2 175", "complete 2"),
            ([(["d"], None), (["f"], b'{"nodes":[]}')], "stored 3 254", "complete 2")):
        store = new_store()
        backup = finish(store, Client(Backup(entries), INSTANCE, "a", 5))
        assert backup.text == stored
        assert finish(store, Client(Restore(backup.name), INSTANCE, "play", 0)).text == complete
    store = new_store()
    results = [finish(store, Client(Backup([(["x"], b"abc")]), INSTANCE, host, 1)).text for host in "ab"]
    assert results == ["stored 2 129", "stored 0 0"]
    assert [len(store.objects[kind]) for kind in ("pack", "index", "snapshot")] == [1, 1, 2]
    for reason, paths in ((2, ["b", "a"]), (2, ["d/x"]), (1, [".."])):
        try:
            Backup([(path.split("/"), b"") for path in paths])
        except StartRefused as refused:
            assert refused.args == (reason,)
            continue
        raise AssertionError(paths)


def check_forgets():
    rows = [(bytes([byte]) * 32, host, time, 1) for byte, host, time in (
        (0x11, "a", 86_399), (0x22, "a", 86_400), (0x33, "a", 86_400), (0x44, "a", 100), (0x55, "b", 5))]
    assert kept(rows, 1, 2) == {bytes([byte]) * 32 for byte in (0x11, 0x33, 0x55)} and kept([], 1, 2) == set()
    store = new_store()
    names = [finish(store, Client(Backup([(["x"], b"abc")] + more), INSTANCE, "a", time)).name
             for time, more in ((1, [(["y"], b"de")]), (2, []))]
    assert finish(store, Client(Forget([names[0]]), INSTANCE, "play", 0)).text == "forgotten 1"
    assert list(store.objects["snapshot"]) == [names[1]]


def check_checks():
    store = new_store()
    names = [finish(store, Client(Backup([(["x"], b"abc")] + more), INSTANCE, "a", time)).name
             for time, more in ((1, [(["y"], b"de")]), (2, []))]
    results = [finish(store, Client(job, INSTANCE, "play", 0)).text for job in (Forget([names[0]]), Prune(), Check(), Prune())]
    assert results == ["forgotten 1", "pruned 1 3", "clean 1 1 2 2", "pruned 0 0"]
    store = new_store()
    store.objects["index"][ABC] = store.objects["pack"][name_of(b"")] = b"abc"
    outcome = finish(store, Client(Check(), INSTANCE, "play", 0))
    assert outcome.text == "faults 2"
    assert outcome.faults == [("index", ABC, "unreadable"), ("pack", name_of(b""), "name")]


def check_upgrades():
    store = new_store()
    assert store.answer(("ticket",)) == ("token", 1) and store.answer(("lock", 1, True, 5, "a")) == ("done",)
    assert store.answer(("upgrade", 1)) == ("done",) and store.config == config_text(version=2)
    store = Store()
    store.answer(("ticket",)), store.answer(("lock", 1, True, 5, "a"))
    assert store.answer(("upgrade", 1)) == ("refused", 5) and store.answer(("upgrade", 2)) == ("refused", 2)
    store = new_store()
    results = [finish(store, Client(job, INSTANCE, "play", 0, old)).text
               for job, old in ((List(), True), (Upgrade(), False), (Upgrade(), True), (Restore(ABC), True), (Upgrade(), False))]
    assert results == ["listed 0", "upgraded", "version", "version", "upgraded"]


def check_parts():
    """A directory of 27,686 empty files with names of 255 bytes is in two parts, and the last one is made first."""
    entries = [([f"{'a' * 249}{place:06}"], b"") for place in range(27_686)]
    nodes = [file_node(path[0], 0, []) for path, _ in entries]
    assert [len(part) for part in parts_of(nodes)] == [27_684, 2] and parts_of([]) == [[]]
    assert [len(text) for text in directory_texts(nodes, 2)] == [617, 8_388_337]
    for version, text in ((1, "directory too large"), (2, "stored 2 8388954")):
        store = Store()
        store.config = config_text(target=16_777_216, version=version)
        backup = finish(store, Client(Backup(entries), INSTANCE, "a", 5))
        assert backup.text == text
    assert finish(store, Client(Restore(backup.name), INSTANCE, "play", 0)).text == "complete 27686"


def check_tokens():
    ledger = Ledger()
    assert [ledger.ticket() for _ in range(1_025)] == list(range(1, 1_026))
    assert 1 not in ledger.fresh and 2 in ledger.fresh


def check_plays():
    """The worked scripts, and those of another program."""
    for _, text, prints in CARRIED + WORKED + ENDED:
        assert prints_of("play", text.encode()) == (prints, "")
    for _, text, prints in CARRIED:
        assert prints_of("loop", text.encode()) == (prints, "")
    for _, text, prints, line in REFUSED:
        assert prints_of("play", text.encode()) == (prints, f"line {line}: not understood")
    for one in PLAYED:
        assert prints_of(one["command"], one["script"].encode()) == (one["prints"], one["fault"])


def check():
    for part in (check_chunks, check_frames, check_texts, check_jobs, check_forgets, check_checks, check_upgrades, check_parts, check_tokens, check_plays):
        part()
