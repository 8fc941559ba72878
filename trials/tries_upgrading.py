"""Stores of version 2: how they are made, what an upgrade prints, and directories of any size there."""
import json
import shutil
import sys

from connections import Watched
from program import Server, frame, lock, matches, number, refused, told
from trying import ROOT, chosen, holds, same, trial
from yards import SMALL, STORED, Yard, entries, filled, in_store, is_clean, restores, stored

# So many empty files with names of 255 bytes are in two trees: one of 27,684 nodes and 8,388,337 bytes, and one of 2 nodes and 617.
MANY = 27_686


def version_of(yard):
    return json.loads(yard.at("config").read_text())["version"]


@in_store
def an_upgrade_is_done_once_and_for_all(yard):
    """Nothing of the config changes but the version; what is stored is there; a second upgrade changes nothing."""
    root = filled(yard.top / "from", {"x": b"abc"})
    config = json.loads(yard.at("config").read_text())
    with Server(yard.root, connections=99) as server:
        name = stored(server.address, root)
        same(told("upgrade", server.address), "0|upgraded\n|")
        text = yard.at("config").read_bytes()
        same(json.loads(text), config | {"version": 2})
        same(told("upgrade", server.address), "0|upgraded\n|")
        same(yard.at("config").read_bytes(), text)
        same(json.loads(yard.at(f"snapshots/{name}").read_text())["version"], 1)
        restores(server.address, name, yard.top / "to", entries(root))
        later = matches(told("backup", server.address, "h", root), STORED)
        same((json.loads(yard.at(f"snapshots/{later[0]}").read_text())["version"], later[1:]), (2, ("0", "0")))
        restores(server.address, later[0], yard.top / "to", entries(root))
        same(told("forget", server.address, name), f"0|forgotten {name}\n|")
        same(told("prune", server.address), "0|pruned 0 0\n|")
        is_clean(server.address)
        same(told("locks", server.address), "0||")
    with Server(yard.root, connections=9) as server:
        same(told("upgrade", server.address), "0|upgraded\n|", "the store is opened again")


@trial
def a_directory_is_too_large_in_version_1_and_in_two_trees_in_version_2():
    with Yard(is_store=True) as own, Server(own.root, connections=99) as server:
        root = filled(own.top / "from", {f"{'a' * 249}{place:06}": b"" for place in range(MANY)})
        same(told("backup", server.address, "h", root), "1||directory too large\n")
        same(told("upgrade", server.address), "0|upgraded\n|")
        name, *counts = matches(told("backup", server.address, "h", root), STORED)
        same(counts, ["2", "8388954"])
        restores(server.address, name, own.top / "to", entries(root))
        same(told("check", server.address).split("|")[1].split()[0], "clean")
        same(told("prune", server.address).split("|")[1].split()[0], "pruned")
        is_clean(server.address)
        restores(server.address, name, own.top / "to", entries(root))
        above = filled(own.top / "above", {f"d/{'b' * 249}{place:06}": b"" for place in range(MANY)} | {"a": b"abc", "e/f": b"abc"})
        name, *counts = matches(told("backup", server.address, "h", above), STORED)
        same(counts[0], "5", "the parts of d, the tree of e, the root's, and abc")
        restores(server.address, name, own.top / "to", entries(above))
        is_clean(server.address)


def laid_out(yard, parts):
    """A store of version 2 with a directory of these parts, each a list of files with few bytes, laid out by the reference: its pack, and the
    name of its snapshot."""
    sys.path.insert(0, str(ROOT / "scripts/cases"))
    from part_cases import chain, held, store_of
    texts = chain(*[[held(name, data) for name, data in part] for part in parts])
    files = {}
    for kind, name, data in store_of(texts, [(texts[0], 2)], [data for part in parts for _, data in part]).all:
        digits = name.hex()
        files[kind] = yard.at({"pack": f"data/{digits[:2]}/{digits}", "index": f"index/{digits}", "snapshot": f"snapshots/{digits}"}[kind])
        files[kind].write_bytes(data)
        files.setdefault("first " + kind, files[kind])
    return files["first pack"], files["snapshot"].name


@trial
def parts_whose_bytes_are_turned_are_told_and_give_nothing_wrong():
    """A byte of the pack in turn: a check has a fault, and a restore that isn't whole gave out right files alone."""
    with Yard("--format", 2, is_store=True) as own:
        wanted = {"a": b"abc", "b": b"de", "c": b"fgh"}
        pack, name = laid_out(own, [[(file, data)] for file, data in wanted.items()])
        data, whole = pack.read_bytes(), 0
        places = list(chosen(range(len(data)), 60))
        with Server(own.root, connections=10**6) as server:
            restores(server.address, name, own.top / "to", wanted)
            is_clean(server.address)
            for place in places:
                pack.write_bytes(data[:place] + bytes([data[place] ^ 1]) + data[place + 1:])
                holds(told("check", server.address).startswith("3|fault "), f"byte {place}")
                shutil.rmtree(own.top / "to", ignore_errors=True)
                whole += told("restore", server.address, name, own.top / "to").startswith("0|complete 3\n")
                there = {file: data for file, data in entries(own.top / "to").items() if not file.startswith("!restoring-")}
                holds(there.items() <= wanted.items(), f"byte {place}: {there}")
        holds(0 < whole < len(places), f"{whole} were whole: those in which the pack's own entries are turned")


@in_store
def an_upgrade_waits_for_every_lock(yard):
    """A shared lock is enough; a store that only appends is upgraded, too."""
    with Server(yard.root, "--append-only", connections=99) as server:
        lock(server)
        same(told("upgrade", server.address), "1||busy\n")
        same(version_of(yard), 1)
        same(told("unlock", server.address, "--remove-all"), "0|removed 1\n|")
        same(told("upgrade", server.address), "0|upgraded\n|")
        same(version_of(yard), 2)


@trial
def a_store_is_made_of_either_version():
    for words, version in (((), 1), (("--format", 1), 1), (("--format", 2), 2)):
        with Yard() as own:
            holds(told("init", own.root, *SMALL, *words).startswith("0|created "), words)
            same(version_of(own), version)
    with Yard() as own:
        for wrong in (0, 3):
            same(told("init", own.root, "--format", wrong), "2||bad argument\n")
        holds(not own.root.exists() or not any(own.root.iterdir()), "nothing was made")


@in_store
def an_upgrade_under_a_token_of_its_own(yard):
    """As a client of any sort asks for it; and once its lock was removed it is refused, however late it comes."""
    with Server(yard.root, connections=99) as server:
        value = lock(server, is_exclusive=True)
        same(told("unlock", server.address, "--remove-all"), "0|removed 1\n|")
        same(server.asked(frame(12, number(value), sequence=3).hex()), refused(2, sequence=3))
        same(version_of(yard), 1)


@in_store
def a_lost_reply_leaves_a_store_of_version_2(yard):
    """The upgrade can't tell, also where it goes on over another connection, and the next one can."""
    for words, wanted in (([], "1||read failed\n"), (["--retry", 1], "1||the store is another one\n")):
        with Yard(*SMALL, is_store=True) as own, Server(own.root, connections=99) as server:
            with Watched(server.port, after=lambda at, request, reply: request[4] != 12) as line:
                same(told("upgrade", line.address, *words), wanted)
            same(version_of(own), 2)
            holds(told("unlock", server.address, "--remove-all").startswith("0|removed "), "its lock")
            same(told("upgrade", server.address), "0|upgraded\n|")
