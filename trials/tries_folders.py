"""Folders that are backed up and restored: odd names, depths, links, empty ones and large ones; and what can't be read."""
import filecmp
import hashlib
import json
import os
import random
import shutil
import socket
import subprocess
import time

from connections import Watched
from program import TICKET, Server, matches, token, told
from tries_at_once import PUT, at_first
from tries_hostile import memory, memory_of
from trying import OPTIONS, WAIT, Skipped, holds, is_possible, same, trial
from yards import SMALL, STORED, Yard, entries, filled, gives_back, in_store, is_clean, restores, stored

# Names that a file system takes: spaces, line ends, quotes, letters of other scripts, what looks like a word or a path of ours.
ODD = ["with space", "two\nlines", "a\ttab", "'", '"', "\\", "ä, ö, 海", "✓", "e\u0301", "\u00e9", "-", "--help", "~", "*", "...", "..a", ".hidden", "a-b",
       "!restoring-0", "config", "ledger", "x.vault-part", "%s", "$HOME", "\x01\x7f", "n" * 255, "é" * 127, "{\"nodes\":[]}", "\u202e", "\ufeff"]


@in_store
def a_folder_stored_and_restored_is_the_same(yard):
    files = {"a/b/c d/e/deep": b'{"nodes":[]}', "a/with a space": b"abc", "a/the same": b"abc", "Gr\u00fc\u00dfe/\u6d77.txt": "ä, ö".encode(),
             "empty/": b"", "nothing": b"", "z": b"\x07" * 100_000, "a-b/x": b"abc", "B": b"abc", "~": b"abc"}
    root = filled(yard.top / "from", files)
    (yard.top / "to").symlink_to("from")
    with Server(yard.root, connections=9) as server:
        for word in (root, f"{root}/", yard.top / "to"):
            gives_back(server.address, word, yard.top / "again")
            same(entries(yard.top / "again"), entries(root))
        same(len(entries(root)), 16)


@in_store
def odd_names_come_back(yard):
    root = filled(yard.top / "from", {name: name.encode() for name in ODD} | {f"d/{name}/": b"" for name in ODD})
    with Server(yard.root, connections=3) as server:
        gives_back(server.address, root, yard.top / "again")
        same(sorted(os.listdir(yard.top / "again/d")), sorted(ODD))
        is_clean(server.address)


@in_store
def names_in_a_store_ascend_by_their_bytes(yard):
    """The tree of a folder lists them so, and the second backup of it sends nothing but its snapshot."""
    root = filled(yard.top / "from", {name: b"" for name in ODD} | {"B/": b"", "a/": b"", "~~": b""})
    with Server(yard.root, connections=2) as server:
        stored(server.address, root)
        matches(told("backup", server.address, "other", root), r"0\|stored [0-9a-f]{64} 0 0\n\|")
    trees = [tree for tree in trees_in(yard) if len(tree["nodes"]) == len(ODD) + 3]
    names = [node["name"].encode() for node in trees[0]["nodes"]]
    same(names, sorted(os.listdir(os.fsencode(root))))


def trees_in(yard):
    """The trees of a store, read from its packs."""
    for pack in (it for it in yard.at("data").rglob("*") if it.is_file()):
        data = pack.read_bytes()
        size, at = int.from_bytes(data[-4:], "little"), 0
        for entry in (data[len(data) - 4 - size:][start:start + 37] for start in range(0, size, 37)):
            length = int.from_bytes(entry[1:5], "little")
            if entry[0] == 1:
                yield json.loads(data[at:at + length])
            at += length


@in_store
def objects_lie_under_the_names_of_their_bytes(yard):
    """They are there for the next server, and files of other names are passed over."""
    root = filled(yard.top / "from", {"x": b"abc"})
    with Server(yard.root) as server:
        name = stored(server.address, root)
        same(server.end(), "0||")
    packs = [it for it in yard.at("data").rglob("*") if it.is_file()]
    same(len(packs), 1)
    same(packs[0].parent.name, packs[0].name[:2])
    for it in [*packs, *yard.at("index").iterdir(), *yard.at("snapshots").iterdir()]:
        same(hashlib.sha256(it.read_bytes()).hexdigest(), it.name)
    same([it.name for it in yard.at("snapshots").iterdir()], [name])
    for it in (f"data/02/{'01' * 31}02", f"data/01/{'01' * 31}0A", "data/01/README", f"data/02/{'01' * 32}", "snapshots/notes", "index/.hidden"):
        yard.writes(it, "x")
    with Server(yard.root, connections=4) as server:
        same(is_clean(server.address)[:3], ("1", "1", "1"))
        matches(told("snapshots", server.address), rf"0\|{name} \d+ h\n\|")
        gives_back(server.address, root, yard.top / "again")


def leaves_out(yard, root, skipped, wanted):
    """A folder is backed up without these, and the rest is restored."""
    with Server(yard.root, connections=2) as server:
        name, faults = matches(told("backup", server.address, "h", root), r"3\|stored ([0-9a-f]{64}) \d+ \d+\n\|(.*)")
        same(faults, skipped)
        matches(told("restore", server.address, name, yard.top / "again"), r"0\|complete \d+\n\|")
        same(entries(yard.top / "again"), wanted)


@in_store
def links_sockets_and_pipes_are_left_out(yard):
    """Links back to the folder itself, to a file, and to nothing among them."""
    root = filled(yard.top / "from", {"d/": b"", "f": b"abc"})
    for name, to in (("d/loop", ".."), ("e", "f"), ("g", "nothing")):
        (root / name).symlink_to(to)
    with socket.socket(socket.AF_UNIX) as it:
        here = os.open(root, os.O_RDONLY)
        it.bind(f"/proc/self/fd/{here}/s")
        os.close(here)
        os.mkfifo(root / "t")
        skipped = "".join(f"skipped {root}/{name}\n" for name in ("d/loop", "e", "g", "s", "t"))
        leaves_out(yard, root, skipped, {"d": None, "f": b"abc"})


@in_store
def names_that_are_no_text_are_counted(yard):
    root = filled(yard.top / "from", {"d/": b"", "x": b"abc"})
    for at in (root, root / "d"):
        open(os.fsencode(at) + b"/\xff", "wb").close()
    leaves_out(yard, root, f"skipped an entry in {root}\nskipped an entry in {root}/d\n", {"d": None, "x": b"abc"})


@in_store
def a_folder_of_a_hundred_levels_comes_back(yard):
    root = filled(yard.top / "from", {"d/" * 99 + "x": b"abc"})
    with Server(yard.root, connections=3) as server:
        gives_back(server.address, root, yard.top / "again")
        same(len(entries(yard.top / "again")), 100)
        is_clean(server.address)


@in_store
def a_folder_of_more_levels_is_refused(yard):
    for deepest in ("d/" * 100 + "x", "d/" * 101):
        root = filled(yard.top / "from", {deepest: b"abc"})
        with Server(yard.root, connections=2) as server:
            same(told("backup", server.address, "h", root), "1||start refused 3\n")
            same(told("locks", server.address), "0||")
            same(server.end(), "0||")
        shutil.rmtree(root)
    yard.holds("snapshots", 0)
    yard.serves(TICKET, "0||", token(3))


@in_store
def an_empty_folder_comes_back(yard):
    root = filled(yard.top / "from", {"./": b""})
    with Server(yard.root, connections=3) as server:
        gives_back(server.address, root, yard.top / "again")
        same(entries(yard.top / "again"), {})
        same(is_clean(server.address), ("1", "1", "1", "1"))


@trial(is_early=True)
def large_files_come_back():
    """Files of some megabytes, alike in parts: what stood there before isn't sent again."""
    with Yard("--min", 65536, "--max", 1048576, "--bits", 17, "--target", 1048576, is_store=True) as yard:
        chance = random.Random(5)
        common = chance.randbytes(1_500_000)
        root = filled(yard.top / "from", {"one": common, "two": common + chance.randbytes(400_000), "zeros": bytes(2_000_000), "odd": common[1:]})
        with Server(yard.root, connections=9) as server:
            _, _, sent = matches(told("backup", server.address, "h", root), STORED)
            holds(1_900_000 < int(sent) < 5_000_000, f"{sent} bytes were sent")
            (root / "three").write_bytes(chance.randbytes(10) + common)
            sent = matches(told("backup", server.address, "h", root), STORED)[2]
            holds(int(sent) < 1_300_000, f"{sent} bytes were sent for ten new ones")
            gives_back(server.address, root, yard.top / "again")
            is_clean(server.address)


def most_memory(child):
    """The most memory that a process takes until it ends, in KiB, as it is seen every hundredth of a second."""
    most, until = 0, time.monotonic() + WAIT
    while child.poll() is None and time.monotonic() < until:
        most = max(most, memory_of(child, "VmHWM:") or 0)
        time.sleep(0.01)
    return most


@trial(is_early=True)
def a_backup_holds_no_folder_in_memory():
    """Neither client nor server takes more than 60 MiB for a folder of 340 MB: a file of random bytes, and one of zeros without a block on the disk."""
    with Yard(is_store=True) as yard:
        root, chance = filled(yard.top / "from", {"d/": b""}), random.Random(7)
        (root / "d/random").write_bytes(chance.randbytes(40_000_000))
        with (root / "zeros").open("wb") as zeros:
            zeros.truncate(300_000_000)
        with Server(yard.root, connections=3) as server:
            words = [OPTIONS.program, "backup", server.address, "h", root]
            with subprocess.Popen(words, stdin=subprocess.DEVNULL, stdout=subprocess.PIPE, stderr=subprocess.PIPE, text=True) as child:
                most = most_memory(child)
                name, _, sent = matches(f"{child.returncode}|{child.stdout.read()}|{child.stderr.read()}", STORED)
            holds(40_000_000 < int(sent) < 60_000_000, f"{sent} bytes were sent")
            for who, taken in (("client", most), ("server", memory(server, "VmHWM:"))):
                holds(taken < 60 * 1024, f"the {who} had {taken} KiB at most")
            same(told("restore", server.address, name, yard.top / "again"), "0|complete 3\n|")
            is_clean(server.address)
        same(filecmp.cmp(root / "d/random", yard.top / "again/d/random", shallow=False), True)
        same(filecmp.cmp(root / "zeros", yard.top / "again/zeros", shallow=False), True)


@trial
def a_file_that_grows_is_read_to_the_length_that_it_had():
    """It grows before the first pack is put, when most of it wasn't read yet. What comes behind the length that it had when it was opened is left."""
    with Yard(*SMALL, is_store=True) as own, Server(own.root, connections=9) as server:
        first, more = random.Random(5).randbytes(400_000), b"more" * 50_000
        root = filled(own.top / "from", {"a": b"abc", "f": first})

        def grows():
            with open(root / "f", "ab") as file:
                file.write(more)
        with Watched(server.port, at_first(PUT, grows)) as line:
            name = stored(line.address, root)
        holds((root / "f").stat().st_size == 600_000, "it didn't grow")
        restores(server.address, name, own.top / "to", {"a": b"abc", "f": first})


@trial(is_early=True)
def a_folder_of_many_entries_comes_back():
    with Yard(is_store=True) as yard:
        chance = random.Random(6)
        files = {f"d{number % 3}/{number:05}": b"%d" % (number % 1000) * chance.randrange(4) for number in range(1000)}
        root = filled(yard.top / "from", files | {f"empty/{number}/": b"" for number in range(300)})
        with Server(yard.root, connections=4) as server:
            gives_back(server.address, root, yard.top / "again")
            matches(told("backup", server.address, "h", root), r"0\|stored [0-9a-f]{64} 0 0\n\|")
            is_clean(server.address)


@trial(is_long=True, is_early=True)
def a_directory_whose_text_is_too_large_is_refused():
    """So many names of 255 bytes that its tree has more than 8,388,608 bytes; the lock is given back."""
    with Yard(is_store=True) as yard:
        root = filled(yard.top / "from", {"./": b""})
        for number in range(23_600):
            os.mkdir(root / f"{number:0255}")
        with Server(yard.root, connections=2) as server:
            same(told("backup", server.address, "h", root), "1||directory too large\n")
            same(told("locks", server.address), "0||")
        yard.holds("snapshots", 0)


@in_store
def what_cannot_be_read_is_told_and_nothing_is_sent(yard):
    (yard.top / "x").write_text("abc")
    for word in (yard.top / "away", yard.top / "x"):
        with Server(yard.root) as server:
            same(told("backup", server.address, "h", word), f"1||unreadable {word}\n")
            same(server.end(), "0||")
    yard.holds("snapshots", 0)
    yard.serves(TICKET, "0||", token(1))


@in_store
def a_file_that_may_not_be_read_ends_a_backup(yard):
    """The client runs as a user who may not."""
    program = yard.top / "vault"
    shutil.copy(OPTIONS.program, program)
    for it in (yard.top, program):
        it.chmod(0o755)
    who = {"user": 65534, "group": 65534, "extra_groups": []} if os.geteuid() == 0 else {}
    if who and not is_possible(["setpriv", "--reuid", "65534", "--regid", "65534", "--clear-groups", program, "--version"]):
        raise Skipped("another user can't run the program")
    root = filled(yard.top / "from", {"a/x": b"abc", "b": b"abc"})
    for name, mode in (("b", 0), ("a", 0)):
        (root / name).chmod(mode)
        with Server(yard.root, connections=2) as server:
            words = [program, "backup", server.address, "h", root]
            run = subprocess.run(words, capture_output=True, text=True, timeout=WAIT, stdin=subprocess.DEVNULL, **who)
            same((run.returncode, run.stdout, run.stderr), (1, "", f"unreadable {root}/{name}\n"))
            same(told("locks", server.address), "0||")
    for name in ("a", "b"):
        (root / name).chmod(0o755)
    yard.holds("snapshots", 0)


@in_store
def a_client_connects_before_it_looks_at_its_folder(yard):
    with socket.create_server(("127.0.0.1", 0)) as listener:
        listener.settimeout(WAIT)
        address, away = f"127.0.0.1:{listener.getsockname()[1]}", yard.top / "away"
        same(told("backup", address, "h", away), f"1||unreadable {away}\n")
        client, _ = listener.accept()
        with client:
            client.settimeout(WAIT)
            same(client.recv(1), b"")
