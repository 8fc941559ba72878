"""File systems that report late what they didn't take, that can't sync folders, or that cut a listing off; and folders that are exchanged while
they are walked through.

The first two need FUSE, with fusepy; the others need strace. Where these aren't there, the trials are skipped.
"""
import os
import random
import shutil
import signal
import stat
import subprocess
import sys
from contextlib import contextmanager
from itertools import groupby
from pathlib import Path

from cuts.calls import calls, strace, text_of
from program import Server, matches, told
from tries_power_cuts import is_traced
from trying import OPTIONS, WAIT, Lacking, Skipped, awaits, holds, is_possible, same, trial
from yards import CREATED, FAILED, SMALL, Yard, entries, filled, in_store, is_clean, restores, stored

LATE = Path(__file__).resolve().parent / "late_files.py"


def python_with_fuse():
    """An interpreter of Python that has fusepy."""
    for python in (sys.executable, "/usr/bin/python3"):
        for module in ("fusepy", "fuse"):
            if is_possible([python, "-c", f"from {module} import FUSE, FuseOSError, Operations"]):
                return python
    raise Lacking("there is no fusepy")


@contextmanager
def late(yard, *words):
    """A folder of the file system of late_files.py, in which these words fail."""
    if not os.access("/dev/fuse", os.R_OK | os.W_OK):
        raise Skipped("there is no /dev/fuse")
    python, folder, mount = python_with_fuse(), yard.top / f"behind-{'-'.join(words)}", yard.top / f"late-{'-'.join(words)}"
    folder.mkdir()
    mount.mkdir()
    with subprocess.Popen([python, LATE, folder, mount, *words], stdin=subprocess.DEVNULL, stdout=subprocess.DEVNULL, stderr=subprocess.PIPE) as child:
        try:
            awaits(lambda: os.path.ismount(mount) or child.poll() is not None, "a mount")
            if child.poll() is not None:
                raise Skipped(f"nothing can be mounted: {child.stderr.read().decode()[-200:]}")
            yield mount
        finally:
            subprocess.run(["umount", "-l", mount], check=False)
            child.terminate()


@in_store
def a_target_that_refuses_bytes_late_is_told(yard):
    """The file system takes each write, and reports by the sync of the handle that wrote that it didn't. A file that is opened anew knows nothing
    of it. So it is with a file among many, too."""
    chance = random.Random(3)
    root = filled(yard.top / "from", {"big": chance.randbytes(50_000), "d/small": b"abc"})
    many = filled(yard.top / "many", {f"d/{number:03}": b"%d" % number for number in range(250)} | {"d/100big": chance.randbytes(50_000)})
    with late(yard, "fsync") as target, Server(yard.root, connections=9) as server:
        same(told("restore", server.address, stored(server.address, root), target / "a"), "1||stopped\n")
        same(told("restore", server.address, stored(server.address, many), target / "b"), "1||stopped\n")
        (root / "big").write_bytes(b"abc")
        restores(server.address, stored(server.address, root), target / "c", entries(root))
        same(told("locks", server.address), "0||")


@in_store
def a_target_that_refuses_bytes_at_the_close_is_told(yard):
    """The file system answers each sync that all is kept, and refuses bytes when the file is closed. Then the file is short, at once or from that
    close on, or it is gone. So it is with a file among many, too."""
    chance = random.Random(4)
    root = filled(yard.top / "from", {"big": chance.randbytes(50_000), "d/small": b"abc"})
    many = filled(yard.top / "many", {f"d/{number:03}": b"%d" % number for number in range(250)} | {"d/100big": chance.randbytes(50_000)})
    with Server(yard.root, connections=99) as server:
        names = stored(server.address, root), stored(server.address, many)
        (root / "big").write_bytes(b"abc")
        small = stored(server.address, root)
        for words in (["flush"], ["flush", "held"], ["held"], ["flush", "lost"]):
            with late(yard, *words) as target:
                for number, name in enumerate(names):
                    same(told("restore", server.address, name, target / f"{number}"), "1||stopped\n", f"{words} {number}")
                restores(server.address, small, target / "small", entries(root))
        same(told("locks", server.address), "0||")


@in_store
def a_folder_that_cannot_be_synced_does_not_stop_a_restore(yard):
    root = filled(yard.top / "from", {"d/small": b"abc", "e/": b""})
    with late(yard, "folders") as target, Server(yard.root, connections=9) as server:
        restores(server.address, stored(server.address, root), target / "above/to", entries(root))


@trial
def a_store_wants_its_folders_synced():
    """On a file system that can't sync folders no store is made or served, and nothing half made is taken for one."""
    with Yard() as yard, late(yard, "folders") as mount:
        behind = yard.top / "behind-folders"
        for store in ("", "store", "above/store"):
            same(told("init", mount / store), FAILED, store)
            for name in ("config", "ledger"):
                same((behind / store / name).exists(), False, f"{store}: {name}")
            same(told("serve", mount / store, "127.0.0.1:0"), FAILED, store)
            matches(told("init", behind / store, *SMALL), CREATED, store)
            same(told("serve", mount / store, "127.0.0.1:0"), FAILED, f"{store}, made elsewhere")
            with Server(behind / store, connections=2) as server:
                is_clean(server.address)


@in_store
def a_file_that_cannot_be_synced_stops_a_restore(yard):
    root = filled(yard.top / "from", {"d/small": b"abc"})
    with late(yard, "files") as target, Server(yard.root, connections=9) as server:
        same(told("restore", server.address, stored(server.address, root), target / "to"), "1||stopped\n")


def injected(log, path, call, inject):
    """The words before a command by which a call on a path is disturbed. A listing's path ends with a slash."""
    end = "/" if call in ("openat", "getdents64") else ""
    return ["strace", "-f", "-e", "quiet=all", "-o", str(log), "-e", f"trace={call}", "-P", f"{path}{end}", "-e", f"inject={call}:{inject}"]


@in_store
def a_listing_of_a_store_that_is_cut_off_is_a_failure(yard):
    """The system answers one listing of a folder with ENOENT, as if it were over: nothing is deleted, and the next prune is well."""
    is_traced()
    root = filled(yard.top / "from", {"d/x": b"abc", "y": b"def"})
    with Server(yard.root, connections=9) as server:
        name = stored(server.address, root)
    packs = next(it for it in yard.at("data").rglob("*") if it.is_file()).parent
    for folder in ("snapshots", "index", f"data/{packs.name}"):
        for place in (1, 2, 3):
            log = yard.top / f"log-{os.path.basename(folder)}-{place}"
            with Server(yard.root, connections=9, before=injected(log, yard.at(folder), "getdents64", f"error=ENOENT:when={place}")) as server:
                got = told("prune", server.address)
                was_met = "(INJECTED)" in log.read_text()
                holds(was_met or place > 2, f"{folder}: there is no listing {place}")
                if place == 1 or was_met and place == 3:
                    same(got, "1||refused 10\n", f"{folder}, listing {place}")
                holds(got in ("1||refused 10\n", "0|pruned 0 0\n|"), f"{folder}, listing {place}: {got}")
                same(is_clean(server.address)[:3], ("1", "1", "1"), f"{folder}, listing {place}")
    with Server(yard.root, connections=9) as server:
        restores(server.address, name, yard.top / "to", entries(root))


def told_when_stopped(words, log, acts, what):
    """Runs a command until strace, which writes this log, stops a process. Then it does something, and lets the process go on. Returns what
    the command printed."""
    with subprocess.Popen(words, stdin=subprocess.DEVNULL, stdout=subprocess.PIPE, stderr=subprocess.PIPE, text=True) as child:
        try:
            awaits(lambda: child.poll() is not None or log.exists() and "stopped by SIGSTOP" in log.read_text(), what)
            holds(child.poll() is None, f"there is no {what}")
            acts()
            os.kill(int(log.read_text().split()[0]), signal.SIGCONT)
            out, faults = child.communicate(timeout=WAIT)
        finally:
            child.kill()
    return f"{child.returncode}|{out}|{faults}"


def prunes_while_exchanged(yard, server, folder, log):
    """What a prune prints whose server stops in a listing, while another folder takes the place of the one that is listed."""
    away = yard.top / "away"

    def exchanges():
        yard.at(folder).rename(away)
        yard.at(folder).mkdir()
    got = told_when_stopped([OPTIONS.program, "prune", server.address], log, exchanges, f"listing of {folder}")
    yard.at(folder).rmdir()
    away.rename(yard.at(folder))
    return got


@in_store
def a_folder_of_a_store_is_looked_at_behind_its_listing(yard):
    """If it is removed or exchanged while it is listed, the request fails, and nothing is deleted."""
    is_traced()
    with Server(yard.root, connections=9) as server:
        stored(server.address, filled(yard.top / "from", {"d/x": b"abc", "y": b"def"}))
    packs = next(it for it in yard.at("data").rglob("*") if it.is_file()).parent
    for folder in ("snapshots", "index", f"data/{packs.name}"):
        log = yard.top / f"log-{os.path.basename(folder)}"
        with Server(yard.root, connections=9, before=injected(log, yard.at(folder), "statx", "error=ENOENT:when=2")) as server:
            same(told("prune", server.address), "1||refused 10\n", f"{folder}, removed")
            holds("(INJECTED)" in log.read_text(), f"{folder} isn't looked at again")
            same(is_clean(server.address)[:3], ("1", "1", "1"), f"{folder}, removed")
        # The fourth call ends the second listing.
        with Server(yard.root, connections=9, before=injected(log, yard.at(folder), "getdents64", "signal=STOP:when=4")) as server:
            same(prunes_while_exchanged(yard, server, folder, log), "1||refused 10\n", f"{folder}, exchanged")
            same(is_clean(server.address)[:3], ("1", "1", "1"), f"{folder}, exchanged")


@in_store
def a_listing_of_a_walk_that_is_cut_off_leaves_nothing_out(yard):
    """Each directory is listed twice, and what either listing has is stored."""
    is_traced()
    root = filled(yard.top / "from", {"d/x": b"abc", "d/e/y": b"def"})
    with Server(yard.root, connections=99) as server:
        for path in (root, root / "d"):
            for place in (1, 2):
                log = yard.top / "log"
                run = subprocess.run([*injected(log, path, "getdents64", f"error=ENOENT:when={place}"), OPTIONS.program, "backup", server.address, "h", root],
                                     capture_output=True, text=True, stdin=subprocess.DEVNULL, timeout=WAIT)
                holds("(INJECTED)" in log.read_text(), f"{path} has no listing {place}")
                name = matches(f"{run.returncode}|{run.stdout}|{run.stderr}", r"0\|stored ([0-9a-f]{64}) \d+ \d+\n\|")[0]
                restores(server.address, name, yard.top / "to", entries(root))


@in_store
def a_directory_stays_open_while_what_is_in_it_is_read(yard):
    """So no file system numbers it anew meanwhile, and it is not taken for another one."""
    is_traced()
    root, log = filled(yard.top / "from", {"d/e/x": b"abc", "d/y": b"def", "z": b"ghi"}), yard.top / "log"
    with Server(yard.root, connections=2) as server:
        run = subprocess.run([*strace(log), OPTIONS.program, "backup", server.address, "h", root], capture_output=True, stdin=subprocess.DEVNULL, timeout=WAIT)
        same(run.returncode, 0)
    opened, held = {}, {}
    for name, words, gave in calls(log):
        if name == "openat" and gave is not None and gave >= 0:
            path = Path(os.fsdecode(text_of(words[1])))
            opened[gave] = path
            held[path] = {opened[file] for file in opened if opened[file] != path}
        elif name == "close":
            opened.pop(int(words[0]), None)
    for path in (root / "d/e/x", root / "d/y", root / "z"):
        missing = {above for above in path.parents if above == root or root in above.parents} - held[path]
        same(missing, set(), f"directories that aren't open where {path} is opened")


@in_store
def a_folder_that_was_removed_is_not_stored_as_an_empty_one(yard):
    """The folder in which the program runs is such a one."""
    gone = yard.top / "gone"
    gone.mkdir()
    with Server(yard.root, connections=2) as server:
        words = [OPTIONS.program, "backup", server.address, "h", "."]
        run = subprocess.run(words, cwd=gone, preexec_fn=gone.rmdir, capture_output=True, text=True, stdin=subprocess.DEVNULL, timeout=WAIT)
        same((run.returncode, run.stdout, run.stderr), (1, "", "unreadable .\n"))
        same(told("snapshots", server.address), "0||")


def stopped_in(yard, server, root, path, call, acts, place=1):
    """Stops a backup in its first call of this name on a path, or in a later one, does something, and lets the backup go on. Returns what the
    backup printed."""
    log = yard.top / "log"
    log.unlink(missing_ok=True)
    words = [*injected(log, path, call, f"signal=STOP:when={place}"), OPTIONS.program, "backup", server.address, "h", str(root)]
    return told_when_stopped(words, log, acts, f"{call} of {path}")


@in_store
def a_directory_that_is_exchanged_behind_the_look_at_it_is_unreadable(yard):
    """It is exchanged for a link to another folder. A directory that is removed before it is listed isn't stored as an empty one either."""
    is_traced()
    filled(yard.top / "other", {"secret": b"SECRET"})
    with Server(yard.root, connections=9) as server:
        for call in ("statx", "openat"):
            root = filled(yard.top / call, {"b/x": b"abc", "c": b"def"})

            def exchanges(root=root):
                (root / "b").rename(root / "bb")
                (root / "b").symlink_to("../other")
            if call == "statx":
                same(stopped_in(yard, server, root, root / "b", call, exchanges), f"1||unreadable {root}/b\n", "exchanged")
            shutil.rmtree(root)
            filled(root, {"b/x": b"abc", "c": b"def"})
            same(stopped_in(yard, server, root, root / "b", call, lambda root=root: shutil.rmtree(root / "b")), f"1||unreadable {root}/b\n", f"removed at {call}")
        same(told("snapshots", server.address), "0||")
        same(told("locks", server.address), "0||")


# What is exchanged; where the backup is stopped before: a path, the call on it, and which of these calls; and the path that is named.
EXCHANGES = [("b", "b", "statx", 2, "b/x"), ("b", "b/x", "read", 1, "b/y"), ("c/d", "c/d", "statx", 2, "c/d/x"), ("c", "c/d", "statx", 2, "c/d"), ("c", "c", "statx", 2, "c/d"),
             ("e", "e", "statx", 2, "e/p"), (".", ".", "statx", 2, "b")]


def exchanges(folder, other, kind):
    """Puts another folder, or a link to it, in the place of a folder."""
    folder.rename(other.parent / "away")
    if kind == "link":
        folder.symlink_to(other)
    else:
        other.rename(folder)


@in_store
def a_directory_that_is_exchanged_behind_its_listing_is_unreadable(yard):
    """It is exchanged when its names are known: before the first entry is opened, or while the first file is read. The first path that leads
    elsewhere is named, and nothing of the other folder is stored."""
    is_traced()
    with Server(yard.root, connections=99) as server:
        for kind in ("link", "folder"):
            for number, (folder, path, call, place, wanted) in enumerate(EXCHANGES):
                top = yard.top / f"{kind}-{number}"
                root = filled(top / "from", {"b/x": b"abc" * 50_000, "b/y": b"def", "c/d/x": b"ghi", "e/p": b"jkl"})
                other = filled(top / "other", {name: b"SECRET" for name in ("x", "y", "d/x", "b/x", "b/y")})
                (other / "p").symlink_to("x")
                got = stopped_in(yard, server, root, root / path, call, lambda: exchanges(root / folder, other, kind), place)
                same(got, f"1||unreadable {root}/{wanted}\n", f"{folder} for a {kind}, at {path}")
        same(told("snapshots", server.address), "0||")
        same(told("locks", server.address), "0||")
    same([str(it) for it in yard.root.rglob("*") if it.is_file() and b"SECRET" in it.read_bytes()], [])


def modes_of(folder):
    """The modes of a folder and of the folders in it, and the modes of the files in it."""
    return {stat.S_IMODE(it.lstat().st_mode) for it in (folder, *folder.rglob("*")) if it.is_dir()}, \
        {stat.S_IMODE(it.lstat().st_mode) for it in folder.rglob("*") if it.is_file()}


@trial
def what_a_store_and_a_restore_make_is_their_owners_alone():
    """Whatever the mask is, and also where the folder was there before; folders above can be written by their owner alone."""
    for mask in (0o000, 0o022, 0o077):
        with Yard() as yard:
            yard.makes("")
            yard.root.chmod(0o755)
            same(subprocess.run([OPTIONS.program, "init", yard.root, *SMALL], umask=mask, capture_output=True, timeout=WAIT).returncode, 0)
            root = filled(yard.top / "from", {"d/x": bytes(range(256)) * 9, "y": b"", "z": b"abc"})
            with Server(yard.root, connections=9, preexec_fn=lambda mask=mask: os.umask(mask)) as server:
                name = stored(server.address, root)
                run = subprocess.run([OPTIONS.program, "restore", server.address, name, yard.top / "above/to"], umask=mask, capture_output=True, timeout=WAIT)
                same((run.returncode, run.stderr), (0, b""))
            same(modes_of(yard.top / "above/to"), ({0o700}, {0o600}), f"restored, mask {mask:o}")
            same(stat.S_IMODE((yard.top / "above").stat().st_mode), 0o755 & ~mask, f"above, mask {mask:o}")
            yard.root.chmod(0o700)
            same(modes_of(yard.root), ({0o700}, {0o600}), f"a store, mask {mask:o}")


@in_store
def root_restores_into_no_folder_that_others_can_change(yard):
    """The restore ends with `target not safe`, and asks and makes nothing, if another user owns the folder or one above it, or may write there.
    Sticky folders are safe. A link that root owns is safe, and one that another user owns isn't."""
    if os.geteuid() != 0:
        raise Skipped("this is for root")
    root, nobody = filled(yard.top / "from", {"d/x": b"abc"}), 65534
    for name in ("own", "theirs", "theirs/below", "shared", "grouped", "sticky", "sticky/theirs"):
        (yard.top / name).mkdir()
    for name in ("theirs", "sticky/theirs"):
        os.chown(yard.top / name, nobody, nobody)
    for name, mode in (("shared", 0o777), ("grouped", 0o775), ("sticky", 0o1777)):
        (yard.top / name).chmod(mode)
    for name, to in (("own/link", "../theirs"), ("own/good", "../sticky"), ("sticky/link", "../own"), ("own/twice", "once"), ("own/once", "../theirs/below"), ("own/round", "round")):
        (yard.top / name).symlink_to(to)
    os.lchown(yard.top / "sticky/link", nobody, nobody)
    with Server(yard.root, connections=99) as server:
        name = stored(server.address, root)
        unsafe = ("theirs", "theirs/new", "theirs/below", "theirs/below/a/new", "shared/new", "grouped/new", "sticky/theirs", "sticky/link/new", "own/link", "own/link/new",
                  "own/twice/new", "own/../theirs/new", "own/round/new")
        for target in unsafe:
            before = sorted(str(it) for it in yard.top.rglob("*"))
            same(told("restore", server.address, name, yard.top / target), "1||target not safe\n", target)
            same(sorted(str(it) for it in yard.top.rglob("*")), before, target)
        for target in ("new", "own/new", "sticky/new", "own/good/other", "above/new"):
            same(told("restore", server.address, name, yard.top / target), "0|complete 2\n|", target)
        run = subprocess.run([OPTIONS.program, "restore", server.address, name, "new"], cwd=yard.top / "theirs", capture_output=True, text=True, timeout=WAIT)
        same((run.returncode, run.stderr), (1, "target not safe\n"), "below the working folder")


@in_store
def a_target_that_somebody_else_makes_meanwhile_is_not_used(yard):
    """The folder that is to be made stands in a sticky one, where another user makes it, or a link, before the restore does."""
    if os.geteuid() != 0:
        raise Skipped("this is for root")
    from connections import Watched
    from tries_at_once import at_first
    from tries_restoring import RANGE
    root, nobody = filled(yard.top / "from", {"x": b"abc"}), 65534
    (yard.top / "sticky").mkdir()
    (yard.top / "sticky").chmod(0o1777)
    (yard.top / "other").mkdir()

    def makes(place):
        place.mkdir()
        os.chown(place, nobody, nobody)

    def links(place):
        place.symlink_to("../other")
        os.lchown(place, nobody, nobody)
    with Server(yard.root, connections=9) as server:
        name = stored(server.address, root)
        for number, acts in enumerate((makes, links)):
            target = yard.top / f"sticky/{number}"
            with Watched(server.port, at_first(RANGE, lambda acts=acts, target=target: acts(target))) as line:
                same(told("restore", line.address, name, target), "1||stopped\n")
            same(list(target.iterdir()), [])
        same(told("locks", server.address), "0||")


@in_store
def another_user_restores_below_a_folder_that_only_takes(yard):
    """The folder above the target may be written, and not read: it can't be synced, and the restore is complete all the same."""
    if os.geteuid() != 0:
        raise Skipped("only root can be another user")
    program, nobody = yard.top / "vault", 65534
    shutil.copy(OPTIONS.program, program)
    for it in (yard.top, program):
        it.chmod(0o755)
    if not is_possible(["setpriv", "--reuid", str(nobody), "--regid", str(nobody), "--clear-groups", program, "--version"]):
        raise Skipped("another user can't run the program")
    root, above = filled(yard.top / "from", {"d/x": b"abc"}), yard.top / "above"
    above.mkdir()
    os.chown(above, nobody, nobody)
    above.chmod(0o300)
    with Server(yard.root, connections=9) as server:
        name = stored(server.address, root)
        run = subprocess.run([program, "restore", server.address, name, above / "to"], capture_output=True, text=True, timeout=WAIT, stdin=subprocess.DEVNULL,
                             user=nobody, group=nobody, extra_groups=[])
        same((run.returncode, run.stdout, run.stderr), (0, "complete 2\n", ""))
    same(entries(above / "to"), entries(root))


@in_store
def a_new_file_system_is_an_empty_target(yard):
    """It has a directory `lost+found`, which may be in the snapshot, too. With anything else in it the target isn't empty."""
    root = filled(yard.top / "from", {"x": b"abc", "lost+found/y": b"def"})
    with Server(yard.root, connections=9) as server:
        name, target = stored(server.address, root), filled(yard.top / "to", {"lost+found/": b""})
        same(told("restore", server.address, name, target), "0|complete 3\n|")
        same(entries(target), entries(root))
        for number, files in enumerate(({"lost+found": b"mine"}, {"lost+found/": b"", "a": b""}, {"lost+founds/": b""})):
            target = filled(yard.top / f"other-{number}", files)
            same(told("restore", server.address, name, target), "1||target not empty\n")
            same(entries(target), {key.rstrip("/"): None if key.endswith("/") else data for key, data in files.items()})


@in_store
def a_restore_with_few_descriptors_is_complete(yard):
    """A process may open fewer files than are synced at a time: they are synced as soon as another one can't be opened."""
    import resource
    root = filled(yard.top / "from", {f"{number:03}": b"%d" % number for number in range(150)})
    with Server(yard.root, connections=9) as server:
        name = stored(server.address, root)
        for most in (1024, 40, 16):
            shutil.rmtree(yard.top / "to", ignore_errors=True)
            run = subprocess.run([OPTIONS.program, "restore", server.address, name, yard.top / "to"], capture_output=True, text=True, timeout=WAIT, stdin=subprocess.DEVNULL,
                                 preexec_fn=lambda most=most: resource.setrlimit(resource.RLIMIT_NOFILE, (most, most)))
            same((run.returncode, run.stdout, run.stderr), (0, "complete 150\n", ""), f"{most} descriptors")
            same(entries(yard.top / "to"), entries(root))


def synced_together(log):
    """How many files a restore synced, each time that it did, by the handles that wrote them."""
    written, kinds = set(), []
    for name, words, gave in calls(log):
        if name == "openat" and gave is not None and gave >= 0 and b"!restoring-" in text_of(words[1]) and "O_CREAT" in words[2]:
            written.add(gave)
        if name == "close":
            written.discard(int(words[0]))
        kinds.append(name == "fsync" and int(words[0]) in written)
    return [len([*group]) for is_sync, group in groupby(kinds) if is_sync]


@in_store
def a_restore_syncs_a_hundred_files_or_64_mib_at_a_time(yard):
    is_traced()
    log = yard.top / "log"
    with Server(yard.root, connections=9) as server:
        for number, (count, data, wanted) in enumerate(((250, b"abc", [100, 100, 50]), (4, bytes(25 << 20), [3, 1]))):
            root, target = filled(yard.top / f"from-{number}", {f"{place:03}": data for place in range(count)}), yard.top / f"to-{number}"
            traced = ["strace", "-f", "-qq", "-xx", "-s", "4096", "-e", "trace=openat,close,fsync", "-o", log]
            run = subprocess.run([*traced, OPTIONS.program, "restore", server.address, stored(server.address, root), target], capture_output=True, text=True,
                                 stdin=subprocess.DEVNULL, timeout=WAIT)
            same((run.returncode, run.stdout, run.stderr), (0, f"complete {count}\n", ""))
            same(synced_together(log), wanted, f"{count} files of {len(data)} bytes")
