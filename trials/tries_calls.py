"""Calls of the system that fail, or at which the program is killed, each in turn: in a making, a backup, a restore and a loop.

strace has them fail; where it isn't there, or may not trace, these are skipped.
"""
import os
import shutil
import subprocess
from itertools import groupby

from cuts.calls import bytes_of, calls, events, strace
from program import TICKET, Server, matches, token, told
from trying import OPTIONS, WAIT, chosen, holds, same, trial
from tries_power_cuts import is_traced
from yards import CREATED, STORED, Yard, entries, filled, in_store, restores, stored


def disturbed(log, inject, *words):
    """What a command tells while this is done to its calls, and whether it was."""
    run = subprocess.run([*strace(log, inject), OPTIONS.program, *map(str, words)], capture_output=True, text=True, stdin=subprocess.DEVNULL, timeout=WAIT)
    text = log.read_text(errors="replace")
    return f"{run.returncode}|{run.stdout}|{run.stderr}", "(INJECTED)" in text or "killed by SIGKILL" in text


def places(call, words, yard, few):
    """How often a command makes a call that nothing disturbs, as places to disturb; the last ones all, since they differ most."""
    log = yard.top / "whole"
    disturbed(log, None, *words)
    count = sum(1 for line in log.read_text(errors="replace").splitlines() if f" {call}(" in line)
    last = range(max(1, count - 7), count + 1)
    return sorted({*chosen(range(1, count + 1), few), *(last if few > 4 else ())}), count


@trial(is_early=True)
def a_making_that_is_killed_is_made_again():
    """At a call in turn: what is left is no store, or one with its ledger; made again it is whole, and gives the first number."""
    is_traced()
    with Yard() as yard:
        for call, least in (("mkdir", 200), ("fsync", 4), ("openat", 4), ("rename", 2), ("write", 2)):
            found, count = places(call, ["init", yard.top / "tried"], yard, 6)
            shutil.rmtree(yard.top / "tried")
            holds(count >= least, f"a making has {count} calls of {call}")
            for place in found:
                got, was_met = disturbed(yard.top / "log", f"{call}:signal=SIGKILL:when={place}", "init", yard.root)
                holds(was_met and not got.startswith("0|"), f"{call} {place}: {got}")
                if (yard.root / "ledger").exists():
                    yard.serves(TICKET, "0||", token(1))
                is_there = (yard.root / "config").exists()
                got = told("init", yard.root)
                holds(got == "1||exists\n" if is_there else matches(got, CREATED), f"{call} {place}, made again: {got}")
                yard.holds("tmp", 0)
                yard.holds("data", 256)
                shutil.rmtree(yard.root, ignore_errors=True)


@trial(is_early=True)
def a_backup_whose_calls_fail_names_a_path():
    """A backup is whole, or names a path in the folder that can't be read, and then no snapshot was stored, and no lock is left."""
    is_traced()
    with Yard(is_store=True) as yard, Server(yard.root, connections=10**6) as server:
        root, wanted = filled(yard.top / "from", {"d/f": b"abc" * 9, "e/": b"", "g": b"x"}), 0
        for call, error in (("openat", "EMFILE"), ("read", "EIO"), ("getdents64", "EIO"), ("newfstatat", "EIO"), ("statx", "EIO"), ("fstat", "EIO")):
            met = told_so = 0
            for place in range(1, 60):
                log = yard.top / "log"
                words = ["strace", "-f", "-qq", "-o", log, "-e", f"trace={call}", "-P", root, *sum((["-P", it] for it in [*root.rglob("*")]), []),
                         "-e", f"inject={call}:error={error}:when={place}", OPTIONS.program, "backup", server.address, "h", root]
                run = subprocess.run([str(word) for word in words], capture_output=True, text=True, stdin=subprocess.DEVNULL, timeout=WAIT)
                if "(INJECTED)" not in log.read_text():
                    break
                met += 1
                is_path = run.returncode == 1 and run.stderr.startswith(f"unreadable {root}") and run.stdout == ""
                told_so += is_path
                holds(is_path or run.returncode == 0, f"{call} {place}: {run.returncode}, {run.stdout}{run.stderr}")
                same(told("locks", server.address), "0||", f"{call} {place}")
            wanted += told_so
        holds(wanted >= 6, f"only {wanted} failures were told")
        for name, _, _ in (line.split() for line in told("snapshots", server.address).split("|")[1].splitlines()):
            restores(server.address, name, yard.top / "to", entries(root))


@trial(is_early=True)
def a_file_that_becomes_shorter_is_unreadable():
    """One whose bytes end before as many came as it had when it was opened, as a read of none says."""
    is_traced()
    with Yard(is_store=True) as yard, Server(yard.root, connections=99) as server:
        root = filled(yard.top / "from", {"a": b"abc", "d/f": bytes(200_000), "z": b"x"})
        for place in (1, 2, 3, 4):
            log = yard.top / "log"
            words = ["strace", "-f", "-qq", "-o", log, "-e", "trace=read", "-P", root / "d/f", "-e", f"inject=read:retval=0:when={place}",
                     OPTIONS.program, "backup", server.address, "h", root]
            run = subprocess.run([str(word) for word in words], capture_output=True, text=True, stdin=subprocess.DEVNULL, timeout=WAIT)
            holds("(INJECTED)" in log.read_text(), f"there is no read {place}")
            same((run.returncode, run.stdout, run.stderr), (1, "", f"unreadable {root}/d/f\n"), place)
            same(told("locks", server.address), "0||")
        same(told("snapshots", server.address), "0||")


@trial(is_early=True)
def a_restore_that_is_killed_leaves_whole_files():
    """At a call in turn: what stands under an entry's own name has all its bytes."""
    is_traced()
    with Yard(is_store=True) as yard, Server(yard.root, connections=10**6) as server:
        root, target = filled(yard.top / "from", {"a": b"abc" * 999, "d/b": b"def" * 99, "c": b""}), yard.top / "to"
        words = ["restore", server.address, stored(server.address, root), target]
        for call in ("write", "openat", "rename", "fsync", "mkdir"):
            shutil.rmtree(target, ignore_errors=True)
            found, _ = places(call, words, yard, 5)
            for place in found:
                shutil.rmtree(target, ignore_errors=True)
                disturbed(yard.top / "log", f"{call}:signal=SIGKILL:when={place}", *words)
                for path, data in entries(target).items() if target.exists() else ():
                    if not os.path.basename(path).startswith("!restoring-"):
                        same(data, entries(root)[path], f"{path}, killed at {call} {place}")


@in_store
def what_a_restore_tells_as_complete_is_on_the_disk(yard):
    """Each file was synced once it had its name, by the handle that wrote it, as it wasn't opened under that name; and each folder after the last
    name that came into it, that of the target too."""
    is_traced()
    root, target, log = filled(yard.top / "from", {"a": b"abc", "d/e/b": b"def", "d/c": b"", "f/": b""}), yard.top / "above/to", yard.top / "log"
    with Server(yard.root, connections=2) as server:
        got, _ = disturbed(log, None, "restore", server.address, stored(server.address, root), target)
    same(got, f"0|complete {len(entries(root))}\n|")
    same(entries(target), entries(root))
    made = list(events(log, yard.top))
    told_at = next(at for at, event in enumerate(made) if event[0] == "told")
    names = [(at, event[-1]) for at, event in enumerate(made) if event[0] in ("mkdir", "rename")]
    same(len(names), len(entries(root)) + 2, "names that came")
    for at, path in names:
        synced = {event[1] for event in made[at:told_at] if event[0] == "sync"}
        holds(path in synced and os.path.dirname(path) in synced, f"{path} isn't synced, or the folder in which it stands")
    files, opened = {event[-1] for event in made if event[0] == "rename"}, {event[1] for event in made if event[0] == "open"}
    same((len(files), files & opened), (3, set()), "files, and those that were opened anew")


@in_store
def a_restore_whose_syncs_fail_is_not_complete(yard):
    """But for those of a folder that isn't its own, above the target."""
    is_traced()
    root, target = filled(yard.top / "from", {"a": b"abc", "d/b": b"def"}), yard.top / "to"
    with Server(yard.root, connections=99) as server:
        words = ["restore", server.address, stored(server.address, root), target]
        _, count = places("fsync", words, yard, 3)
        holds(count >= len(entries(root)) + 1, f"{count} syncs")
        stopped = 0
        for place in range(1, count + 1):
            shutil.rmtree(target, ignore_errors=True)
            got, was_met = disturbed(yard.top / "log", f"fsync:error=EIO:when={place}", *words)
            holds(was_met and got in ("1||stopped\n", "0|complete 3\n|"), f"sync {place} of {count}: {got}")
            stopped += got == "1||stopped\n"
        holds(stopped >= len(entries(root)) + 1, f"{stopped} of {count} were told")


# Which calls are interrupted, of each sort: each second or third one, or a few among many. A listing takes two calls.
INTERRUPTED = {"mkdir,mkdirat": "1+2", "statx": "1+2", "statx,mkdir,rename,unlink": "3+50", "rename,renameat,renameat2": "1+2", "unlink,unlinkat": "1+2",
               "getdents64": "1+3", "fsync,ftruncate,flock": "1+2", "recvfrom": "1+2", "sendto": "1+2", "accept4": "1+2"}


def interrupting(log, sort):
    """The words before a command of which calls of a sort are interrupted."""
    return ["strace", "-f", "-qq", "-o", str(log), "-e", f"trace={sort}", "-e", f"inject={sort}:error=EINTR:when={INTERRUPTED[sort]}"]


@trial(is_early=True)
def what_is_interrupted_is_made_again():
    """A making, a server and each job end as they do if no call is interrupted."""
    is_traced()
    met = set()
    for sort in INTERRUPTED:
        with Yard() as yard:
            log, root, target = yard.top / "log", filled(yard.top / "from", {"d/e/x": b"abc" * 999, "d/f/": b"", "y": b"", "z": b"def"}), yard.top / "above/to"

            def tells(*words):
                run = subprocess.run([*interrupting(log, sort), OPTIONS.program, *map(str, words)], capture_output=True, text=True, stdin=subprocess.DEVNULL, timeout=WAIT)
                met.update([sort] if "(INJECTED)" in log.read_text() else [])
                return f"{run.returncode}|{run.stdout}|{run.stderr}"
            matches(tells("init", yard.root), CREATED, sort)
            with Server(yard.root, connections=6, before=interrupting(yard.top / "served", sort)) as server:
                name = matches(tells("backup", server.address, "h", root), STORED, sort)[0]
                same(tells("restore", server.address, name, target), f"0|complete {len(entries(root))}\n|", sort)
                same(entries(target), entries(root), sort)
                matches(tells("check", server.address), r"0\|clean 1 1 1 \d+\n\|", sort)
                same(tells("forget", server.address, name), f"0|forgotten {name}\n|", sort)
                matches(tells("prune", server.address), r"0\|pruned 1 \d+\n\|", sort)
                same(tells("snapshots", server.address), "0||", sort)
                same(server.end(), "0||", sort)
            met.update([sort] if "(INJECTED)" in (yard.top / "served").read_text() else [])
    same(set(INTERRUPTED) - met, set(), "no call of these was met")


# A backup of nothing and a restore of it, what `vault loop` prints of them, and by their tags what each asks and is answered.
SCRIPT = "report\nstart backup a 5\nfinish 0\nstart restore 0\nfinish 1\nreport\n"
EMPTY = "store packs 0 indexes 0 snapshots 0 live 0\n"
BOTH = EMPTY + "client 0 backup stored 1 12\nclient 1 restore complete 0\nstore packs 1 indexes 1 snapshots 1 live 0\n"
ASKED = ([1, 2, 11, 6, 9, 9, 9, 4], [1, 2, 11, 7, 6, 7, 8, 4])
SAID = ([129, 130, 132, 131, 130, 130, 130, 130], [129, 130, 132, 132, 131, 132, 132, 130])


def looped(log, *inject):
    """What `vault loop` tells of the script while this is done to its calls, and whether it was."""
    words = ["strace", "-f", "-qq", "-xx", "-s", "100000", "-e", "trace=%network", "-o", str(log), *(["-e", f"inject={inject[0]}"] if inject else [])]
    run = subprocess.run([*words, OPTIONS.program, "loop"], input=SCRIPT, capture_output=True, text=True, timeout=WAIT)
    return f"{run.returncode}|{run.stdout}|{run.stderr}", "(INJECTED)" in log.read_text()


def moved(log):
    """What was sent and what was received, in turn: each with the end of a connection at which it was."""
    pieces = [(name, int(words[0]), bytes_of(name, words)) for name, words, _ in calls(log) if name in ("sendto", "recvfrom")]
    return [(name, end, b"".join(it[2] for it in those)) for (name, end), those in groupby(pieces, key=lambda it: it[:2])]


@trial
def each_message_of_a_loop_goes_over_its_clients_connection():
    """A request is written at its client's end and read at the other one before the store answers, and a reply the other way."""
    is_traced()
    with Yard() as yard:
        same(looped(yard.top / "log"), (f"0|{BOTH}|", False))
        both = moved(yard.top / "log")
        same([name for name, _, _ in both], ["sendto", "recvfrom"] * 32)
        for (_, _, sent), (_, _, came) in zip(both[::2], both[1::2]):
            same(came, sent)
        ends = [(sender, receiver) for (_, sender, _), (_, receiver, _) in zip(both[::2], both[1::2])]
        for client, (asked, said) in enumerate(zip(ASKED, SAID)):
            own, frames = ends[16 * client:][:16], [frame for _, _, frame in both[::2]][16 * client:][:16]
            same(own, [own[0], own[0][::-1]] * 8, "the ends")
            same([[frame[4] for frame in frames[turn::2]] for turn in (0, 1)], [asked, said], "the frames")
        same(len({*ends[0], *ends[16]}), 4, "connections")


@trial
def a_loop_whose_reads_and_writes_are_interrupted_makes_them_again():
    is_traced()
    with Yard() as yard:
        for call in ("sendto", "recvfrom"):
            same(looped(yard.top / "log", f"{call}:error=EINTR:when=1+2"), (f"0|{BOTH}|", True), call)


@trial
def a_loop_whose_calls_fail_says_why():
    """What earlier lines print stands; the line at which a message isn't carried prints nothing."""
    is_traced()
    with Yard() as yard:
        for call, how, why in (("sendto", "error=EPIPE", "write failed"), ("sendto", "retval=0", "write failed"), ("recvfrom", "error=ECONNRESET", "read failed"),
                               ("recvfrom", "retval=0", "read failed"), ("recvfrom", "retval=29", "malformed")):
            for place in chosen(range(1, 33), 6):
                same(looped(yard.top / "log", f"{call}:{how}:when={place}"), (f"1|{EMPTY}|{why}\n", True), f"{call} {place} with {how}")
        # The first socket is the one that listens, before any line is run.
        for call, error, shown in (("socket", "EMFILE", ("", EMPTY, EMPTY)), ("bind", "EADDRINUSE", ("",)), ("listen", "EADDRINUSE", ("",)),
                                   ("connect", "ECONNREFUSED", (EMPTY, EMPTY)), ("accept4", "EMFILE", (EMPTY, EMPTY))):
            for place, text in enumerate(shown, 1):
                same(looped(yard.top / "log", f"{call}:error={error}:when={place}"), (f"1|{text}|not reached\n", True), f"{call} {place}")
