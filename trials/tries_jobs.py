"""What the commands print when they are done: snapshots, forget, prune, check, locks, refresh, unlock, over real folders and sockets."""
import hashlib
import json
import re
import shutil
import time

from program import Server, lock, matches, told
from trying import holds, same, trial
from yards import SMALL, STORED, Yard, entries, filled, gives_back, in_store, is_clean, restores, stored

DAY = 86_400


def rows_of(got):
    """The lines that a command that is done prints."""
    holds(got.startswith("0|") and got.endswith("|"), got)
    return got[2:-1].splitlines()


@in_store
def snapshots_are_listed_by_name(yard):
    """Each with the moment at which it was made, and its host; more than fit into one page."""
    roots = [filled(yard.top / f"from{at}", {"x": b"%d" % at}) for at in range(3)]
    begun = int(time.time())
    with Server(yard.root, connections=99) as server:
        same(told("snapshots", server.address), "0||")
        names = {stored(server.address, root, host): host for root in roots for host in ("b", "a", "with space")}
        listed = [re.fullmatch(r"([0-9a-f]{64}) (\d+) (.*)", row).groups() for row in rows_of(told("snapshots", server.address))]
        same([name for name, _, _ in listed], sorted(names))
        same({name: host for name, _, host in listed}, names)
        holds(all(begun <= int(moment) <= time.time() for _, moment, _ in listed), listed)


def lays_snapshots(yard, rows):
    """Snapshots of one empty folder at these moments, laid into the store's folder: their names, by host and moment."""
    with Server(yard.root) as server:
        name = stored(server.address, filled(yard.top / "void", {"./": b""}), "made")
    text = json.loads(yard.at(f"snapshots/{name}").read_text())
    names = {}
    for host, moment in rows:
        data = json.dumps(text | {"host": host, "time": moment}, sort_keys=True, separators=(",", ":")).encode()
        names[host, moment] = hashlib.sha256(data).hexdigest()
        yard.at(f"snapshots/{names[host, moment]}").write_bytes(data)
    yard.removes(f"snapshots/{name}")
    return names


@in_store
def a_policy_goes_host_by_host_and_day_by_day(yard):
    """Of each host the last ones, and the last one of each of the last days that have one; days without any don't count."""
    rows = [("a", DAY * day + second) for day in (1, 2, 3, 9) for second in (0, 5, DAY - 1)] + [("b", DAY * 3), ("b", DAY * 3 + 1), ("c", 7)]
    names = lays_snapshots(yard, rows)
    kept = {("a", DAY * 9 + second) for second in (5, DAY - 1)} | {("a", DAY * day + DAY - 1) for day in (2, 3)}
    kept |= {("b", DAY * 3), ("b", DAY * 3 + 1), ("c", 7)}
    with Server(yard.root, connections=9) as server:
        gone = sorted(names[row] for row in rows if row not in kept)
        same(rows_of(told("forget", server.address, "--keep-last", 2, "--keep-daily", 3)), [f"forgotten {name}" for name in gone])
        left = {tuple(row.split(" ", 2)[:1]) for row in rows_of(told("snapshots", server.address))}
        same(left, {(names[row],) for row in kept})
        same(told("forget", server.address, "--keep-last", 2, "--keep-daily", 3), "0||")
        same(len(rows_of(told("forget", server.address, "--keep-daily", 1))), 4)
        same(is_clean(server.address)[0], "3")


@in_store
def a_policy_for_one_host_lets_all_others_be(yard):
    """Of the named host alone snapshots go; one that begins alike is another one, and one that has none loses none."""
    rows = [(host, DAY * day + second) for host in ("a", "aa", "é b") for day in (1, 2, 5) for second in (0, 9)]
    names = lays_snapshots(yard, rows)
    with Server(yard.root, connections=99) as server:
        left = set(names.values())
        for host, words, kept in (("é b", ["--keep-last", 1], [DAY * 5 + 9]), ("a", ["--keep-daily", 2], [DAY * 2 + 9, DAY * 5 + 9]),
                                  ("A", ["--keep-last", 1], []), ("aa", ["--keep-last", 4294967295], [row[1] for row in rows if row[0] == "aa"])):
            gone = sorted(name for (of, moment), name in names.items() if of == host and moment not in kept)
            same(rows_of(told("forget", server.address, "--host", host, *words, "--dry-run")), [f"would forget {name}" for name in gone], host)
            same({row.split()[0] for row in rows_of(told("snapshots", server.address))}, left)
            same(rows_of(told("forget", server.address, *words, "--host", host)), [f"forgotten {name}" for name in gone], host)
            left -= set(gone)
            same({row.split()[0] for row in rows_of(told("snapshots", server.address))}, left)
        same(told("forget", server.address, "--host", "a"), "1||no policy\n")


@in_store
def a_dry_run_tells_and_forgets_nothing(yard):
    """It needs no lock of its own, and a store that only appends lets it be; what it tells is what a forget does then."""
    names = lays_snapshots(yard, [(host, DAY * day) for host in "ab" for day in range(4)])
    given = [names["a", DAY], "0" * 64, names["b", 0], names["a", DAY]]
    choices = (["--keep-last", 1], ["--keep-daily", 2, "--host", "b"], given, ["--keep-last", 9])
    was = entries(yard.root)
    with Server(yard.root, "--append-only", connections=99) as server:
        told_before = [rows_of(told("forget", server.address, *words, "--dry-run")) for words in choices]
        same([len(rows) for rows in told_before], [6, 2, 2, 0])
        same(told_before[2], [f"would forget {name}" for name in sorted(set(given) - {"0" * 64})])
        holds(all(row.startswith("would forget ") for rows in told_before for row in rows), told_before)
        same(told("forget", server.address, "--dry-run"), "1||no policy\n")
    with Server(yard.root, connections=99) as server:
        held = lock(server)
        same(told("forget", server.address, *choices[0]), "1||busy\n")
        same([rows_of(told("forget", server.address, *words, "--dry-run", "--retry", 1)) for words in choices], told_before)
        same({name: data for name, data in entries(yard.root).items() if name != "ledger"}, {name: data for name, data in was.items() if name != "ledger"})
        same(told("unlock", server.address, "--remove-all"), f"0|removed {held}\n|")
        same(rows_of(told("forget", server.address, *choices[1])), [row.replace("would forget", "forgotten") for row in told_before[1]])


@in_store
def more_snapshots_than_a_page_are_listed_and_forgotten(yard):
    names = lays_snapshots(yard, [("a", moment) for moment in range(300)])
    with Server(yard.root, connections=9) as server:
        same([row.split()[0] for row in rows_of(told("snapshots", server.address))], sorted(names.values()))
        same(len(rows_of(told("forget", server.address, "--keep-last", 20))), 280)
        same({row.split()[0] for row in rows_of(told("snapshots", server.address))}, {names["a", moment] for moment in range(280, 300)})


@in_store
def forgetting_by_name(yard):
    """They are told ascending; one that isn't there is passed over, and one that is named twice goes once."""
    roots = [filled(yard.top / f"from{at}", {"x": b"%d" % at}) for at in range(4)]
    with Server(yard.root, connections=99) as server:
        names = [stored(server.address, root) for root in roots]
        gone = sorted(names[:3])
        same(rows_of(told("forget", server.address, *reversed(gone), "0" * 64, gone[0])), [f"forgotten {name}" for name in gone])
        same(told("forget", server.address, gone[0]), "0||")
        same(told("restore", server.address, gone[0], yard.top / "to"), f"1||missing snapshot\nsnapshot {gone[0]}\n")
        restores(server.address, names[3], yard.top / "to", {"x": b"3"})


@trial
def a_prune_removes_what_no_snapshot_needs():
    """A pack that is needed in part is written anew; then nothing is left but what snapshots need, and a second prune does nothing."""
    with Yard(*SMALL, is_store=True) as yard, Server(yard.root, connections=99) as server:
        files = {f"d{at}/{at}": hashlib.sha256(b"%d" % at).digest() * 9 for at in range(12)}
        names = [stored(server.address, filled(yard.top / "from", dict(part))) for part in (list(files.items())[:8], list(files.items())[8:])]
        same(told("prune", server.address), "0|pruned 0 0\n|")
        shutil.rmtree(yard.top / "from/d3")
        names.append(stored(server.address, yard.top / "from"))
        same(rows_of(told("forget", server.address, *names[:2])), [f"forgotten {name}" for name in sorted(names[:2])])
        packs, moved = matches(told("prune", server.address), r"0\|pruned (\d+) (\d+)\n\|")
        holds(int(packs) > 0 and int(moved) > 0, f"pruned {packs} {moved}")
        same(told("prune", server.address), "0|pruned 0 0\n|")
        is_clean(server.address)
        restores(server.address, names[2], yard.top / "to", entries(yard.top / "from"))
        same(rows_of(told("forget", server.address, names[2])), [f"forgotten {names[2]}"])
        matches(told("prune", server.address), r"0\|pruned [1-9]\d* 0\n\|")
        same([it for it in yard.root.rglob("*") if it.is_file() and it.parent != yard.root], [], "what is left")


@in_store
def locks_are_listed_refreshed_and_removed(yard):
    with Server(yard.root, connections=99) as server:
        same(told("locks", server.address), "0||")
        now = int(time.time())
        old, fresh = lock(server, moment=7, host="öde b".encode()), lock(server, moment=now)
        same(rows_of(told("locks", server.address)), [f"{old} shared 7 öde b", f"{fresh} shared {now} a"])
        same(told("refresh", server.address, old), "0|refreshed\n|")
        moment = int(rows_of(told("locks", server.address))[0].split()[2])
        holds(now <= moment <= time.time(), f"refreshed at {moment}")
        same(told("unlock", server.address), "0||")
        stale, last = lock(server, moment=now - 4000), lock(server, moment=now - 60)
        same(told("unlock", server.address), f"0|removed {stale}\n|")
        same(told("refresh", server.address, stale), "1||refused 2\n")
        same(rows_of(told("unlock", server.address, "--remove-all")), [f"removed {token}" for token in (old, fresh, last)])
        only = lock(server, is_exclusive=True, moment=9, host=b"h" * 255)
        same(told("locks", server.address), f"0|{only} exclusive 9 {'h' * 255}\n|")
        same(told("unlock", server.address), f"0|removed {only}\n|")


@in_store
def locks_exclude_each_other(yard):
    """A forget, a prune and a check want the store for themselves; backups, lists and restores share it."""
    root = filled(yard.top / "from", {"x": b"abc"})
    with Server(yard.root, connections=99) as server:
        name = stored(server.address, root)
        shared = lock(server)
        for words in (["forget", name], ["prune"], ["check"]):
            same(told(words[0], server.address, *words[1:]), "1||busy\n", words)
        gives_back(server.address, root, yard.top / "to")
        same(len(rows_of(told("snapshots", server.address))), 2)
        same(told("unlock", server.address, "--remove-all"), f"0|removed {shared}\n|")
        only = lock(server, is_exclusive=True)
        for words in (["forget", name], ["prune"], ["check"], ["snapshots"], ["backup", "h", root], ["restore", name, yard.top / "away"]):
            same(told(words[0], server.address, *words[1:]), "1||busy\n", words)
        same((yard.top / "away").exists() and entries(yard.top / "away") != {}, False)
        same(rows_of(told("locks", server.address)), [f"{only} exclusive 0 a"])


@in_store
def a_store_that_only_appends_deletes_nothing(yard):
    root = filled(yard.top / "from", {"x": b"abc"})
    with Server(yard.root, "--append-only", connections=99) as server:
        name = gives_back(server.address, root, yard.top / "to")
        same(told("forget", server.address, name), "1||refused 14\n")
        same(told("forget", server.address, "0" * 64), "0||")
        same(told("prune", server.address), "0|pruned 0 0\n|")
        is_clean(server.address)
        same(told("locks", server.address), "0||")
        yard.removes(f"snapshots/{name}")
    with Server(yard.root, "--append-only", connections=99) as server:
        before = sorted(it for it in yard.root.rglob("*") if it.is_file())
        same(told("prune", server.address), "1||refused 14\n")
        same([it for it in before if not it.exists()], [], "what is gone")
    with Server(yard.root, connections=99) as server:
        same(told("unlock", server.address, "--remove-all")[:2], "0|")
        same(told("prune", server.address), "0|pruned 1 0\n|")
        matches(told("backup", server.address, "h", root), STORED)
