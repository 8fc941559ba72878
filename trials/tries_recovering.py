"""`scripts/recover.py`, which recovers a snapshot from a store's folder without the program and without a server."""
import random
import shutil
import subprocess
import sys

from program import Server, matches
from trying import ROOT, WAIT, holds, same, trial
from yards import Yard, entries, filled, stored

NUMBERS = ("--min", 4096, "--max", 65536, "--bits", 13, "--target", 65536)


def runs(*words):
    """It is run with these words: its status, and what it prints and tells."""
    run = subprocess.run([sys.executable, "-B", str(ROOT / "scripts/recover.py"), *map(str, words)], capture_output=True, text=True, timeout=WAIT)
    return run.returncode, run.stdout, run.stderr


def recovered(yard, name):
    """What it tells, and what is there then."""
    target = yard.top / "again"
    shutil.rmtree(target, ignore_errors=True)
    return *runs(yard.root, name, target), entries(target)


@trial
def a_store_is_recovered_without_the_program():
    """Whole, without its indexes, and without a pack: then what needs that pack is left out, and nothing else differs."""
    with Yard(*NUMBERS, is_store=True) as yard:
        chance = random.Random(3)
        files = {f"d/{at}": chance.randbytes(60_000) for at in range(8)} | {"empty/": b"", "nothing": b"", "ä, ö, 海": b"the sea", "same": b"the sea"}
        root = filled(yard.top / "from", files)
        with Server(yard.root) as server:
            name = stored(server.address, root)
        wanted = entries(root)
        same(recovered(yard, name), (0, f"recovered {len(wanted)} lost 0\n", "", wanted))
        yard.at("index").rename(yard.top / "kept")
        yard.makes("index")
        same(recovered(yard, name), (0, f"recovered {len(wanted)} lost 0\n", "", wanted))
        yard.at("index").rmdir()
        (yard.top / "kept").rename(yard.at("index"))
        packs = sorted((it for it in yard.at("data").rglob("*") if it.is_file()), key=lambda it: -it.stat().st_size)
        holds(len(packs) > 4, f"{len(packs)} packs")
        packs[0].unlink()
        status, told_so, faults, there = recovered(yard, name)
        lost = set(wanted) - set(there)
        same((status, told_so), (1, f"recovered {len(there)} lost {len(lost)}\n"))
        holds(0 < len(lost) < len(wanted) and packs[0].name in faults, f"{lost} are lost: {faults}")
        same(there, {path: data for path, data in wanted.items() if path not in lost})


@trial
def snapshots_that_lack_something_are_named():
    """A lost or a flipped pack spoils just the snapshots that need it, and a flipped snapshot itself; without its indexes a store lacks nothing."""
    with Yard(*NUMBERS, is_store=True) as yard:
        chance, root, names = random.Random(5), yard.top / "from", []
        with Server(yard.root, connections=9) as server:
            for at in range(3):
                filled(root, {f"d{at}/x": chance.randbytes(30_000)})
                names.append(stored(server.address, root))
                shutil.rmtree(root / "d1", ignore_errors=True)
        same(runs("--spoiled", yard.root), (0, "", ""))
        lacking = {}
        for pack in (it for it in yard.at("data").rglob("*") if it.is_file()):
            data = pack.read_bytes()
            for spoil in (pack.unlink, lambda pack=pack, data=data: pack.write_bytes(bytes([data[0] ^ 1]) + data[1:])):
                spoil()
                status, told_so, faults = runs("--spoiled", yard.root)
                lacking[pack] = told_so.split()
                wanted = sorted(name for name in names if recovered(yard, name)[0] == 1)
                same((status, lacking[pack]), (1 if wanted else 0, wanted), pack.name)
                holds(pack.name in faults, f"{pack.name} is not told of: {faults}")
                pack.write_bytes(data)
        same(sorted({len(it) for it in lacking.values()}), [1, 3], "snapshots that lack something")
        yard.at("index").rename(yard.top / "kept")
        same(runs("--spoiled", yard.root), (0, "", ""))
        (yard.at("snapshots") / names[0]).write_text("{}")
        same(runs("--spoiled", yard.root)[:2], (1, names[0] + "\n"))
        for words in ((), (yard.root, "more"), (yard.top / "kept",)):
            same(runs("--spoiled", *words)[:2], (2, ""), words)


@trial
def the_recovery_holds_on_stores_that_are_laid_out_by_hand():
    run = subprocess.run([sys.executable, "-B", str(ROOT / "scripts/recover-test.py")], capture_output=True, text=True, timeout=WAIT)
    same((run.returncode, run.stderr), (0, ""))
    matches(run.stdout, r"\d+ recoveries and \d+ lines of the page as wanted\n")
