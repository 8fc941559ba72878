"""What is done to a store before, while and after a server stops: each life is a function over a machine.

Those by chance go by the machine's seed. In the others the server is killed, or a sync of it fails, at a place that is looked up before: the
sync of a folder behind a rename or an unlink in it.
"""
# Calls of which one is failed or interrupted by chance, and with which error.
FAILURES = [("fsync", "EIO"), ("fsync", "ENOSPC"), ("rename", "EIO"), ("write", "ENOSPC"), ("unlink,unlinkat", "EIO"), ("openat", "EMFILE")]
KILLS = ["fsync", "fsync", "rename", "openat", "write", "unlink,unlinkat"]


def begins(machine):
    machine.init()
    machine.serves()


def undisturbed(machine):
    """Backups of a folder that changes, a forget, prunes, a check; the server is started again in between."""
    begins(machine)
    first = machine.source()
    machine.backup(first)
    machine.backup(machine.source(first, 2))
    machine.forget(machine.names[0])
    machine.serves()
    machine.run("prune")
    machine.backup(machine.source(first, 2))
    machine.run("check")
    machine.run("forget", "--keep-last", 1)
    machine.run("prune")


def stops_at(machine, job, folder, is_last, how):
    """The server is killed in a sync of this folder that a job asks for, the first or the last one, or that sync fails."""
    opening, synced = machine.syncs_of(job)
    places = [at for at, path in enumerate(synced, 1) if at > opening and path == folder]
    if not places:
        raise AssertionError(f"the job has no sync of {folder}")
    place = places[-1 if is_last else 0]
    machine.serves(f"fsync:signal=SIGKILL:when={place}" if how == "killed" else f"fsync:error=EIO:when={place}")
    got = job()
    if how == "killed" and not machine.server.dies() or how != "killed" and "(INJECTED)" not in machine.logs[-1].read_text(errors="replace"):
        raise AssertionError(f"the sync of {folder} wasn't {how}: {got}")


def killed_behind_an_index(machine):
    """A server is killed in the sync of index/ behind an index's rename; another host backs up the same files over the next server."""
    begins(machine)
    source = machine.source(files=2)
    stops_at(machine, lambda: machine.backup(source), "index", True, "killed")
    machine.serves()
    machine.backup(source)
    machine.unlock()
    machine.backup(machine.source(source, 1))


def killed_behind_an_unlink(machine):
    """A prune's server is killed in the sync of index/ behind its unlink; over the next one a second prune ends, and the files are backed up."""
    begins(machine)
    source = machine.source(files=2)
    machine.backup(source)
    machine.forget()
    stops_at(machine, lambda: machine.run("prune"), "index", True, "killed")
    machine.serves()
    machine.unlock()
    machine.run("prune")
    machine.backup(source)


def killed_in_a_prune_of_two(machine):
    """The same where a second snapshot stays, and the prune makes a new index first: killed at its last sync of index/."""
    begins(machine)
    source = machine.source(files=3)
    machine.backup(source)
    machine.backup(machine.source(source, 2))
    machine.forget(machine.names.pop(0))
    stops_at(machine, lambda: machine.run("prune"), "index", machine.seed % 2 == 0, "killed")
    machine.serves()
    machine.unlock()
    machine.run("prune")
    machine.backup(source)


def killed_behind_a_forget(machine):
    """A forget's server is killed in the sync of snapshots/; over the next one it is asked again, and a prune follows."""
    begins(machine)
    source = machine.source(files=2)
    machine.backup(source)
    name = machine.names[0]
    stops_at(machine, lambda: machine.forget(name), "snapshots", True, "killed")
    machine.serves()
    machine.unlock()
    if machine.seed % 2:
        machine.forget(name)
    machine.run("prune")
    machine.backup(source)


def killed_behind_a_snapshot(machine):
    """A backup's server is killed in the sync of snapshots/; the next one lists it, and a forget and a prune of the others follow."""
    begins(machine)
    source = machine.source(files=2)
    machine.backup(source)
    other = machine.source(source, 1)
    stops_at(machine, lambda: machine.backup(other), "snapshots", True, "killed")
    machine.serves()
    machine.unlock()
    machine.run("forget", "--keep-last", 1)
    machine.run("prune")
    machine.backup(other)


def killed_behind_a_ledger(machine):
    """A server is killed in a sync of the store's own folder, behind the ledger's rename; the next one gives numbers on."""
    begins(machine)
    source = machine.source(files=1)
    stops_at(machine, lambda: machine.backup(source), ".", machine.seed % 2 == 0, "killed")
    machine.serves()
    machine.backup(source)
    machine.unlock()
    machine.run("locks")


def goes_on(machine, job, folder, is_last, behind):
    """A sync of a folder fails once, and the same server goes on with these."""
    begins(machine)
    source = machine.source(files=2)
    machine.backup(source)
    other = machine.source(source, 1)
    stops_at(machine, lambda: job(machine, other), folder, is_last, "failing")
    machine.unlock()
    behind(machine, other)


def sync_fails_behind_an_index(machine):
    """The sync of index/ behind an index's rename fails; over the same server the folder is backed up again."""
    goes_on(machine, lambda machine, other: machine.backup(other), "index", True, lambda machine, other: machine.backup(other))


def sync_fails_behind_an_unlink(machine):
    """The sync of index/ behind an unlink fails in a prune; over the same server a second one ends, and the folder is backed up."""
    def job(machine, _):
        return machine.run("prune")

    def behind(machine, other):
        machine.run("prune")
        machine.backup(other)
        machine.backup(list(machine.sources.values())[0][0])
    begins(machine)
    source = machine.source(files=2)
    machine.backup(source)
    machine.forget()
    stops_at(machine, lambda: job(machine, source), "index", True, "failing")
    machine.unlock()
    behind(machine, source)


def sync_fails_behind_a_forget(machine):
    """The sync of snapshots/ fails in a forget; over the same server a prune follows, and a backup."""
    def behind(machine, other):
        machine.run("prune")
        machine.backup(other)
    goes_on(machine, lambda machine, _: machine.forget(machine.names[0]), "snapshots", True, behind)


def jobs(machine, most=6):
    """Jobs by chance, until so many were run or the server is gone."""
    for _ in range(most):
        job = machine.chance.choice(["backup", "backup", "again", "forget", "prune", "snapshots"])
        if job in ("forget", "again") and not machine.sources or job == "backup":
            machine.backup(machine.source(machine.last() if machine.sources and machine.chance.random() < 0.7 else None, 3))
        elif job == "again":
            machine.backup(machine.chance.choice(list(machine.sources.values()))[0])
        elif job == "forget":
            machine.forget()
        else:
            machine.run(job)
        if machine.server is None or machine.server.is_dead():
            return


def kills(machine):
    """The server is killed at a call by chance, is started again, and the jobs go on; several times."""
    begins(machine)
    machine.backup(machine.source())
    for _ in range(machine.chance.randrange(1, 4)):
        if machine.serves(f"{machine.chance.choice(KILLS)}:signal=SIGKILL:when={machine.chance.randrange(3, 45)}"):
            jobs(machine)
        machine.serves()
        machine.unlock()
        jobs(machine, machine.chance.randrange(1, 4))


def failures(machine):
    """Calls by chance fail, once or again and again, and the same server goes on."""
    begins(machine)
    machine.backup(machine.source())
    for _ in range(machine.chance.randrange(1, 3)):
        call, error = machine.chance.choice(FAILURES)
        if machine.serves(f"{call}:error={error}:when={machine.chance.randrange(5, 30)}+{machine.chance.randrange(7, 60)}"):
            jobs(machine)
            machine.unlock()
            machine.backup(machine.last())
            machine.run("prune")
    machine.serves()
    machine.unlock()
    machine.backup(machine.last())


PLACED = [killed_behind_an_index, killed_behind_an_unlink, killed_in_a_prune_of_two, killed_behind_a_forget, killed_behind_a_snapshot,
          killed_behind_a_ledger, sync_fails_behind_an_index, sync_fails_behind_an_unlink, sync_fails_behind_a_forget]
BY_CHANCE = [undisturbed, kills, failures]
