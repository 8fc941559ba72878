"""What is wrong behind a round: with what its jobs came to, and with the store, its server and its folder."""
import re
import shutil

from program import frame, number, read_frame

from rounds.histories import kept_by
from rounds.outcomes import NAME, WELL, is_allowed, may_be_deleted, surplus_locks
from rounds.pruned import faults_of_pruned
from rounds.trees import contents, has_odd_entries

# Behind a round many of the snapshots are restored that never were, and a few others by chance; each tenth round, and behind a power cut, many others.
OFTEN, FEW, MANY = 10, 3, 60
# A store of more bytes isn't read whole to see what takes room.
MOST_READ = 256 << 20
# A store keeps so many tokens that nobody has used yet.
MOST_FRESH = 1024


def rows_of(got):
    """The rows of a list of snapshots: name, time and host."""
    return [line.split(" ", 2) for line in got.split("|")[1].splitlines()]


# ---- what jobs came to


def judges_outcomes(campaign, played):
    """Takes what each job reported. Yields what nothing explains that happened."""
    # Backups come first, since a policy may forget what a backup of the same round stored. Then comes what may be deleted, since a list or a
    # restore may lack that.
    for outcome in played.of("backup"):
        yield from takes_backup(campaign, played, outcome)
    for outcome in played.of("policy"):
        outcome.names = may_forget(campaign, played, outcome)
    campaign.history.may_forget(may_be_deleted(played))
    for outcome in played.outcomes:
        if not is_allowed(played, outcome):
            yield f"{outcome.job.word} of {outcome.host} came to {outcome.got!r}, and what happened was {played.words()}"
    told = [name for outcome in played.of("forget", "policy") for name in re.findall(f"forgotten ({NAME})", outcome.got)]
    if len(told) != len(set(told)):
        yield f"one of {sorted(told)} was forgotten twice"
    for outcome in played.of("forget", "policy"):
        yield from takes_forget(campaign, played, outcome)
    for outcome in played.of("list"):
        yield from judges_list(played, outcome)
    for outcome in played.of("restore"):
        yield from judges_restore(campaign, played, outcome)


def takes_backup(campaign, played, outcome):
    """Takes what a backup reported. Its status says whether it left something out."""
    machine = campaign.machines[outcome.job.machine]
    name = re.match(rf"[03]\|stored ({NAME}) ", outcome.got)
    if not name:
        campaign.history.may_store(machine.host, machine.wanted)
        return
    campaign.history.stores(name[1], machine.host, machine.wanted)
    wanted = "3" if has_odd_entries(machine.folder) else "0"
    if outcome.got[0] != wanted and not played.has("busy folder", machine.number):
        yield f"the status of a backup that came to {outcome.got!r} isn't {wanted}"


def policy_of(job):
    """How many snapshots of a host a policy keeps, and how many days."""
    return 1 + job.number % 3, job.number // 3 % 2


def has_to_forget(played, outcome):
    """What a policy has to forget of the hosts that stored nothing in the same round, if nobody else forgets."""
    rows = [(it.host, it.time, name) for name, it in played.before.items() if it.host not in played.hosts()]
    return {name for _, _, name in rows} - kept_by(rows, *policy_of(outcome.job))


def may_forget(campaign, played, outcome):
    """What a policy may forget. Of a host that stored something in the same round that may be any of its snapshots."""
    return has_to_forget(played, outcome) | {name for host, _, name in campaign.history.rows() if host in played.hosts()}


def takes_forget(campaign, played, outcome):
    """Takes what a forget reported, which has to be each snapshot that it was to delete, and no other one."""
    if not outcome.is_well():
        return
    history, told = campaign.history, set(re.findall(f"forgotten ({NAME})", outcome.got))
    wanted = outcome.names if outcome.job.word == "forget" else has_to_forget(played, outcome)
    # A backup that didn't report how it ended may have stored what isn't known, and a policy may forget that.
    unknown = {name for name in told if name not in history.snapshots and name not in history.gone}
    may_be = unknown if outcome.job.word == "policy" and played.hosts() else set()
    if surplus := told - outcome.names - may_be:
        yield f"{sorted(surplus)} were forgotten, and nobody asked for it"
    if len(played.of("forget", "policy")) == 1 and (lacking := wanted - told):
        yield f"{outcome.job.word} of {outcome.host} didn't forget {sorted(lacking)}"
    for name in told:
        history.forgets(name)


def judges_list(played, outcome):
    """A list has each snapshot that was there before and that nobody deletes, and else only those of hosts that back up."""
    if not outcome.is_well():
        return
    rows = rows_of(outcome.got)
    names = [name for name, _, _ in rows]
    if names != sorted(set(names)):
        yield f"a list isn't in order: {names}"
    if lacking := set(played.before) - set(names) - may_be_deleted(played):
        yield f"a list lacks {sorted(lacking)}"
    for name, moment, host in rows:
        known = played.before.get(name)
        if known and (known.host, known.time) != (host, int(moment)) or not known and host not in played.hosts():
            yield f"a list has {name} of {host} at {moment}"


def restored(campaign, folder):
    """What a restore left in a folder, which is removed."""
    campaign.adds("comparisons")
    found = contents(folder) if folder.exists() else {}
    shutil.rmtree(folder, ignore_errors=True)
    return found


def judges_restore(campaign, played, outcome):
    """A restore that is complete gave exactly what was backed up. Of one that isn't each file under its own name is whole."""
    found = restored(campaign, campaign.restored_folder(outcome.place))
    for name in outcome.names:
        snapshot = played.before[name]
        if outcome.is_well():
            if not snapshot.matches(found):
                yield f"a complete restore of {name} gave other entries"
        elif snapshot.wanted is not None:
            other = [path for path, digest in found.items() if snapshot.wanted.get(path, "none") != digest and not re.search(r"(^|/)!restoring-\d+$", path)]
            if other:
                yield f"a restore of {name} that was cut off left {other[:3]}"


# ---- the store


def judges_store(campaign, played, chance):
    """What is wrong with the store, now that nobody works."""
    campaign.store.rests()
    yield from judges_locks(campaign, played)
    yield from judges_tokens(campaign)
    yield from judges_config(campaign, played)
    if played.it.append_only and not played.is_laid and (lacking := played.objects - campaign.store.objects()):
        yield f"a store that only appends lost {sorted(lacking)}"
    yield from judges_objects(campaign)
    yield from judges_snapshots(campaign, played, chance)
    if played.it.prunes and not played.it.append_only:
        yield from judges_prune(campaign)
    yield from holds_token(campaign)
    campaign.store.rests()
    yield from campaign.store.faults_at_rest()


def judges_locks(campaign, played):
    """Only jobs that were cut off left locks, each its own. They are removed."""
    got = campaign.asks("locks")
    if not re.fullmatch(r"0\|(\d+ (shared|exclusive) \d+ \S+\n)*\|", got):
        yield f"locks came to {got!r}"
        return
    rows = [line.split(" ", 3) for line in got.split("|")[1].splitlines()]
    if surplus := surplus_locks(played, [(sort, host) for _, sort, _, host in rows]):
        yield f"the locks {dict(surplus)} are left, by {[(outcome.job.word, outcome.got) for outcome in played.outcomes]}, and what happened was {played.words()}"
    got = campaign.asks("unlock", "--remove-all")
    if not re.fullmatch(WELL["unlock"], got) or got.count("\n") != len(rows):
        yield f"unlock came to {got!r}"


def judges_tokens(campaign):
    """No token was given twice. Those that nobody had used behind the last round are still good, and the last of them is so for a lock."""
    fresh = campaign.store.fresh_tokens()
    if len(fresh) < MOST_FRESH and (lost := campaign.fresh - fresh):
        yield f"the tokens {sorted(lost)} were given before the round, weren't used, and aren't in the ledger any more"
    if campaign.held:
        lock = frame(2, number(campaign.held), b"\0", number(0), b"\1a")
        replies = answers(campaign, lock, frame(4, number(campaign.held), sequence=2))
        if replies != [frame(130), frame(130, sequence=2)]:
            yield f"a lock of the token {campaign.held}, which was given before the round, is answered {[reply.hex() for reply in replies]}"
    if campaign.tokens.twice:
        yield f"the tokens {sorted(campaign.tokens.twice)} were given twice"


def holds_token(campaign):
    """Takes a token, which is to be used behind the next round."""
    reply, = answers(campaign, frame(1))
    if reply[:-8] != frame(129, number(0))[:-8]:
        yield f"a ticket is answered {reply.hex()}"
    campaign.held, campaign.fresh = int.from_bytes(reply[-8:], "big"), campaign.store.fresh_tokens()


def answers(campaign, *requests):
    """What the server answers to requests, one after another over one connection."""
    replies = []
    with campaign.own.connected() as client:
        for request in requests:
            client.sendall(request)
            replies.append(read_frame(client))
    return replies


def judges_config(campaign, played):
    """The version goes from 1 to 2 in a round that upgrades, and stays so; all else in the config stays as it was."""
    config = campaign.store.config()
    upgrades = played.of("upgrade")
    is_done = any(outcome.is_well() for outcome in upgrades) and not played.is_laid
    wanted = {2} if played.version == 2 or is_done else {1, 2} if upgrades else {1}
    if config["version"] not in wanted or config | {"version": 0} != campaign.config | {"version": 0}:
        yield f"the config is {config}, behind version {played.version} and {[outcome.got for outcome in upgrades]}"


def judges_objects(campaign):
    """A check is clean, and it and the list have all that is in the folder."""
    counts = {folder: sum(path.startswith(f"{folder}/") for path in campaign.store.objects()) for folder in ("snapshots", "index", "data")}
    got = campaign.asks("check")
    if not re.fullmatch(rf"0\|clean {counts['snapshots']} {counts['index']} {counts['data']} \d+\n\|", got):
        yield f"a check came to {got!r}, of {counts}"
    got = campaign.asks("snapshots")
    if not re.fullmatch(rf"0\|({NAME} \d+ \S+\n){{{counts['snapshots']}}}\|", got):
        yield f"a list came to {got!r}, of {counts}"
        return
    yield from campaign.history.faults(rows_of(got))


def judges_snapshots(campaign, played, chance):
    """Each snapshot restores to what was backed up, the same byte for byte."""
    snapshots = campaign.history.snapshots
    unread = [name for name in sorted(snapshots) if not snapshots[name].was_restored]
    others = [name for name in sorted(snapshots) if snapshots[name].was_restored]
    count = MANY if played.it.number % OFTEN == 0 or played.is_laid else FEW
    for name in sorted(chance.sample(unread, min(MANY, len(unread))) + chance.sample(others, min(count, len(others)))):
        folder = campaign.restored_folder("last")
        got = campaign.asks("restore", name, folder)
        found = restored(campaign, folder)
        if not re.fullmatch(WELL["restore"], got) or not snapshots[name].matches(found):
            yield f"the restore of {name} came to {got!r}, or to other entries"
        snapshots[name].was_restored = True


def judges_prune(campaign):
    """Behind a prune a store has just what its snapshots need, once."""
    got = campaign.asks("prune")
    if not re.fullmatch(WELL["prune"], got):
        yield f"a prune came to {got!r}"
    if campaign.store.size() > MOST_READ:
        campaign.adds("stores too large to read")
        return
    campaign.adds("stores read")
    yield from faults_of_pruned(campaign.store.store)
