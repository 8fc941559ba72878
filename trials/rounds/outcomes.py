"""How a job may end, by what happened in its round. A job that nothing disturbed ends well, or is busy beside another one."""
import re
from collections import Counter
from dataclasses import dataclass, field

from rounds.plans import FAILING, Job, Round

NAME = "[0-9a-f]{64}"
WELL = {
    "backup": rf"(0|3)\|stored {NAME} \d+ \d+\n\|(skipped [^\n]*\n)*",
    "restore": r"0\|complete \d+\n\|",
    "list": rf"0\|({NAME} \d+ \S+\n)*\|",
    "forget": rf"0\|(forgotten {NAME}\n)*\|",
    "policy": rf"0\|(forgotten {NAME}\n)*\|",
    "prune": r"0\|pruned \d+ \d+\n\|",
    "check": r"0\|clean \d+ \d+ \d+ \d+\n\|",
    "upgrade": r"0\|upgraded\n\|",
    "unlock": r"0\|(removed \d+\n)*\|",
}
# The same of the jobs that delete, if the store only appends. A forget by names has always something to delete, so it never ends well.
WELL_APPENDING = {"forget": "(?!)", "policy": r"0\|\|", "prune": r"0\|pruned 0 \d+\n\|"}
# How a check ends that reports faults.
FAULTS = rf"3\|(fault [a-z]+ {NAME} [a-z]+\n)+\|"
# The faults behind which a client may leave its lock.
LEAVING = ("read failed", "write failed", "not reached", "refused 10", "the store is another one")
BROKEN = "(read failed|write failed|not reached)"
# The jobs whose locks others may have beside them, and those whose locks exclude all others. To remove locks takes none.
SHARED, EXCLUSIVE = ("backup", "restore", "list"), ("forget", "policy", "prune", "check", "upgrade")


@dataclass
class Outcome:
    """What a job came to (its status, output and faults, with `|` between them), and when it ran. `names` are the snapshots that it is about."""

    job: Job
    host: str
    # The number of the job in its round. It names the folder of a restore.
    place: int | str
    got: str = ""
    begun: float = 0
    ended: float = 0
    names: set = field(default_factory=set)

    def is_well(self):
        return re.fullmatch(WELL[self.job.word], self.got, re.S) is not None

    def is_killed(self):
        return self.got.startswith("-9|")

    def lock(self):
        """The sort and the host of the lock that the job takes, as they are listed."""
        if self.job.word in SHARED:
            return "shared", self.host if self.job.word == "backup" else "vault"
        return "exclusive", "vault"


@dataclass
class Played:
    """A round that is played: what was drawn, the version of the store when it began, what has happened, and what each job came to."""

    it: Round
    machines: int
    version: int
    is_recorded: bool = False
    # Whether the store goes on from an image of a power cut in the round.
    is_laid: bool = False
    happened: list = field(default_factory=list)
    outcomes: list = field(default_factory=list)
    # The names of the snapshots, and the paths of the objects, when the round began.
    before: dict = field(default_factory=dict)
    objects: set = field(default_factory=set)

    def has(self, word, machine=None):
        """Whether this happened, to this machine or to any."""
        return any(each.word == word and machine in (None, each.number % self.machines) for each in self.happened)

    def words(self):
        return [each.word for each in self.happened]

    def of(self, *words):
        """What the jobs of these words came to."""
        return [outcome for outcome in self.outcomes if outcome.job.word in words]

    def hosts(self):
        """The machines that backed up something."""
        return {outcome.host for outcome in self.of("backup")}


def fails_writing(played):
    """Whether a failing call may have been one that writes a reply."""
    return any(each.word == "failing call" and FAILING[each.number % len(FAILING)][0] == "write" for each in played.happened)


def has_failing_device(played):
    return played.has("full disk") or played.has("failing call")


def may_be_broken(played, machine):
    """Whether a connection of a machine may have ended before its job did."""
    return played.has("kill server") or played.has("cut", machine) or fails_writing(played)


def may_lose_lock(played):
    """Whether somebody may have removed a lock that was in use."""
    return any("removed" in outcome.got or not outcome.is_well() for outcome in played.of("unlock"))


def may_leave_lock(played, outcome):
    """Whether a job may have left its lock. It was killed, or its connection or the store's device failed, or a power cut left the store as it was
    in the middle of the round. If the device failed when the lock was given back, the job itself ended well."""
    is_cut_off = outcome.got.startswith("-") or outcome.got.endswith(tuple(f"{fault}\n" for fault in LEAVING))
    return is_cut_off or has_failing_device(played) or played.is_laid


def excludes(one, other):
    """Whether the locks of two jobs can't stand side by side."""
    words = one.job.word, other.job.word
    return all(word in SHARED + EXCLUSIVE for word in words) and any(word in EXCLUSIVE for word in words)


def may_be_busy(played, outcome):
    """Whether the lock of another job may have stood against that of this one."""
    return any(excludes(outcome, other) and other.begun < outcome.ended and (outcome.begun < other.ended or may_leave_lock(played, other))
               for other in played.outcomes if other is not outcome)


def ends_of_connections(played, job):
    """The texts with which a job may end because of its connection, or because another store is at its end."""
    if has_failing_device(played):
        yield "refused 10"
    if may_be_broken(played, job.machine):
        yield BROKEN
        # Over a new connection a job goes on only if the store has the same config, and an upgrade changes that.
        if played.version == 1 and played.of("upgrade"):
            yield "the store is another one"


def ends_of_jobs(played, outcome):
    """The other texts with which a job may end that isn't done."""
    job = outcome.job
    if may_be_busy(played, outcome):
        yield "busy"
    if job.word in SHARED + EXCLUSIVE and may_lose_lock(played):
        yield rf"(fenced|missing (pack|index|snapshot|content|tree)(\n[a-z]+ {NAME})?)"
    if job.word in WELL_APPENDING and played.it.append_only:
        yield "refused 14"
    if job.word == "restore" and outcome.names & may_be_deleted(played):
        yield rf"missing snapshot\nsnapshot {NAME}"


def may_be_deleted(played):
    """The snapshots that a job of a round may have deleted."""
    if played.it.append_only:
        return set()
    return set().union(*(outcome.names for outcome in played.of("forget", "policy")))


def allowed(played, outcome):
    """The forms of what a job may come to."""
    job, connections = outcome.job, [*ends_of_connections(played, outcome.job)]
    yield WELL_APPENDING.get(job.word, WELL[job.word]) if played.it.append_only else WELL[job.word]
    first = {"unlock": r"1\|(removed \d+\n)*\|", "backup": r"1\|\|(skipped [^\n]*\n)*"}.get(job.word, r"1\|\|")
    yield from (rf"{first}{end}\n" for end in (*connections, *ends_of_jobs(played, outcome)))
    if job.word == "backup" and played.has("busy folder", job.machine):
        yield r"1\|\|unreadable [^\n]*\n"
        # If the lock isn't given back then, the text behind says why.
        yield from (rf"1\|\|unreadable [^\n]*\n{end}\n" for end in connections)
    if job.word == "check" and may_lose_lock(played):
        yield FAULTS


def is_allowed(played, outcome):
    if outcome.is_killed():
        return played.has("kill client", outcome.job.machine)
    return any(re.fullmatch(form, outcome.got, re.S) for form in allowed(played, outcome))


def surplus_locks(played, rows):
    """The locks that are left, of sort and host, and that no job can have left."""
    return Counter(rows) - Counter(outcome.lock() for outcome in played.outcomes if outcome.job.word != "unlock" and may_leave_lock(played, outcome))
