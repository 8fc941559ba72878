"""What a store has to hold: the snapshots that were reported stored, those that may be there, and those that may be gone."""
from dataclasses import dataclass, field


@dataclass
class Snapshot:
    """What a snapshot has to restore to. If nobody reported it stored, that is one of the `candidates`, and isn't known before it is restored."""

    host: str
    wanted: dict | None
    time: int = 0
    may_be_gone: bool = False
    was_restored: bool = False
    candidates: list = field(default_factory=list)

    def matches(self, restored):
        """Whether a restored folder is what the snapshot has to have."""
        if self.wanted is None and restored in self.candidates:
            self.wanted = restored
        return restored == self.wanted


@dataclass
class History:
    """The snapshots by their names. Of the round that is played `perhaps` has by hosts what backups were given that didn't report how they ended,
    and `forgotten` the snapshots that went, as far as they are known. `gone` has the names of all that ever went."""

    snapshots: dict = field(default_factory=dict)
    perhaps: dict = field(default_factory=dict)
    forgotten: dict = field(default_factory=dict)
    gone: set = field(default_factory=set)

    def begins_round(self):
        """What no backup reported by now never comes any more, and what a forget left stays."""
        self.perhaps, self.forgotten = {}, {}
        for snapshot in self.snapshots.values():
            snapshot.may_be_gone = False

    def stores(self, name, host, wanted):
        self.snapshots[name] = Snapshot(host, wanted)

    def may_store(self, host, wanted):
        self.perhaps.setdefault(host, []).append(wanted)

    def names(self):
        return sorted(self.snapshots)

    def may_forget(self, names):
        """A forget was started that may delete these."""
        for name in names:
            if name in self.snapshots:
                self.snapshots[name].may_be_gone = True

    def forgets(self, name):
        """This one went. It may be one that nobody reported stored."""
        self.forgotten[name] = self.snapshots.pop(name, None)
        self.gone.add(name)

    def goes_on_with(self, names):
        """The store is one that a power cut in this round left, and has these snapshots. A backup may get the name of one that the cut took."""
        self.gone -= set(self.forgotten)
        known = self.snapshots | {name: snapshot for name, snapshot in self.forgotten.items() if snapshot}
        self.snapshots = {name: snapshot for name, snapshot in known.items() if name in names}
        for snapshot in self.snapshots.values():
            snapshot.may_be_gone = False

    def rows(self):
        """Of each known snapshot its host, time and name."""
        return [(it.host, it.time, name) for name, it in self.snapshots.items()]

    def faults(self, listed):
        """Takes the rows that are listed now, of name, time and host. Yields each snapshot that is there and can't be, or isn't there and has to be."""
        for name, moment, host in listed:
            yield from self.faults_of(name, host)
            if name not in self.snapshots:
                self.snapshots[name] = Snapshot(host, None, candidates=self.perhaps.get(host, []))
            self.snapshots[name].time = int(moment)
        for name in set(self.snapshots) - {row[0] for row in listed}:
            if not self.snapshots[name].may_be_gone:
                yield f"the snapshot {name} of {self.snapshots[name].host} was reported stored, and isn't there"
            self.forgets(name)

    def faults_of(self, name, host):
        """What is wrong if a snapshot of this name and host is there."""
        if name in self.gone:
            yield f"the snapshot {name} was forgotten, and is there"
        elif name not in self.snapshots and host not in self.perhaps:
            yield f"the snapshot {name} of {host} is there, and nobody stored it"
        elif name in self.snapshots and self.snapshots[name].host != host:
            yield f"the snapshot {name} of {self.snapshots[name].host} is there as one of {host}"


def kept_by(rows, last, daily):
    """The names that a policy keeps of rows of host, time and name."""
    kept = set()
    for host in {row[0] for row in rows}:
        own = sorted((row[1:] for row in rows if row[0] == host), reverse=True)
        kept |= {name for _, name in own[:last]}
        days = []
        for moment, name in own:
            if moment // 86_400 not in days:
                days.append(moment // 86_400)
                if len(days) <= daily:
                    kept.add(name)
    return kept
