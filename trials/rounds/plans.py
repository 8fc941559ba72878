"""What a campaign does, drawn from a seed: rounds of edits, jobs side by side and disturbances. A plan is data: it can be stored, played
again, and made smaller."""
import json
import random
from dataclasses import asdict, dataclass, field, replace
from pathlib import Path

# The numbers of a store, and the greatest file of a machine: tiny chunks, so that there are many objects; small ones; those of a store by default.
STORES = [("--min 64 --max 128 --bits 6 --target 1024", 2_000), ("--min 4096 --max 65536 --bits 12 --target 65536", 300_000),
          ("--min 4096 --max 65536 --bits 12 --target 65536", 1_000_000), ("", 40_000_000)]
JOBS = ["backup"] * 12 + ["restore"] * 5 + ["list"] * 3 + ["forget"] * 4 + ["policy"] * 2 + ["prune"] * 4 + ["check"] * 2 + ["upgrade", "unlock"]
DISTURBANCES = ["kill client"] * 4 + ["kill server"] * 5 + ["cut"] * 4 + ["stall"] * 2 + ["stop client"] * 2 + ["stop server"] * 2 + [
    "full disk", "failing call", "failing call", "clock", "remove locks", "remove locks", "busy folder", "take tokens", "take tokens"]
FAILING = [("fsync", "EIO"), ("fsync", "ENOSPC"), ("rename", "EIO"), ("write", "ENOSPC"), ("unlink,unlinkat", "EIO"), ("openat", "EMFILE"), ("getdents64", "EIO")]
# How many snapshots a large store begins with, each with an index and a pack of its own: more than a page of a list has.
MANY = 300
# The jobs of the first rounds of a large store, in which nothing is deleted.
GROWING = ["backup"] * 12 + ["restore"] * 5 + ["list"] * 3 + ["check"] * 2
GROWTH = 10
# A power cut comes each so many rounds.
CUTS = 10


@dataclass
class Job:
    """A command of a machine. The number picks a snapshot, or says how many a policy keeps."""

    machine: int
    word: str
    delay: float
    number: int = 0


@dataclass
class Disturbance:
    """What goes wrong after so many seconds, for so long; the number picks the machine, or the call that fails."""

    word: str
    at: float
    seconds: float
    number: int


@dataclass
class Round:
    number: int
    edits: list = field(default_factory=list)
    jobs: list = field(default_factory=list)
    disturbances: list = field(default_factory=list)
    append_only: bool = False
    prunes: bool = False
    is_cut: bool = False


@dataclass
class Plan:
    """A store, its machines, and their rounds. The store has `begun` snapshots before the first round."""

    seed: int
    machines: int
    at_once: int
    format: int
    numbers: str
    greatest: int
    begun: int = 0
    rounds: list = field(default_factory=list)

    def stores(self, path):
        Path(path).write_text(json.dumps(asdict(self)))


def read_plan(path):
    """A plan that was stored."""
    read = json.loads(Path(path).read_text())
    rounds = [Round(**{**it, "jobs": [Job(**job) for job in it["jobs"]], "disturbances": [Disturbance(**each) for each in it["disturbances"]]})
              for it in read.pop("rounds")]
    return Plan(**read, rounds=rounds)


def new_plan(seed, at_once, version):
    """A plan without rounds. Every second seed has a large store. What is given is taken in place of what is drawn, and changes nothing else
    that is drawn."""
    chance = random.Random(f"plan {seed}")
    numbers, greatest = chance.choice(STORES)
    plan = Plan(seed, chance.randrange(2, 7), chance.choice((1, 4, 8)), chance.choice((1, 2)), numbers, greatest)
    plan.begun = MANY * (seed % 2)
    plan.at_once, plan.format = at_once or plan.at_once, version or plan.format
    return plan


def drawn_round(plan, number):
    """The next round of a plan. It goes by the seed and its number alone."""
    chance = random.Random(f"round {plan.seed} {number}")
    machines = range(plan.machines)
    is_growing = plan.begun > 0 and number < GROWTH
    jobs = [Job(machine, chance.choice(GROWING if is_growing else JOBS), round(chance.random() ** 3 * 0.6, 3), chance.randrange(1 << 16))
            for machine in machines for _ in range(chance.choice((0, 1, 1, 1, 2)))]
    is_cut = number % CUTS == CUTS - 1
    disturbances = [Disturbance(chance.choice(DISTURBANCES), round(chance.random() ** 2 * 0.8, 3), round(chance.random() * 0.6, 3), chance.randrange(1 << 16))
                    for _ in range(0 if is_cut else chance.choice((0, 0, 1, 1, 1, 2, 3)))]
    return Round(number, [machine for machine in machines if chance.random() < 0.7], jobs, disturbances, chance.random() < 0.15,
                 chance.random() < 0.35 and not is_growing, is_cut)


def without(items, at):
    return items[:at] + items[at + 1:]


def windows(rounds):
    """The rounds without some that follow one another: first without most of them, at last without one."""
    length = len(rounds) * 7 // 8
    while length > 0:
        # What failed is judged behind the last round, so that one stays.
        for at in range(0, len(rounds) - 1, length):
            if rest := rounds[:at] + rounds[min(at + length, len(rounds) - 1):]:
                yield rest
        length //= 2


def without_machine(it, machine):
    """A round in which a machine does nothing."""
    return replace(it, edits=[each for each in it.edits if each != machine], jobs=[job for job in it.jobs if job.machine != machine])


def smaller_rounds(it):
    """A round without a job, a disturbance or an edit, or with one less to do behind it."""
    yield from (replace(it, jobs=without(it.jobs, at)) for at in range(len(it.jobs)))
    yield from (replace(it, disturbances=without(it.disturbances, at)) for at in range(len(it.disturbances)))
    yield from (replace(it, edits=without(it.edits, at)) for at in range(len(it.edits)))
    if it.append_only:
        yield replace(it, append_only=False)
    if it.prunes:
        yield replace(it, prunes=False)


def smaller(plan):
    """Plans that do a little less: first with an empty store, without many rounds, then without a machine, a round, a job, a disturbance or an edit."""
    rounds = plan.rounds
    if plan.begun:
        yield replace(plan, begun=0)
    for rest in windows(rounds):
        yield replace(plan, rounds=rest)
    for machine in reversed(range(plan.machines)):
        rest = [without_machine(it, machine) for it in rounds]
        if rest != rounds:
            yield replace(plan, rounds=rest)
    for at, it in enumerate(rounds):
        for each in smaller_rounds(it):
            yield replace(plan, rounds=[*rounds[:at], each, *rounds[at + 1:]])
