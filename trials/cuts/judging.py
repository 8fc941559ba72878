"""Goes through the calls of a life, and judges what a power cut would leave of the disk after each of them."""
import copy
import random
import shutil
from collections import Counter
from dataclasses import dataclass, field

from program import Server, frame, told
from yards import entries

from cuts.answers import Answers
from cuts.calls import events
from cuts.disk import Disk, cuts
from cuts.images import Image, Reader, faults_of, shortened

STORE = "/store"


@dataclass
class Found:
    """What came of the images: how many there were, how many were opened by the program, and how often each fault came."""

    images: int = 0
    opened: int = 0
    faults: Counter = field(default_factory=Counter)
    first: str = ""

    def adds(self, where, faults):
        for fault in {shortened(fault) for fault in faults}:
            self.faults[fault] += 1
        self.first = self.first or (f"{where}: {faults[0]}" if faults else "")


class Judge:
    """Follows a machine's disk, and what its servers acknowledged."""

    def __init__(self, machine, few):
        self.machine, self.few, self.chance = machine, few, random.Random(machine.seed)
        self.disk, self.answers, self.reader = Disk(machine.disk), Answers(), Reader()
        self.disk.all_lasts()
        self.is_made, self.ledgers, self.configs, self.seen, self.kept, self.found, self.calls = False, set(), set(), set(), [], Found(), 0

    def follows(self, log, number):
        self.disk.starts()
        for event in events(log, self.machine.disk):
            if event[0] == "asked":
                self.answers.asked((number, event[1]), event[2])
            elif event[0] in ("replied", "told"):
                if self.acknowledges(event, number):
                    self.judges(f"behind answer {self.answers.count}", True)
            else:
                self.changes(event)

    def acknowledges(self, event, number):
        """Whether something was acknowledged: then no ledger from before it will do, and no config."""
        if event[0] == "told":
            is_whole = event[1].startswith(b"created ")
            self.is_made = self.is_made or is_whole
        else:
            is_whole = self.answers.replied((number, event[1]), event[2])
        ledger, config = self.nodes()
        if is_whole and ledger and (event[0] == "told" or self.answers.of_ledger):
            self.ledgers = {ledger.now}
        if is_whole and config and (event[0] == "told" or self.answers.of_config):
            self.configs = {config.now}
        return is_whole

    def nodes(self):
        """The files of the ledger and of the config."""
        return self.disk.get(self.machine.store / "ledger"), self.disk.get(self.machine.store / "config")

    def changes(self, event):
        before = self.nodes()
        self.disk.apply(event)
        for kept, old, new in zip((self.ledgers, self.configs), before, self.nodes()):
            if new is not None and new is not old:
                kept.add(new.now)
        if event[0] != "close" and not (event[0] == "open" and not event[2]):
            self.calls += 1
            # The 256 folders in data/ are alike.
            if self.is_made or self.calls % 40 == 0 or event[0] in ("rename", "write"):
                self.judges(f"behind call {self.calls}, {event[0]}", False)

    def judges(self, where, is_answer):
        """Looks at the images that a cut now may leave."""
        for model, (files, folders) in cuts(self.disk, self.chance, self.few):
            key = hash((frozenset((path, self.reader.name(data)) for path, data in files.items()), len(folders), self.answers.count,
                        len(self.answers.objects), len(self.answers.forgotten)))
            if key in self.seen:
                continue
            self.seen.add(key)
            self.found.images += 1
            faults = faults_of(Image(self.reader, STORE, files, folders), self.answers, self.ledgers, self.configs, self.is_made)
            self.found.adds(f"{model}, {where}", faults)
            if self.is_made and (is_answer and model.endswith("lost") or bool(faults) or self.chance.random() < 0.02):
                self.kept.append((bool(faults), f"{model}, {where}", files, folders, copy.copy(self.answers.due()), max(self.answers.tokens, default=0)))

    def opens(self, most):
        """Has the program serve some of the images, and judges by what it restores."""
        self.chance.shuffle(self.kept)
        faulty, good = [each for each in self.kept if each[0]], [each for each in self.kept if not each[0]]
        for each in faulty[:most // 4] + good[:most - min(len(faulty), most // 4)]:
            self.found.opened += 1
            faults = opened(self.machine, *each[2:], is_deep=self.found.opened % 4 == 0)
            self.found.adds(f"with the program, {each[1]}", [f"with the program: {fault}" for fault in faults])


def laid(root, files, folders):
    """Makes an image a folder."""
    shutil.rmtree(root, ignore_errors=True)
    root.mkdir()
    for path in sorted(folders):
        (root / path[1:]).mkdir()
    for path, data in files.items():
        (root / path[1:]).write_bytes(data)


def opened(machine, files, folders, due, token, is_deep):
    """What is wrong with an image when it is served: no number is given twice, a check is clean, and each snapshot is restored."""
    root = machine.top / "image"
    laid(root, files, folders)
    try:
        with Server(root / STORE[1:], connections=999) as server:
            return list(looked_at(machine, server, root, due, token, is_deep))
    except AssertionError as error:
        return [str(error)]
    finally:
        shutil.rmtree(root)


def looked_at(machine, server, root, due, token, is_deep):
    reply = server.asked(frame(1).hex())
    if len(reply) != 74 or int(reply[58:], 16) <= token:
        yield f"the ticket was answered {reply}, behind token {token}"
    for words in (["unlock", "--remove-all"], ["check"]):
        got = told(words[0], server.address, *words[1:])
        if not got.startswith(("0|removed", "0||", "0|clean ")):
            yield f"{words[0]}: {got}"
    listed = [line.split(" ") for line in told("snapshots", server.address).split("|")[1].splitlines()]
    yield from (f"snapshots/{name} isn't listed" for name in due - {row[0] for row in listed})
    for name, _, host in listed:
        yield from restored(machine, server, root, name, machine.sources[host][1], "acknowledged" if name in due else "not acknowledged")
    for source, wanted in list(machine.sources.values())[-2:] if is_deep else []:
        got = told("backup", server.address, "behind", source)
        if not got.startswith("0|stored "):
            yield f"a backup behind it: {got}"
        else:
            yield from restored(machine, server, root, got.split()[1], wanted, "of a backup behind it")
    if is_deep and not told("prune", server.address).startswith("0|pruned "):
        yield "a prune behind it ends otherwise"


def restored(machine, server, root, name, wanted, what):
    to = root / "again"
    got = told("restore", server.address, name, to)
    if not got.startswith("0|complete ") or entries(to) != wanted:
        yield f"the restore of snapshots/{name}, {what}: {got}"
    shutil.rmtree(to, ignore_errors=True)


def judged(machine, few, most):
    """Judges all that a machine did: so many images by chance at each cut, and at most so many that are opened by the program."""
    judge = Judge(machine, few)
    for number, log in enumerate(machine.logs):
        judge.follows(log, number)
    judge.opens(most)
    return judge.found
