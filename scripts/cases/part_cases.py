"""Cases of directories in parts, as snapshots of version 2 have them: laid by hand, small as they are, and read by every client."""

import random

from check_cases import GONE, nested
from feed_cases import fed, file
from line_cases import plays
from naming import name_of
from plays import Player
from prune_cases import ABC, DE, Objects, laid
from texts import GREATEST_VERSION, config_text, dir_node, dump, file_node, part_text, snapshot_text, tree_text
from world_cases import stored


def held(name, data):
    """The node of a file of one blob."""
    return file_node(name, len(data), [name_of(data)])


def chain(*parts):
    """The texts of the parts with these nodes, from the first to the last; behind them goes on what a name gives that stands last."""
    *parts, following = parts if isinstance(parts[-1], (bytes, type(None))) else (*parts, None)
    texts = []
    for nodes in reversed(parts):
        texts.insert(0, part_text(nodes, name_of(texts[0]) if texts else following))
    return texts


def with_next(nodes, value):
    """A tree whose member `next` has any value."""
    return dump({"next": value, "nodes": nodes})


def store_of(texts, roots, contents=(ABC, DE)):
    """Trees and content in a pack, beside one blob that nobody needs, and snapshots, each a tree and a version."""
    objects = Objects().packed(*[("content", data) for data in contents], *[("tree", text) for text in dict.fromkeys(texts)])
    objects.packed(("content", b"not needed"))
    for time, (root, version) in enumerate(roots):
        objects.add("snapshot", snapshot_text("a", time, 1, name_of(root), version))
    return objects


def sound():
    """Directories that every reader finds whole."""
    a, b, c = held("a", ABC), held("b", DE), file_node("c", 0, [])
    three = chain([a], [b], [c])
    yield "three parts", three, [(three[0], 2)]
    yield "three parts, of which a snapshot of version 1 has the first alone", three, [(three[0], 1), (three[0], 2)]
    yield "the same, the one of version 2 first", three, [(three[0], 2), (three[0], 1)]
    yield "three parts, at each of which a directory of its own begins", three, [(text, 2) for text in three]
    yield "a first part without nodes", chain([], [a], [b]), [(chain([], [a], [b])[0], 2)]
    one = tree_text([a, b])
    yield "one part, as version 1 has it", [one], [(one, 1), (one, 2)]
    below = chain([a], [b])
    above = chain([dir_node("d", name_of(below[0])), held("e", ABC)], [dir_node("f", name_of(below[0])), dir_node("g", name_of(below[1]))])
    yield "parts below parts", below + above, [(above[0], 2)]
    yield "parts below parts, of which version 1 sees less", below + above, [(above[0], 1), (above[0], 2)]
    deep = nested(below[0], 99)
    yield "parts at a path of 99 components", deep + below, [(deep[-1], 2)]
    empty = nested(chain([], [a])[0])
    yield "parts at a path of 100 components, of which version 1 sees none", empty + chain([], [a]), [(empty[-1], 1)]


def broken():
    """Directories that a reader of version 2 finds broken, most of which one of version 1 finds whole."""
    a, b = held("a", ABC), held("b", DE)
    for text, texts in (
            ("a later part without nodes", chain([a], [])), ("a later part without nodes, in the middle", chain([a], [], [b])),
            ("a later part without nodes, behind which names fall", chain([b], [], [a])),
            ("two parts without nodes", chain([], [])), ("a name in both parts", chain([a], [a])),
            ("names that fall from part to part", chain([b], [a])), ("names that fall from the second part to the third", chain([a], [b], [b])),
            ("a later part that is no tree", [part_text([a], name_of(b"{}")), b"{}"]),
            ("a later part that is a file's bytes", chain([a], name_of(DE))), ("a later part in no index", chain([a], GONE)),
            ("a later part of which a file has another size", chain([a], [file_node("b", 4, [name_of(ABC)])])),
            ("a later part of which content is in no index", chain([a], [file_node("b", 4, [GONE])])),
            ("a part that breaks and lists what is in no index", chain([b], [dir_node("a", GONE)])),
            ("a part that breaks and goes on in one that is in no index", chain([b], [a], GONE))):
        yield text, texts, [(texts[0], 2)]
        yield text + ", and a snapshot of version 1", texts, [(texts[0], 1), (texts[0], 2)]
    for text, value in (("null", None), ("a number", 1), ("a list", []), ("too short", "0" * 63), ("upper case", GONE.hex().upper().replace("0", "A")), ("empty", "")):
        tree = with_next([a], value)
        yield f"a `next` that is {text}", [tree], [(tree, 2)]
        yield f"a `next` that is {text}, and a snapshot of version 1", [tree], [(tree, 2), (tree, 1)]
        later = [part_text([a], name_of(with_next([b], value))), with_next([b], value)]
        yield f"a `next` that is {text}, of a later part", later, [(later[0], 2), (later[0], 1)]
    deep = chain([], [a])
    below = nested(deep[0])
    yield "a part with nodes at a path of 100 components, behind one without", below + deep, [(below[-1], 2)]
    deep = chain([a], [b])
    below = nested(deep[0])
    yield "two parts with nodes at a path of 100 components", below + deep, [(below[-1], 2)]


def read(script):
    """A store of a list and a check, whose snapshots are restored one by one, and what a prune leaves of it."""
    for text, texts, roots in [*sound(), *broken()]:
        script.heading("directories in parts: " + text)
        objects = store_of(texts, roots)
        laid(script, objects)
        script.config(config_text(version=GREATEST_VERSION))
        script.steps(script.start_list())
        script.steps(script.start_check())
        names = [name for kind, name, _ in objects.all if kind == "snapshot"]
        for name in names:
            script.steps(script.start_restore(name))
        script.steps(script.start_prune())
        script.report()
        for name in names:
            script.finish(script.start_restore(name))
        script.finish(script.start_check())
        script.report()


def forgotten(script):
    """What a prune leaves once the snapshot of one version is gone, of two that have the same tree."""
    texts = chain([held("a", ABC)], [held("b", DE)])
    for version in (1, 2):
        script.heading(f"directories in parts: the snapshot of version {version} is forgotten, and its other parts are pruned")
        objects = store_of(texts, [(texts[0], 1), (texts[0], 2)])
        laid(script, objects)
        script.config(config_text(version=GREATEST_VERSION))
        first, second = [name for kind, name, _ in objects.all if kind == "snapshot"]
        script.finish(script.start_forget(first if version == 1 else second))
        script.finish(script.start_prune())
        script.steps(script.start_restore(second if version == 1 else first))
        script.steps(script.start_check())
        script.report()


def spoiled(script):
    """Each byte of the parts of a small store is turned: a check tells it, and a restore gives nothing wrong."""
    texts = chain([held("a", ABC)], [held("b", DE)])
    script.heading("directories in parts: each byte of a pack turned, and it cut at each length")
    laid(script, store_of(texts, [(texts[0], 2)]))
    script.config(config_text(version=GREATEST_VERSION))
    script.spoil("pack", store_of(texts, [(texts[0], 2)]).all[0][1], "same")


def large(script):
    """A directory of three parts, each of which makes a pack due; and a file whose chunks fit no tree."""
    script.heading("60,000 directories with names of 255 bytes, in version 2")
    script.fresh()
    script.config(config_text(version=GREATEST_VERSION))
    script.many_dirs(60_000)
    stored(script, [])
    script.finish(script.start_check())
    script.finish(script.start_prune())
    script.many_dirs(60_000)
    stored(script, [], "b", 2)
    script.report()
    for version in (1, 2):
        script.heading(f"a file of 126,563 chunks, in version {version}")
        script.fresh(64, 64, 6, 1_024)
        script.config(config_text(64, 64, 6, 1_024, version))
        stored(script, [(["x"], bytes(8_100_000))])
        script.report()


def old_clients(script):
    """Clients that know version 1 alone: at a store of version 2; and at a snapshot of it, which they meet where their lock was removed
    before they list."""
    upgraded = "file x 616263\nstart backup a 1\nfinish 0\nstart upgrade\nfinish 1\n"
    for job in ("backup b 2", "pieces b 2", "restore 0", "list", "forget 0", "keep 1 0", "prune", "check", "upgrade"):
        plays(script, f"an old client at a store of version 2: {job}", upgraded + f"file y 64\nold start {job}\nfinish 2\nreport\n")
    for job in ("list", "keep 1 0", "prune", "check"):
        plays(script, f"an old client that meets a snapshot of version 2: {job}",
              f"old start {job}\nuntil 0 list\nunlock 1\nstart upgrade\nfinish 1\nfile x 616263\nstart backup a 1\nfinish 2\nfinish 0\nreport\n")


# What is done at a store by clients of both ages, but for backups and upgrades.
JOBS = ("list", "prune", "check", "keep 2 1")


class Chance:
    """Lines by chance, of new clients and old ones, with upgrades among them. The reference plays them as they are made, so that
    each speaks of what is there."""

    def __init__(self, seed):
        self.chance, self.lines, self.player = random.Random(seed), [], Player()

    def line(self, text):
        self.lines.append(text)
        self.player.run(len(self.lines), text.encode())

    def stored(self):
        """The clients that stored a snapshot."""
        return [place for place, seat in enumerate(self.player.seats) if seat.client.outcome and seat.client.outcome.name and seat.client.job.role == "backup"
                and seat.client.outcome.text.startswith("stored")]

    def starts(self, job):
        self.line(f"{self.chance.choice(('', '', 'old '))}start {job}")
        if self.chance.random() < 0.8:
            self.line(f"finish {len(self.player.seats) - 1}")

    def backs_up(self):
        self.line("dir d")
        self.line(f"file d/{self.chance.choice('abc')} {self.chance.choice(('-', '616263', '64' * 90))}")
        self.starts(f"backup {self.chance.choice('ab')} {len(self.player.seats)}")

    def is_fed(self):
        self.starts("pieces c 5")
        client = len(self.player.seats) - 1
        for line in (fed(client, *file("x", b"abc"), "end") + f"finish {client}").splitlines():
            self.line(line)

    def happens(self, client):
        self.line(self.chance.choice((f"step {client}", f"late {client}", f"unlock {self.chance.randrange(1, len(self.player.seats) + 2)}", "restart", "report",
                                      f"fault {client} {self.chance.choice(('applied', 'unapplied'))}", f"until {client} put-snapshot", f"until {client} upgrade")))

    def one(self):
        roll, stored = self.chance.random(), self.stored()
        if roll < 0.3 or not self.player.seats:
            self.backs_up()
        elif roll < 0.4:
            self.is_fed()
        elif roll < 0.5:
            self.starts("upgrade")
        elif roll < 0.65:
            self.starts(self.chance.choice(JOBS))
        elif roll < 0.8 and stored:
            self.starts(f"restore {self.chance.choice(stored)}")
        else:
            self.happens(self.chance.randrange(len(self.player.seats)))

    def text(self, count):
        for _ in range(count):
            self.one()
        clients = len(self.player.seats)
        ends = [f"finish {client}" for client in range(clients)] + [f"unlock {token}" for token in range(1, 2 * clients + 2)]
        return "\n".join([*self.lines, *ends, "start check", f"finish {clients}", "start prune", f"finish {clients + 1}", "report", ""])


def by_chance(script):
    """Clients of both ages around upgrades."""
    for seed in range(40):
        plays(script, f"old clients, new ones and upgrades, by chance: {seed}", Chance(seed).text(14 + seed))


ALL = [read, forgotten, spoiled, large, old_clients, by_chance]
