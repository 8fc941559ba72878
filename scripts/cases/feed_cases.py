"""Cases of scripts with backups that are fed: what each item comes to, where locks are lost, devices fail and others come between."""

import random

from line_cases import backups, plays, restores
from piece_cases import stream
from plays import Player

LAST = "start check\nfinish {0}\nreport\n"


def fed(client, *items):
    """The lines that feed a client items, each a word or a word and what it is of."""
    return "".join(f"feed {client} {item}\n" for item in items)


def piece(data):
    return f"bytes {data.hex() or '-'}"


def file(name, *pieces):
    """The items of a file that comes in pieces."""
    return [f"file {name}", *[piece(data) for data in pieces], "close"]


def begun(client, host="a", time=5):
    """A client that wants its first item."""
    return f"start pieces {host} {time}\nfinish {client}\n"


def items(script):
    """What each item comes to, by where the client stands."""
    every = ("dir d", "file f", "file ..", "bytes 61", "bytes -", "close", "end", "abandon")
    for item in every:
        rest = fed(0, "dir e", *file("g", b"abc"), "close", "end") + "finish 0\nstart restore 0\nfinish 1\nreport\n"
        for where, lines in (("before its ticket is answered", "start pieces a 5\n"), ("before its config is read", "start pieces a 5\nuntil 0 config\n"),
                             ("where it wants its first", begun(0)), ("in a directory", begun(0) + fed(0, "dir c")),
                             ("in a file", begun(0) + fed(0, "file c")), ("in a file with some bytes", begun(0) + fed(0, "file c", "bytes 616263")),
                             ("behind a file", begun(0) + fed(0, *file("f", b"a"))), ("while a pack is put", begun(0) + fed(0, "file c", piece(stream(2_000)))),
                             ("behind its end", begun(0) + fed(0, "end")), ("once it is given up", begun(0) + fed(0, "abandon")),
                             ("once it is stored", begun(0) + fed(0, "end") + "finish 0\n")):
            plays(script, f"a backup that is fed {item!r} {where}", lines + fed(0, item) + "report\nfinish 0\n" + fed(0, "close", "close") + rest)
    for item in every:
        plays(script, f"a backup that isn't fed, fed {item!r}; one that crashed; and one that isn't begun",
              "file x 61\nstart backup a 1\nfinish 0\nstart list\nstart prune\n" + begun(3) + "crash 3\n" + fed(0, item) + fed(1, item) + fed(2, item) + fed(3, item) + "report\n"
              + fed(4, item) + "report\n")


def faults(script):
    """The first fault of an item that has several."""
    deep = fed(0, *["dir d"] * 100)
    for text, lines in (("a bad name in a file", fed(0, "file f", "file ..", "dir a/b", "dir .")), ("a bad name in the deepest directory", deep + fed(0, "file .", "file f", "dir d")),
                        ("a name that is too long", fed(0, "dir " + "n" * 256, "dir " + "n" * 255)),
                        ("names that don't ascend", fed(0, "dir b", "close", "file b", "dir a", "file c", "close", "dir c")),
                        ("names by their bytes", fed(0, "dir B", "close", "dir a", "close", "dir Z", "file -", "dir é", "close", "dir z"))):
        plays(script, f"faults of items: {text}", begun(0) + lines + "report\n" + fed(0, "abandon") + "finish 0\nreport\n")
    plays(script, "faults of items: before the one that is taken, again and again",
          begun(0) + "".join(fed(0, "close", "bytes 61", *file(name, b"x"), "file " + name) for name in "abc") + fed(0, "end") + "finish 0\n" + LAST.format(1))


def packs(script):
    """Files over several packs, fed in pieces of several lengths: of a piece so many bytes are taken as make a pack due."""
    data = stream(5_000)
    for size in (5_000, 1_300, 200, 64):
        player, lines = Player(), begun(0) + fed(0, "file a")
        for place, line in enumerate(lines.splitlines(), 1):
            player.run(place, line.encode())
        for place in range(0, len(data), size):
            left = data[place:place + size]
            while left:
                lines += fed(0, piece(left)) + "finish 0\n"
                left = left[taken(player, 0, left):]
        plays(script, f"a file of several packs, fed in pieces of {size} bytes", lines + fed(0, "close", "end") + "finish 0\nstart restore 0\nfinish 1\nreport\n")
    many = [item for number in range(40) for item in file(f"{number:02}", stream(40 + 20 * number))]
    lines = begun(0) + fed(0, "dir d") + "".join(fed(0, item) + "finish 0\n" for item in many) + fed(0, "close") + "finish 0\n" + fed(0, "end") + "finish 0\n"
    plays(script, "small files that fill packs, and a directory's tree at its end", lines + "start restore 0\nfinish 1\nreport\n")
    plays(script, "the same blobs again, fed and whole", lines + f"file d {data.hex()}\nstart backup b 6\nfinish 1\n" + begun(2, "c", 7) + fed(2, "file d", piece(data), "close", "end")
          + "finish 2\nstart restore 2\nfinish 3\nreport\n")


def taken(player, client, data):
    """Feeds a piece to the reference's client: how many bytes of it were taken, whose pack is put then."""
    told = player.on_feed(client, "bytes", [data])
    player.on_finish(client)
    if not told:
        return len(data)
    words = told.split()
    assert words[-2] == "took", told
    return int(words[-1])


def disturbed(script):
    """At each request of a backup that is fed something happens, and others come behind it."""
    steps = fed(0, "file a", piece(stream(1_100))) + "{0}finish 0\n" + fed(0, piece(stream(2_200)[1_100:])) + "{1}finish 0\n" + fed(0, "close", *file("b", b"b"), "end") + "{2}finish 0\n"
    behind = "file c 63\nstart backup b 6\nfinish 1\nstart restore 1\nfinish 2\n" + "start check\nfinish 3\nreport\nlate 0\nreport\n"
    ways = {"its lock is removed": "unlock 1\n", "it crashes, and its request comes late": "late 0\ncrash 0\nunlock 1\n", "the store is closed and opened": "restart\n",
            "all requests come again": "replay\n", "the device fails behind its change": "fault 0 applied\n", "the device fails before its change": "fault 0 unapplied\n",
            "somebody else prunes": "start prune\nfinish 1\nstart list\nfinish 2\n", "it is given up": fed(0, "abandon")}
    for way, lines in ways.items():
        for place in range(3):
            plays(script, f"a backup that is fed, at its request {place}: {way}", begun(0) + steps.format(*[lines * (at == place) for at in range(3)]) + behind)
        plays(script, f"a backup that is fed, while it wants input: {way}", begun(0) + fed(0, "file a", "bytes 6162") + lines + fed(0, "bytes 63", "close", "end") + "finish 0\n" + behind)
        for word in ("ticket", "lock", "config", "list", "put-index", "put-snapshot", "unlock"):
            begins = f"start pieces a 5\nuntil 0 {word}\n" if word in ("ticket", "lock", "config", "list") else begun(0) + fed(0, *file("a", b"abc"), "end") + f"until 0 {word}\n"
            plays(script, f"a backup that is fed, at its {word}: {way}", begins + lines + "finish 0\n" + fed(0, *file("a", b"abc"), "end") + "finish 0\n" + behind)
    plays(script, "an old backup that is fed, before an upgrade and behind it",
          "old start pieces a 5\nfinish 0\n" + fed(0, *file("x", b"a"), "end") + "finish 0\nstart upgrade\nfinish 1\nold start pieces a 6\nfinish 2\n" + fed(2, "end") + begun(3) + fed(3, "end") + "report\n")
    plays(script, "where the store only appends", "append-only\n" + begun(0) + fed(0, *file("x", b"abc"), "end") + "finish 0\nstart restore 0\nfinish 1\nreport\n")


class Chance:
    """Lines by chance, of clients of which some are fed."""

    def __init__(self, seed):
        self.chance, self.lines, self.fed, self.clients, self.names = random.Random(seed), [], [], 0, 0

    def starts(self):
        job = self.chance.choice(("pieces", "pieces", "pieces", "backup", "prune", "list", "keep 1 1", "check"))
        if job == "backup":
            self.lines.append(f"file {self.chance.choice('abc')} {stream(self.chance.choice((3, 90, 400))).hex()}")
            job += f" {self.chance.choice('ab')} {self.clients}"
        elif job == "pieces":
            self.fed.append(self.clients)
            job += f" {self.chance.choice('ab')} {self.clients}"
        self.lines.append(f"start {job}")
        self.clients += 1
        if self.chance.random() < 0.8:
            self.lines.append(f"finish {self.clients - 1}")

    def feeds(self):
        client = self.chance.choice(self.fed[-2:] if self.chance.random() < 0.95 else self.fed)
        data = stream(self.chance.choice((0, 3, 64, 90, 400, 1_500)))
        self.names += 1
        name = self.chance.choice("abc") if self.chance.random() < 0.1 else f"n{self.names:03}"
        weights = {f"dir {name}": 2, f"file {name}": 4, piece(data): 6, "close": 5, "end": 1, "abandon": 0.1, "file ..": 0.2}
        self.lines.append(f"feed {client} " + self.chance.choices([*weights], [*weights.values()])[0])
        if self.chance.random() < 0.6:
            self.lines.append(f"finish {client}")

    def happens(self):
        client = self.chance.randrange(self.clients)
        self.lines.append(self.chance.choice((f"step {client}", f"finish {client}", f"late {client}", f"unlock {self.chance.randrange(1, self.clients + 2)}", "restart",
                                              f"fault {client} {self.chance.choice(('applied', 'unapplied'))}", f"until {client} put-pack", "report",
                                              f"crash {client}" if self.chance.random() < 0.2 else "report", "replay" if self.chance.random() < 0.1 else "restart")))

    def text(self, count):
        for _ in range(count):
            if not self.fed or self.chance.random() < 0.08:
                self.starts()
            elif self.chance.random() < 0.75:
                self.feeds()
            else:
                self.happens()
        ends = [f"finish {client}" for client in range(self.clients)] + [f"unlock {token}" for token in range(1, 2 * self.clients + 2)]
        return "\n".join([*self.lines, *ends, "start check", f"finish {self.clients}", "report", ""])


def by_chance(script):
    for seed in range(40):
        plays(script, f"backups that are fed, and others, by chance: {seed}", Chance(seed).text(30 + 2 * seed))


def many(script):
    """Two backups that are fed in turn, beside one that is whole: they share what both make."""
    both = "".join(fed(client, f"file {name}", piece(stream(700))) + f"finish {client}\n" + fed(client, "close") + f"finish {client}\n"
                   for name in "ab" for client in (0, 1))
    plays(script, "two backups that are fed in turn", "start pieces a 1\nstart pieces b 2\nfinish 0\nfinish 1\n" + both + fed(0, "end") + fed(1, "end") + "finish 1\nfinish 0\n"
          + backups(("c", 3), first=2) + restores((0, 1, 2), 3) + LAST.format(6))


ALL = [items, faults, packs, disturbed, many, by_chance]
