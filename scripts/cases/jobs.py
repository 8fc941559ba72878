"""The clients: a backup, a restore, a list of snapshots and a forget, as what each asks after which replies."""

from dataclasses import dataclass

from chunks import chunks, length_of
from frames import Message
from naming import BLOB_LARGEST, name_of
from texts import (GREATEST_VERSION, OtherVersion, Unreadable, dir_node, directory_texts, file_node, goes_on, index_text, is_component,
                   pack_of, read_config, read_index, read_part, read_snapshot, snapshot_text)

DEEPEST = 100
INDEX_BLOBS = 20_000
# How many bytes of a file come at a time.
PIECE = 4_096
PACK_BLOBS = 4_096
DAY = 86_400


@dataclass
class Outcome:
    """How a job ended: its words, and what they are about."""
    text: str
    name: bytes | None = None
    rows: list | None = None
    forgotten: list | None = None
    faults: list | None = None


class End(Exception):
    """A job that didn't do what it was for."""

    def __init__(self, text, name=None):
        super().__init__(text)
        self.outcome = Outcome(text, name)


class StartRefused(Exception):
    """What no job is begun with, entries or a policy, and the number of the reason."""


def refusal(ask, code):
    """The end that a refusal is a cause of."""
    if code == 2:
        return End("fenced")
    if code == 3 and ask[0] == "lock":
        return End("busy")
    if code == 5 and ask[0] == "get":
        return End("missing " + ask[1], ask[2])
    if code == 5 and ask[0] == "range":
        return End("missing pack", ask[1])
    return End(f"refused {code}")


def asked(ask, sort):
    """Asks, and gives what is said, which has to be of a sort."""
    say = yield ask
    if say[0] == "refused":
        raise refusal(ask, say[1])
    if say[0] != sort:
        raise End("badreply")
    return say[1:]


def listed(kind):
    """All names of a kind, page by page."""
    names, after = [], None
    while True:
        more, page = yield from asked(("list", kind, after), "names")
        for name in page:
            if after is not None and name <= after:
                raise End("badreply")
            after = name
        if more and not page:
            raise End("badreply")
        names += page
        if not more:
            return names


def got(kind, name, read):
    """An object that is read whole."""
    data, = yield from asked(("get", kind, name), "bytes")
    try:
        if name_of(data) != name:
            raise Unreadable("another name")
        return read(data)
    except OtherVersion:
        raise End("version")
    except Unreadable:
        raise End("bad " + kind, name)


def facts_of_indexes():
    """The facts of all indexes."""
    facts = []
    for name in (yield from listed("index")):
        facts += yield from got("index", name, read_index)
    return facts


def snapshot_got(name, upto):
    """A snapshot of a version up to this one: its host, time, token, tree and version."""
    return (yield from got("snapshot", name, lambda data: read_snapshot(data, upto)))


def snapshots_read(upto):
    """All snapshots, as rows of name, host, time and token."""
    rows = []
    for name in (yield from listed("snapshot")):
        host, time, token, _, _ = yield from snapshot_got(name, upto)
        rows.append((name, host, time, token))
    return rows


def config_read(upto):
    data, = yield from asked(("config",), "bytes")
    try:
        return read_config(data, upto)
    except OtherVersion:
        raise End("version")
    except Unreadable:
        raise End("badreply")


class Client:
    """One job of one client: what is pending, how it ended, what the last reply gave out, and what all did. An old client knows version 1 alone."""

    def __init__(self, job, instance, host, time, old=False):
        self.job, self.instance, self.host, self.time = job, instance, host, time
        self.upto = 1 if old else GREATEST_VERSION
        self.sequence, self.pending, self.outcome, self.emitted, self.given = 0, None, None, [], []
        self.steps = self.run()
        self.send(next(self.steps))

    def send(self, ask):
        self.sequence += 1
        self.pending = Message(self.instance, self.sequence, ask)

    def take(self, reply):
        """Takes a reply. One that isn't to the pending request changes nothing."""
        if (reply.instance, reply.sequence) != (self.instance, self.sequence) or not self.pending:
            return
        self.emitted = []
        try:
            self.send(self.steps.send(reply.what))
        except StopIteration:
            self.pending = None
        self.given += self.emitted

    def exchanges(self, store):
        """Brings it to its end at a store: what it asks, and what is said to it."""
        while self.pending:
            request = self.pending
            say = store.answer(request.what)
            self.take(request.reply(say))
            yield request.what, say

    def finish(self, store):
        """Brings it to its end at a store: how many exchanges that took, and what it gave out."""
        before = len(self.given)
        return sum(1 for _ in self.exchanges(store)), self.given[before:]

    def run(self):
        """All that it asks, from its ticket to its unlock."""
        try:
            self.token, = yield from asked(("ticket",), "token")
            yield from asked(("lock", self.token, self.job.exclusive, self.time, self.host), "done")
        except End as end:
            self.outcome = end.outcome
            return
        try:
            self.config = yield from config_read(self.upto)
            self.outcome = yield from self.job.run(self)
        except End as end:
            self.outcome = end.outcome
            if end.outcome.text == "fenced":
                return
        yield ("unlock", self.token)


class List:
    """A list of the snapshots."""
    role, exclusive = "list", False

    def run(self, client):
        rows = yield from snapshots_read(client.upto)
        return Outcome(f"listed {len(rows)}", rows=rows)


def kept(rows, last, daily):
    """The names that a policy keeps of rows (name, host, time, token): of each host, ordered by time and name, the last
    ones, and the last one of each of the last days that have one."""
    names = set()
    for host in {row[1] for row in rows}:
        own = sorted((row[2], row[0]) for row in rows if row[1] == host)
        names |= {name for _, name in own[max(len(own) - last, 0):]}
        days = {time // DAY: name for time, name in own}
        names |= {days[day] for day in sorted(days, reverse=True)[:daily]}
    return names


def gone(rows, policy, host=None):
    """The names of those of the rows that a policy doesn't keep, in their order; with a host of its rows alone."""
    own = [row for row in rows if host is None or row[1] == host]
    stay = kept(own, *policy)
    return [row[0] for row in own if row[0] not in stay]


class Forget:
    """A forget of the snapshots of some names, or of those that a policy doesn't keep: (last, daily), of one host or of all."""
    role, exclusive = "forget", True

    def __init__(self, names=(), policy=None, host=None):
        if policy == (0, 0):
            raise StartRefused(1)
        self.names, self.policy, self.host = names, policy, host

    def chosen(self, client):
        if self.policy is None:
            return [name for name in (yield from listed("snapshot")) if name in self.names]
        return gone((yield from snapshots_read(client.upto)), self.policy, self.host)

    def run(self, client):
        chosen = yield from self.chosen(client)
        for name in chosen:
            yield from asked(("delete", client.token, "snapshot", name), "done")
        return Outcome(f"forgotten {len(chosen)}", forgotten=chosen)


class Restore:
    """A restore of one snapshot."""
    role, exclusive = "restore", False

    def __init__(self, snapshot):
        self.snapshot, self.entries = snapshot, 0

    def run(self, client):
        self.client = client
        _, _, _, root, self.version = yield from snapshot_got(self.snapshot, client.upto)
        self.places = {}
        for kind, name, place in (yield from facts_of_indexes()):
            self.places[kind, name] = min(place, self.places.get((kind, name), place))
        yield from self.walk(root, [])
        return Outcome(f"complete {self.entries}")

    def place(self, kind, name):
        if (kind, name) not in self.places:
            raise End("missing " + kind, name)
        return self.places[kind, name]

    def blob(self, kind, name):
        """A blob's bytes, from its place."""
        place = self.place(kind, name)
        data, = yield from asked(("range", *place), "bytes")
        if len(data) != place[2] or name_of(data) != name:
            raise End("bad " + kind, name)
        return data

    def emit(self, word, what=None):
        self.client.emitted.append((word, what))

    def walk(self, tree, path):
        """A directory: each of its trees whole, and then node by node."""
        before = None
        while tree is not None:
            nodes, following = yield from self.part(tree, path)
            if before is not None and not goes_on(before, nodes):
                raise End("bad tree", tree)
            for node in nodes:
                yield from self.node(node, tree, path + [node["name"]])
            before, tree = nodes, following

    def part(self, tree, path):
        """The nodes of a tree at a path, and the name in which its directory goes on."""
        data = yield from self.blob("tree", tree)
        try:
            nodes, following = read_part(data, self.version)
        except Unreadable:
            raise End("bad tree", tree)
        if nodes and len(path) == DEEPEST:
            raise End("bad tree", tree)
        return nodes, following

    def node(self, node, tree, path):
        if node["type"] == "file":
            yield from self.file(node, tree, path)
        else:
            self.entries += 1
            self.emit("dir", "/".join(path))
            yield from self.walk(bytes.fromhex(node["subtree"]), path)

    def file(self, node, tree, path):
        content = [bytes.fromhex(name) for name in node["content"]]
        if sum([self.place("content", name)[2] for name in content]) != node["size"]:
            raise End("bad tree", tree)
        self.entries += 1
        self.emit("file", "/".join(path))
        for name in content:
            self.emit("piece", (yield from self.blob("content", name)))
        self.emit("close")


def check_entries(entries):
    """Refuses entries, one by one: (path, None) for a directory, (path, bytes) for a file."""
    before, dirs = None, {()}
    for path, data in entries:
        if not path or not all(is_component(name) for name in path):
            raise StartRefused(1)
        key = [name.encode() for name in path]
        if before is not None and key <= before or tuple(path[:-1]) not in dirs:
            raise StartRefused(2)
        if len(path) > DEEPEST:
            raise StartRefused(3)
        before = key
        if data is None:
            dirs.add(tuple(path))


class Backup:
    """A backup of entries, each (path, None) or (path, bytes)."""
    role, exclusive = "backup", False

    def __init__(self, entries):
        check_entries(entries)
        self.below = {}
        for path, data in entries:
            self.below.setdefault(tuple(path[:-1]), []).append((path, data))
        self.blobs, self.bytes = 0, 0
        self.open, self.waiting = [], []

    def run(self, client):
        self.client = client
        self.known = {(kind, name) for kind, name, _ in (yield from facts_of_indexes())}
        root = yield from self.directory([])
        return (yield from self.finished(root))

    def finished(self, root):
        """Puts what is left, and the snapshot of a tree."""
        if self.open:
            yield from self.put_pack()
        if self.waiting:
            yield from self.put_index()
        text = snapshot_text(self.client.host, self.client.time, self.client.token, root, self.client.config[4])
        yield from self.put("snapshot", text)
        return Outcome(f"stored {self.blobs} {self.bytes}", name_of(text))

    def put(self, kind, data):
        yield from asked(("put", self.client.token, kind, name_of(data), data), "done")

    def put_pack(self):
        data, places = pack_of(self.open)
        yield from self.put("pack", data)
        self.waiting.append((name_of(data), places))
        self.blobs += len(self.open)
        self.bytes += sum(len(blob) for _, blob in self.open)
        self.open = []
        if sum(len(places) for _, places in self.waiting) >= INDEX_BLOBS:
            yield from self.put_index()

    def put_index(self):
        yield from self.put("index", index_text(self.waiting))
        self.waiting = []

    def add(self, kind, data):
        """Adds a blob that isn't there, and puts the pack where it is due."""
        name = name_of(data)
        if (kind, name) not in self.known:
            self.known.add((kind, name))
            self.open.append((kind, data))
            if sum(len(blob) for _, blob in self.open) >= self.client.config[3] or len(self.open) == PACK_BLOBS:
                yield from self.put_pack()
        return name

    def directory(self, path):
        """Adds what is below a directory, and then its tree."""
        nodes = []
        for below, data in self.below.get(tuple(path), []):
            if data is None:
                nodes.append(dir_node(below[-1], (yield from self.directory(below))))
            else:
                nodes.append((yield from self.file(below[-1], data)))
        return (yield from self.trees(nodes))

    def trees(self, nodes):
        """Adds the trees of a directory: the name of the one with which it begins."""
        version = self.client.config[4]
        for text in directory_texts(nodes, version):
            if len(text) > BLOB_LARGEST:
                raise End("file too large" if version == 2 else "directory too large")
            name = yield from self.add("tree", text)
        return name

    def file(self, name, data):
        content = []
        for chunk in chunks(data, *self.client.config[:3]):
            content.append((yield from self.add("content", chunk)))
        return file_node(name, len(data), content)


def spelled(word, what):
    """An item as a word of a line."""
    if what is None:
        return word
    return f"{word}:{what.hex() or '-' if word in ('bytes', 'rest') else what}"


class Pieces(Backup):
    """A backup that is fed items, each a word and what it is of. Of a piece of which a part was taken the rest is fed next.
    `words` is how it is fed: at `go` what is pending is answered. `said` is what it says to each item."""

    def __init__(self, items):
        super().__init__([])
        self.items, self.words, self.said = items, [], []
        self.above, self.name, self.nodes, self.last = [], None, [], ""
        self.file = None
        self.puts, self.taken = 0, 0

    def run(self, client):
        self.client = client
        self.known = {(kind, name) for kind, name, _ in (yield from facts_of_indexes())}
        self.words.append("go")
        for word, what in self.items:
            outcome = yield from self.fed(word, what)
            if outcome is not None:
                return outcome

    def put(self, kind, data):
        self.puts += 1
        return (yield from super().put(kind, data))

    def says(self, word, *said):
        self.words.append(word)
        self.said.append(said)

    def fed(self, word, what):
        """Feeds an item, a piece as often as it takes."""
        code = self.fault(word, what)
        if code is not None and word == "rest":
            self.says(spelled(word, what), "place", 0)
            self.said.append(("refused", code))
        elif code is not None:
            self.says(spelled(word, what), "refused", code)
        elif word == "abandon":
            self.says(word, "took", 0)
            self.words.append("go")
            raise End("abandoned")
        elif word == "end":
            self.says(word, "took", 0)
            self.says(word, "refused", 6)
            self.words.append("go")
            return (yield from self.finished((yield from self.tree())))
        elif word == "bytes":
            yield from self.pieces(what)
        elif word == "rest":
            yield from self.rest_of_file(what)
        else:
            yield from self.told(spelled(word, what), {"dir": self.enter, "file": self.begin, "close": self.close}[word](what))

    def told(self, item, step):
        """Does a step, which may put a pack: then it wants nothing more until that is done."""
        puts = self.puts
        taken = (yield from step) or 0
        self.says(item, "took", taken)
        if self.puts > puts:
            for busy in ("close", "abandon", "file:.."):
                self.says(busy, "refused", 6)
            self.words.append("go")
        return taken

    def pieces(self, data):
        while True:
            taken = yield from self.told(spelled("bytes", data), self.piece(data))
            data = data[taken:]
            if not data:
                return

    def rest_of_file(self, data):
        """Feeds the rest of the open file and its end as a list, which is answered at once."""
        puts = self.puts
        taken = yield from self.piece(data)
        while taken < len(data):
            taken += yield from self.piece(data[taken:])
        yield from self.close(None)
        self.says(spelled("rest", data), "answered", self.puts - puts)

    def fault(self, word, what):
        """The number of the first reason why an item isn't taken."""
        if word in ("dir", "file"):
            if not is_component(what):
                return 1
            if self.file is not None or what.encode() <= self.last.encode():
                return 2
            if len(self.above) >= DEEPEST:
                return 3
        wrong = {"bytes": self.file is None, "rest": self.file is None, "close": self.file is None and not self.above,
                 "end": self.file is not None or bool(self.above)}
        return 2 if wrong.get(word) else None

    def enter(self, name):
        yield from ()
        self.above.append((self.name, self.nodes))
        self.name, self.nodes, self.last = name, [], ""

    def begin(self, name):
        yield from ()
        self.file, self.last, self.size, self.rest, self.content = name, name, 0, b"", []

    def piece(self, data):
        """Takes a piece, as far as the chunk with which a pack is put: how many bytes."""
        puts, self.taken = self.puts, 0
        while self.taken < len(data) and self.puts == puts:
            held = self.rest + data[self.taken:]
            length = length_of(held + b"\0", *self.client.config[:3])
            if length > len(held):
                self.rest, self.taken = held, len(data)
            else:
                self.taken += length - len(self.rest)
                self.rest = b""
                self.content.append((yield from self.add("content", held[:length])))
        self.size += self.taken
        return self.taken

    def tree(self):
        """Adds the trees of the open directory."""
        return (yield from self.trees(self.nodes))

    def close(self, _):
        """Closes the open file, else the open directory."""
        if self.file is not None:
            if self.rest:
                self.content.append((yield from self.add("content", self.rest)))
            self.nodes.append(file_node(self.file, self.size, self.content))
            self.file = None
        else:
            node = dir_node(self.name, (yield from self.tree()))
            self.last = self.name
            self.name, self.nodes = self.above.pop()
            self.nodes.append(node)


# What a job asks for that wants an item.
WANT = ("want",)


class Fed(Pieces):
    """A backup that is fed items by somebody else, one after another."""

    def __init__(self):
        super().__init__([])

    def run(self, client):
        self.client = client
        self.known = {(kind, name) for kind, name, _ in (yield from facts_of_indexes())}
        while True:
            word, what = yield WANT
            if word == "abandon":
                raise End("abandoned")
            if word == "end":
                return (yield from self.finished((yield from self.tree())))
            yield from {"dir": self.enter, "file": self.begin, "bytes": self.piece, "close": self.close}[word](what)


class FedClient(Client):
    """The client of such a backup."""

    def send(self, ask):
        self.wants = ask == WANT
        if self.wants:
            self.pending = None
        else:
            super().send(ask)

    def feed(self, word, what=None):
        """Feeds an item: the number of the reason why it isn't taken, if it isn't, and how many bytes of a piece were."""
        if not self.wants or self.outcome:
            return 6, 0
        code = self.job.fault(word, what)
        if code is not None:
            return code, 0
        self.job.taken = 0
        self.send(self.steps.send((word, what)))
        return None, self.job.taken


def items_of(entries):
    """Entries as items, as they come from a source that lists directories: those on the way to an entry are entered."""
    path = []
    for names, data in entries:
        name, outer = (names or [""])[-1], names[:-1]
        while path != outer[:len(path)]:
            path.pop()
            yield "close", None
        for below in outer[len(path):]:
            path.append(below)
            yield "dir", below
        if data is None:
            path.append(name)
            yield "dir", name
            continue
        yield "file", name
        for at in range(0, len(data), PIECE):
            yield "bytes", data[at:at + PIECE]
        yield "close", None
    for _ in path:
        yield "close", None
    yield "end", None
