"""The clients of a prune and of an upgrade, and what prune and check share: where blobs lie, and which of them each pack has."""

from jobs import DEEPEST, INDEX_BLOBS, PACK_BLOBS, End, Outcome, asked, got, listed, snapshot_got
from naming import name_of
from texts import GREATEST_VERSION, Unreadable, goes_on, index_text, pack_of, read_index, read_next, read_tree


def least_places(facts):
    """Of each blob, by kind and name, the least of its places."""
    places = {}
    for kind, name, place in facts:
        places[kind, name] = min(place, places.get((kind, name), place))
    return places


def all_places(facts):
    """Of each blob, by kind and name, its places, ascending."""
    places = {}
    for kind, name, place in sorted(set(facts), key=lambda fact: fact[2]):
        places.setdefault((kind, name), []).append(place)
    return places


def by_pack(facts):
    """The facts of each pack, each once, by their places."""
    packs = {}
    for fact in sorted(set(facts), key=lambda fact: fact[2]):
        packs.setdefault(fact[2][0], []).append(fact)
    return packs


class Prune:
    """A prune: what no snapshot reaches goes, and what stays is packed and indexed without it."""
    role, exclusive = "prune", True

    def __init__(self):
        self.nodes, self.seen, self.content = {}, set(), []
        self.open, self.new, self.bytes = [], [], 0

    def run(self, client):
        self.client = client
        roots = []
        for name in (yield from listed("snapshot")):
            *_, root, version = yield from snapshot_got(name, client.upto)
            roots.append((root, version == 2))
        indexes, facts = (yield from listed("index")), []
        for name in indexes:
            facts += yield from got("index", name, read_index)
        packs = yield from listed("pack")
        missing = {pack for _, _, (pack, _, _) in facts} - set(packs)
        if missing:
            raise End("missing pack", min(missing))
        self.places, self.copies = least_places(facts), all_places(facts)
        for root, follows in roots:
            yield from self.walk(root, 0, follows)
        self.used = {("tree", tree) for tree in self.nodes} | {("content", name) for name in self.content}
        for name in self.content:
            self.place("content", name)
        kept, moves = self.plan(facts)
        for fact in moves:
            yield from self.move(*fact)
        yield from self.put_pack()
        put = yield from self.put_indexes(sorted(kept + self.new))
        yield from self.delete("index", [name for name in indexes if name not in put])
        stay = {pack for pack, _ in kept + self.new}
        gone = [name for name in packs if name not in stay]
        yield from self.delete("pack", gone)
        return Outcome(f"pruned {len(gone)} {self.bytes}")

    def place(self, kind, name):
        if (kind, name) not in self.places:
            raise End("missing " + kind, name)
        return self.places[kind, name]

    def blob(self, kind, name, places):
        """A blob's bytes, from the first of these places that has them."""
        for place in places:
            data, = yield from asked(("range", *place), "bytes")
            if len(data) == place[2] and name_of(data) == name:
                return data
        raise End("bad " + kind, name)

    def tree(self, name):
        """A tree's nodes, and its bytes. It is asked for once, at its least place."""
        if name not in self.nodes:
            data = yield from self.blob("tree", name, [self.place("tree", name)])
            try:
                self.nodes[name] = read_tree(data), data
            except Unreadable:
                raise End("bad tree", name)
        return self.nodes[name]

    def following(self, tree, data):
        """The name in which the directory of a tree goes on, and the nodes there, if it goes on."""
        try:
            name = read_next(data)
        except Unreadable:
            raise End("bad tree", tree)
        return (None, None) if name is None else (name, (yield from self.tree(name))[0])

    def walk(self, tree, depth, follows):
        """All that is reached from a tree, at each depth at which it is reached, along the parts of directories or not."""
        if (tree, depth, follows) in self.seen:
            return
        self.seen.add((tree, depth, follows))
        nodes, data = yield from self.tree(tree)
        following, later = (yield from self.following(tree, data)) if follows else (None, None)
        if nodes and depth == DEEPEST:
            raise End("bad tree", tree)
        if following is not None and not goes_on(nodes, later):
            raise End("bad tree", following)
        for node in nodes:
            if node["type"] == "file":
                self.content += [bytes.fromhex(name) for name in node["content"]]
            else:
                yield from self.walk(bytes.fromhex(node["subtree"]), depth + 1, follows)
        if following is not None:
            yield from self.walk(following, depth, follows)

    def is_used_copy(self, fact):
        kind, name, place = fact
        return (kind, name) in self.used and self.places[kind, name] == place

    def plan(self, facts):
        """The packs that stay, with the places of their blobs; and the used copies in all others, by their places."""
        kept, moves = [], []
        for pack, own in sorted(by_pack(facts).items()):
            copies = [fact for fact in own if self.is_used_copy(fact)]
            if copies == own and len(own) <= PACK_BLOBS:
                kept.append((pack, [(kind, name, offset, length) for kind, name, (_, offset, length) in own]))
            else:
                moves += copies
        return kept, moves

    def move(self, kind, name, _):
        """A blob comes to the pack that is open, from the first of its copies that is good."""
        self.open.append((kind, (yield from self.blob(kind, name, self.copies[kind, name]))))
        if sum(len(blob) for _, blob in self.open) >= self.client.config[3] or len(self.open) == PACK_BLOBS:
            yield from self.put_pack()

    def put(self, kind, data):
        yield from asked(("put", self.client.token, kind, name_of(data), data), "done")
        return name_of(data)

    def put_pack(self):
        """Puts the pack that is open, where a blob is in it."""
        if self.open:
            data, places = pack_of(self.open)
            self.new.append(((yield from self.put("pack", data)), places))
            self.bytes += sum(len(blob) for _, blob in self.open)
            self.open = []

    def put_indexes(self, packs):
        """Lists packs in indexes, each ended once it has enough blobs. Gives the names of these."""
        names, waiting, count = set(), [], 0
        for pack in packs:
            waiting.append(pack)
            count += len(pack[1])
            if count >= INDEX_BLOBS or pack is packs[-1]:
                names.add((yield from self.put("index", index_text(waiting))))
                waiting, count = [], 0
        return names

    def delete(self, kind, names):
        for name in names:
            yield from asked(("delete", self.client.token, kind, name), "done")


class Upgrade:
    """An upgrade: the config is of version 2 at its end."""
    role, exclusive = "upgrade", True

    def run(self, client):
        if client.config[4] < GREATEST_VERSION:
            yield from asked(("upgrade", client.token), "done")
        return Outcome("upgraded")
